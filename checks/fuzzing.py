"""What checks/fuzz gives to the program: inputs of checks/cases and examples/ that are changed, and such that are made.

All of it is a function of a `random.Random`, so that a seed and a number give the same input again.
"""

import importlib.machinery
import importlib.util
import os
import re

TOP = os.path.dirname(os.path.dirname(os.path.abspath(__file__)))
# Inputs of the cases that are larger are left out: their points are sizes.
MOST_BYTES = 16384


def load_run():
    """checks/run as a module."""
    loader = importlib.machinery.SourceFileLoader("run", os.path.join(TOP, "checks", "run"))
    module = importlib.util.module_from_spec(importlib.util.spec_from_loader("run", loader))
    loader.exec_module(module)
    return module


RUN = load_run()
WORDS_OF_TEXT = re.compile(rb'"(?:[^"\\\n]|\\.)*"|;;[^\n]*|[()]|[^\s()";]+|\s+|.', re.DOTALL)
STRINGS_OF_SOURCE = rb'"(?:[^"\\\n]|\\.)*"|\'(?:[^\'\\\n]|\\.)*\''
SIGNS_OF_SOURCE = rb"<<=|>>=|->|\+\+|--|<<|>>|<=|>=|==|!=|&&|\|\||[-+*/%&|^]="
WORDS_OF_SOURCE = re.compile(STRINGS_OF_SOURCE + rb"|\w+|\s+|" + SIGNS_OF_SOURCE + rb"|.", re.DOTALL)
WORDS_OF_LINES = re.compile(rb"\w+|\s|.", re.DOTALL)


class Corpus:
    """The inputs of the cases and the examples by their kinds: each a list of bytes, those of jobs with the files beside them."""

    def __init__(self):
        names = RUN.read_names()
        self.opcodes = {name: held for name, held in names.items() if re.fullmatch(r"[a-z]\w*(\.\w+)?", name)}
        found = {kind: {} for kind in ("binary", "text", "source", "trace", "words")}
        self.jobs = []
        for path, held in examples():
            found[kind_of(path)].setdefault(held)
        folder = os.path.join(TOP, "checks", "cases")
        for it in sorted(os.listdir(folder)):
            for case in RUN.read_cases(os.path.join(folder, it), names) if it.endswith(".txt") else ():
                if sum(map(len, case.files.values())) <= MOST_BYTES and all(is_plain(name) for name in case.files):
                    self.add(found, case)
        self.found = {kind: sorted(held) for kind, held in found.items()}

    def add(self, found, case):
        found["words"].setdefault(tuple(case.words))
        if case.words[:1] == ["run"] and len(case.words) == 2 and case.words[1] in case.files:
            self.jobs.append((case.words[1], case.files))
        for name, held in case.files.items():
            if case.words[:1] == ["judge"]:
                found["trace"].setdefault(held)
            elif case.words[:1] != ["run"] or name.endswith((".wasm", ".wat", ".c")):
                found["text" if case.words[:1] == ["asm"] or isinstance(case, RUN.Pair) else kind_of(name)].setdefault(held)

    def pick(self, r, kind):
        return r.choice(self.found[kind])


def is_plain(name):
    return re.fullmatch(r"\w[\w.]*", name) is not None and name != "folder"


def kind_of(name):
    return "text" if name.endswith(".wat") else "source" if name.endswith(".c") else "binary"


def examples():
    for folder, _, files in sorted(os.walk(os.path.join(TOP, "examples"))):
        for it in sorted(files):
            if it.endswith((".wasm", ".wat", ".c")):
                yield it, RUN.read_bytes(os.path.join(folder, it))


# ---- changes

EDGES = [0, 1, 2, 3, 7, 8, 15, 16, 17, 31, 32, 63, 64, 65, 127, 128, 255, 256, 1023, 1024, 1025, 16383, 16384, 32767, 32768, 49999, 50000]
EDGES += [65535, 65536, 65537, 2**20 - 1, 2**20, 2**20 + 1, 2**30, 2**31 - 1, 2**31]
EDGES += [2**32 - 1, 2**32, 2**40, 2**63 - 1, 2**63, 2**64 - 1, 2**64]


def edge(r):
    return r.choice(EDGES) if r.random() < 0.5 else r.randrange(300)


def changed_bytes(r, held, other):
    """Some bytes changed, cut, doubled, put in or taken from another input."""
    held = bytearray(held)
    for _ in range(r.choice([1, 1, 1, 2, 3, 8])):
        at = r.randrange(len(held) + 1)
        size = r.choice([1, 1, 2, 4, 16, 64])
        way = r.randrange(9)
        if way == 0 and at < len(held):
            held[at] ^= 1 << r.randrange(8)
        elif way == 1 and at < len(held):
            held[at] = r.randrange(256)
        elif way == 2:
            del held[at : at + size]
        elif way == 3:
            held[at:at] = held[at : at + size] * r.choice([1, 1, 2, 40])
        elif way == 4:
            held[at:at] = bytes(r.randrange(256) for _ in range(size))
        elif way == 5 and other:
            begin = r.randrange(len(other))
            held[at : at + r.choice([0, size])] = other[begin : begin + size]
        elif way == 6:
            held[at : at + 1] = RUN.unsigned(edge(r))
        elif way == 7:
            held[at : at + 1] = RUN.signed(r.choice([-1, 1]) * edge(r))
        elif way == 8 and r.random() < 0.2:
            del held[at:]
    return bytes(held)


def changed_words(r, pattern, held, other):
    """Some words changed, doubled, put in, exchanged or taken from another input."""
    words, others = pattern.findall(held), pattern.findall(other) or [b" "]
    for _ in range(r.choice([1, 1, 1, 2, 3, 8])):
        at = r.randrange(len(words) + 1)
        size = r.choice([1, 1, 2, 4, 16, 64])
        way = r.randrange(9)
        if way == 0:
            del words[at : at + size]
        elif way == 1:
            words[at:at] = words[at : at + size] * r.choice([1, 1, 2, 40])
        elif way == 2:
            begin = r.randrange(len(others))
            words[at : at + r.choice([0, size])] = others[begin : begin + size]
        elif way == 3 and words:
            words[at : at + 1] = [r.choice(words)]
        elif way == 4 and at < len(words):
            begin = r.randrange(len(words))
            words[at], words[begin] = words[begin], words[at]
        elif way == 5:
            numbers = [i for i, it in enumerate(words) if it[:1].isdigit()]
            if numbers:
                words[r.choice(numbers)] = str(edge(r)).encode()
        elif way == 6:
            words[at : at + 1] = [str(edge(r)).encode()]
        elif way == 7:
            words[at : at + 1] = [r.choice(others)]
        elif way == 8:
            return changed_bytes(r, b"".join(words), other)
    return b"".join(words)


# ---- modules

I, L, H = b"\x7f", b"\x7e", b"\x58"
NUMERIC = {
    "i32": "add sub mul div_s div_u rem_s rem_u and or xor shl shr_s shr_u rotl rotr",
    "compared": "eq ne lt_s lt_u gt_s gt_u le_s le_u ge_s ge_u",
    "alone": "clz ctz popcnt",
}
LOADS = {I: "i32.load i32.load8_s i32.load8_u i32.load16_s i32.load16_u", L: "i64.load i64.load8_s i64.load16_u i64.load32_s i64.load32_u"}
STORES = {I: "i32.store i32.store8 i32.store16", L: "i64.store i64.store8 i64.store16 i64.store32"}


class ModuleMaker:
    """A module of WebAssembly with handles that is nearly always valid."""

    def __init__(self, r, opcodes):
        self.r, self.op = r, opcodes
        self.has_memory, self.has_table = r.random() < 0.5, r.random() < 0.4
        self.types, self.funcs, self.globals = [], [], []
        self.makers = {I: [], L: [], H: []}
        self.doers = []
        self.fill()

    def fill(self):
        """The instructions by what they give: each with what it takes, and what stands behind it."""
        for t, name in ((I, "i32"), (L, "i64")):
            for it in NUMERIC["i32"].split():
                self.makers[t].append((f"{name}.{it}", [t, t], None))
            for it in NUMERIC["compared"].split():
                self.makers[I].append((f"{name}.{it}", [t, t], None))
            for it in NUMERIC["alone"].split():
                self.makers[t].append((f"{name}.{it}", [t], None))
            self.makers[I].append((f"{name}.eqz", [t], None))
            for it in LOADS[t].split() if self.has_memory else ():
                self.makers[t].append((it, [I], self.access))
            for it in STORES[t].split() if self.has_memory else ():
                self.doers.append((it, [I, t], self.access))
            for _ in range(3):
                for it in LOADS[t].split():
                    self.makers[t].append((it.replace(".", ".seg"), [H], None))
                for it in STORES[t].split():
                    self.doers.append((it.replace(".", ".seg"), [H, t], None))
        self.makers[I] += [("i32.wrap_i64", [L], None), ("handle.eq", [H, H], None), ("handle.is_null", [H], None)]
        self.makers[L] += [("i64.extend_i32_s", [I], None), ("i64.extend_i32_u", [I], None), ("handle.diff", [H, H], None)]
        self.makers[H] += [("handle.slice", [H, I, I], None), ("handle.seal", [H], None), ("handle.load", [H], None)]
        self.makers[H] += [("segment.new", [I], self.kind)] * 2 + [("handle.add", [H, L], self.scale)] * 3
        self.doers += [("handle.store", [H, H], None), ("segment.free", [H], self.kind)] * 3
        if self.has_memory:
            self.makers[I] += [("memory.size", [], None), ("memory.grow", [I], None)]

    def access(self):
        return bytes([int(self.r.random() < 0.02)]) + RUN.unsigned(edge(self.r) % 2**32 if self.r.random() < 0.3 else self.r.randrange(64))

    def kind(self):
        return bytes([int(self.r.random() < 0.2)])

    def scale(self):
        return RUN.unsigned(self.r.choice([1, 1, 4, 8, 16, edge(self.r) % 2**32]))

    def constant(self, t):
        r = self.r
        small = r.randrange(-3, 20) if r.random() < 0.7 else edge(r) * r.choice([1, -1])
        if t == H:
            return self.op["handle.null"]
        bits = 32 if t == I else 64
        held = (small + 2 ** (bits - 1)) % 2**bits - 2 ** (bits - 1)
        return (b"\x41" if t == I else b"\x42") + RUN.signed(held)

    def leaf(self, t):
        r = self.r
        chosen = [b"\x20" + RUN.unsigned(i) for i, it in enumerate(self.locals) if it == t]
        chosen += [b"\x23" + RUN.unsigned(i) for i, it in enumerate(self.globals) if it == t]
        if chosen and r.random() < (0.9 if t == H else 0.75):
            return r.choice(chosen)
        if t == H and r.random() < 0.98:
            return self.segment()
        return self.constant(t)

    def near(self, name):
        """A handle that is moved, or sliced, within some bytes."""
        r = self.r
        if name == "handle.add":
            return b"\x42" + RUN.signed(r.randrange(-1, 5)) + self.op[name] + RUN.unsigned(r.choice([1, 4, 4, 8]))
        return b"\x41" + RUN.signed(r.randrange(4)) + b"\x41" + RUN.signed(r.choice([8, 16, 16, 32])) + self.op[name]

    def segment(self):
        return b"\x41" + RUN.signed(self.r.choice([0, 1, 4, 8, 16, 17, 32, 64, 64, 100, 4096])) + self.op["segment.new"] + self.kind()

    def value(self, t, depth):
        r = self.r
        way = r.random()
        if depth <= 0 or way < (0.6 if t == H else 0.15):
            return self.leaf(t)
        if way < 0.7:
            name, takes, behind = r.choice(self.makers[t])
            if name == "handle.load" and r.random() < 0.8:
                return self.leaf(t)
            if name in ("handle.add", "handle.slice") and r.random() < 0.8:
                return self.value(H, depth - 1) + self.near(name)
            return b"".join(self.value(it, depth - 1) for it in takes) + self.op[name] + (behind() if behind else b"")
        if way < 0.78:
            self.labels.append(t)
            held = b"\x02" + t + self.statements(depth - 1) + self.value(t, depth - 1) + b"\x0b"
            self.labels.pop()
            return held
        if way < 0.86:
            held = self.value(I, depth - 1) + b"\x04" + t
            self.labels.append(t)
            held += self.value(t, depth - 1) + b"\x05" + self.value(t, depth - 1) + b"\x0b"
            self.labels.pop()
            return held
        if way < 0.9:
            return self.value(t, depth - 1) + self.value(t, depth - 1) + self.value(I, depth - 1) + b"\x1b"
        if way < 0.93 and t in self.locals:
            return self.value(t, depth - 1) + b"\x22" + RUN.unsigned(self.local(t))
        return self.call(t, depth)

    def local(self, t):
        return self.r.choice([i for i, it in enumerate(self.locals) if it == t])

    def call(self, t, depth):
        """A call that gives t, direct or through the table; without one, a leaf."""
        fit = [(i, self.types[it]) for i, it in enumerate(self.funcs) if self.types[it][1] == t]
        if not fit:
            return self.leaf(t) if t else b"\x01"
        number, (takes, _) = self.r.choice(fit)
        held = b"".join(self.value(it, depth - 2) for it in takes)
        if self.has_table and self.r.random() < 0.3:
            at = b"\x41" + RUN.signed(self.r.randrange(5)) if self.r.random() < 0.9 else self.value(I, depth - 2)
            return held + at + b"\x11" + RUN.unsigned(self.funcs[number]) + b"\x00"
        return held + b"\x10" + RUN.unsigned(number)

    def statements(self, depth):
        return b"".join(self.statement(depth) for _ in range(self.r.choice([0, 1, 1, 2, 3, 4]) if depth > 0 else 1))

    def statement(self, depth):
        r = self.r
        way = r.random()
        if way < 0.3:
            name, takes, behind = r.choice(self.doers)
            return b"".join(self.value(it, depth - 1) for it in takes) + self.op[name] + (behind() if behind else b"")
        if way < 0.5 and self.locals:
            i = r.randrange(len(self.locals))
            return self.value(self.locals[i], depth - 1) + b"\x21" + RUN.unsigned(i)
        if way < 0.57 and self.globals:
            i = r.randrange(len(self.globals))
            return self.value(self.globals[i], depth - 1) + b"\x24" + RUN.unsigned(i)
        if way < 0.65 and depth > 0:
            self.labels.append(b"")
            begin = r.choice([b"\x02\x40", b"\x03\x40"])
            held = begin + self.statements(depth - 1) + b"\x0b"
            self.labels.pop()
            return held
        if way < 0.75 and depth > 0:
            held = self.value(I, depth - 1) + b"\x04\x40"
            self.labels.append(b"")
            held += self.statements(depth - 1) + (b"\x05" + self.statements(depth - 1) if r.random() < 0.5 else b"") + b"\x0b"
            self.labels.pop()
            return held
        if way < 0.8:
            empty = [i for i, it in enumerate(reversed(self.labels)) if it == b""]
            if empty:
                return self.value(I, depth - 1) + b"\x0d" + RUN.unsigned(r.choice(empty))
        if way < 0.82:
            # out of a block of its own, or of one around it
            empty = [0] + [i + 1 for i, it in enumerate(reversed(self.labels)) if it == b""]
            row = [RUN.unsigned(r.choice(empty)) for _ in range(r.randrange(4))]
            return b"\x02\x40" + self.value(I, depth - 1) + b"\x0e" + RUN.listed(row) + b"\x00\x0b"
        if way < 0.84:
            return self.value(I, depth - 1) + b"\x04\x40" + (self.value(self.gives, depth - 1) if self.gives else b"") + b"\x0f\x0b"
        if way < 0.85:
            return self.value(I, depth - 1) + b"\x04\x40\x00\x0b"
        if way < 0.95:
            return self.call(b"", depth)
        t = r.choice([I, L, H])
        return self.value(t, depth - 1) + b"\x1a"

    def body(self, takes, gives):
        r = self.r
        own = [r.choice([I, I, L, H, H]) for _ in range(r.randrange(5))]
        self.locals, self.labels, self.gives = list(takes) + own, [gives], gives
        held = b"".join(self.segment() + b"\x21" + RUN.unsigned(i + len(takes)) for i, it in enumerate(own) if it == H and r.random() < 0.9)
        held += b"".join(self.segment() + b"\x24" + RUN.unsigned(i) for i, it in enumerate(self.globals) if it == H and r.random() < 0.3)
        held += b"".join(self.statement(r.choice([2, 3, 4])) for _ in range(r.randrange(1, 7)))
        held += self.value(gives, 3) if gives else b""
        return RUN.listed([b"\x01" + it for it in own]) + held + b"\x0b"

    def made(self):
        r = self.r
        self.types = [([], b""), ([], I), ([I], I), ([], L)]
        for _ in range(r.randrange(3)):
            self.types.append(([r.choice([I, L, H]) for _ in range(r.randrange(4))], r.choice([b"", I, L, H])))
        imports = [(b"putchar", 2), (b"getchar", 1), (b"abort", 0)]
        imports = [it for it in imports if r.random() < (0.1 if it[0] == b"abort" else 0.6)]
        bodies = [r.choice([1, 1, 3, 0])] + [r.randrange(len(self.types)) for _ in range(r.randrange(4))]
        self.funcs = [it for _, it in imports] + bodies
        self.globals = [r.choice([I, L, H, H]) for _ in range(r.randrange(4))]
        parts = [RUN.section("types", [b"\x60" + RUN.listed(takes) + RUN.listed([gives] if gives else []) for takes, gives in self.types])]
        if imports:
            parts.append(RUN.section("imports", [RUN.sized(b"env") + RUN.sized(name) + b"\x00" + RUN.unsigned(it) for name, it in imports]))
        parts.append(RUN.section("funcs", [RUN.unsigned(it) for it in bodies]))
        if self.has_table:
            parts.append(RUN.section("tables", [b"\x70\x00" + RUN.unsigned(r.randrange(3, 7))]))
        if self.has_memory:
            parts.append(RUN.section("memories", [r.choice([b"\x00\x01", b"\x01\x01\x02", b"\x00\x00"])]))
        if self.globals:
            parts.append(RUN.section("globals", [it + b"\x01" + self.constant(it) + b"\x0b" for it in self.globals]))
        exported = [RUN.sized(b"main") + b"\x00" + RUN.unsigned(len(imports))]
        exported += [RUN.sized(b"f%d" % i) + b"\x00" + RUN.unsigned(i) for i in range(len(self.funcs)) if r.random() < 0.4]
        parts.append(RUN.section("exports", exported))
        plain = [i for i, it in enumerate(self.funcs) if it == 0 and i >= len(imports)]
        if plain and r.random() < 0.2:
            parts.append(RUN.section("start", [RUN.unsigned(r.choice(plain))]))
        if self.has_table:
            held = [RUN.unsigned(r.randrange(len(self.funcs))) for _ in range(r.randrange(4))]
            parts.append(RUN.section("elements", [b"\x00\x41\x00\x0b" + RUN.listed(held)]))
        parts.append(RUN.section("code", [self.body(*self.types[it]) for it in bodies]))
        if self.has_memory and r.random() < 0.5:
            parts.append(RUN.section("data", [b"\x00\x41" + RUN.signed(r.randrange(60)) + b"\x0b" + RUN.sized(b"some data")]))
        return b"\x00asm\x01\x00\x00\x00" + b"".join(parts)


# ---- programs of C

INTEGERS = ["int", "unsigned", "char", "signed char", "unsigned char", "short", "unsigned short", "long", "long long", "unsigned long long"]
BINARIES = "+ - * / % & | ^ << >> < > <= >= == != && ||".split()


class SourceMaker:
    """A unit of C that nearly always has a typing, and whose program often does something unsafe."""

    def __init__(self, r):
        self.r = r
        self.globals, self.functions, self.scope, self.count = [], [], [], 0

    def name(self, letter):
        self.count += 1
        return f"{letter}{self.count}"

    def visible(self, kind):
        return [name for name, it in self.globals + self.scope if it == kind]

    def number(self):
        r = self.r
        held = edge(r) if r.random() < 0.3 else r.randrange(20)
        ways = [str(held % 2**31), hex(held % 2**32), f"{held % 2**32}u", f"{held % 2**63}ll", f"(-{held % 2**31})"]
        return r.choice([*ways, "'a'", "'\\n'", "EOF"])

    def integer(self, depth):
        r = self.r
        way = r.random()
        names = self.visible("int")
        if depth <= 0 or way < 0.15:
            return r.choice(names) if names and r.random() < 0.7 else self.number()
        if way < 0.45:
            sign = r.choice(BINARIES)
            right = r.choice(["3", "7u", "-1"]) if sign in "/%" and r.random() < 0.8 else self.integer(depth - 1)
            return f"({self.integer(depth - 1)} {sign} {right})"
        if way < 0.5:
            return f"{r.choice('-~!')}{self.integer(depth - 1)}"
        if way < 0.55:
            return f"({self.integer(depth - 1)} ? {self.integer(depth - 1)} : {self.integer(depth - 1)})"
        if way < 0.6:
            return f"({r.choice(INTEGERS)}){self.integer(depth - 1)}"
        if way < 0.75:
            return self.place(depth - 1)
        if way < 0.8:
            return f"({self.place(depth - 1)} {r.choice(['=', '+=', '-=', '*=', '>>=', '<<=', '|='])} {self.integer(depth - 1)})"
        if way < 0.84:
            return r.choice(["{}++", "--{}", "++{}"]).format(self.place(depth - 1))
        if way < 0.87:
            return f"({self.pointer(depth - 1)} {r.choice(['==', '!=', '<', '-'])} {self.pointer(depth - 1)})"
        if way < 0.89:
            return r.choice(["sizeof(int[3])", "sizeof(struct s)", f"sizeof {self.place(depth - 1)}", "getchar()", "putchar(65)"])
        if way < 0.97 and self.functions:
            name, takes = r.choice(self.functions)
            return f"{name}({', '.join(self.pointer(depth - 2) if it == 'p' else self.integer(depth - 2) for it in takes)})"
        return f"putchar({self.integer(depth - 1)})"

    def place(self, depth):
        r = self.r
        ways = [f"{it}[{self.index(depth - 1)}]" for it in self.visible("array")] + self.visible("int")
        ways += [f"{it}.{r.choice(['c', 'n', 'a[1]', 'in.x'])}" for it in self.visible("struct")]
        ways += [f"{it}->{r.choice(['c', 'n', 'a[2]', 'in.y'])}" for it in self.visible("link")]
        if not ways or (depth > 0 and r.random() < 0.4):
            return r.choice(["(*{})", "{}[{}]"]).format(self.pointer(depth - 1), self.index(depth - 2))
        return r.choice(ways)

    def pointer(self, depth):
        """A pointer to int."""
        r = self.r
        way = r.random()
        if depth > 0 and way < 0.2:
            return f"({self.pointer(depth - 1)} {r.choice('+-')} {self.index(depth - 2)})"
        if depth > 0 and way < 0.3:
            size = self.integer(depth - 2) if r.random() < 0.3 else r.choice([0, 3, 4, 16, 40, 400])
            return r.choice(["((int *)malloc({}))", "((int *)calloc({}, 4))"]).format(size)
        if depth > 0 and way < 0.35:
            return f"({self.integer(depth - 1)} ? {self.pointer(depth - 1)} : {self.pointer(depth - 1)})"
        ways = self.visible("pointer") + self.visible("array") * 2
        ways += [f"{it}->p" for it in self.visible("link")]
        ways += [way.format(it) for it in self.visible("struct") for way in ("{}.a", "(&{}.n)")]
        return r.choice(ways) if ways and way < 0.97 else "((int *)NULL)"

    def index(self, depth):
        """An integer that is mostly a place of an array, and not of the shortest ones."""
        r = self.r
        if r.random() < 0.7:
            return str(r.choice([0, 0, 0, 1, 1, 2, 3]))
        return f"({self.integer(depth)} & {r.choice([1, 3])})" if r.random() < 0.7 else self.integer(depth)

    def declaration(self, outer):
        r = self.r
        kind = r.choice(["int", "int", "array", "pointer", "struct", "link"])
        name = self.name("g" if outer else "v")
        if kind == "int":
            value = self.number() if outer else self.integer(2)
            if outer and "EOF" in value:
                value = "1"
            held = f"{r.choice(INTEGERS)} {name} = {value};"
        elif kind == "array":
            held = f"int {name}[{r.choice([1, 3, 4, 4, 8, 16])}]{r.choice(['', ' = {1}', ' = {0}'])};"
        elif kind == "pointer":
            arrays = self.visible("array")
            held = f"int *{name} = {r.choice(arrays) if outer and arrays else '0' if outer else self.pointer(2)};"
        elif kind == "struct":
            others = self.visible("struct")
            held = f"struct s {name}{' = ' + r.choice(others) if others and not outer and r.random() < 0.4 else ''};"
        else:
            structs = self.visible("struct")
            held = f"struct s *{name} = {'&' + r.choice(structs) if structs else '0' if outer else 'malloc(sizeof(struct s))'};"
        (self.globals if outer else self.scope).append((name, kind))
        return held

    def statement(self, depth):
        r = self.r
        way = r.random()
        if way < 0.2:
            return f"{self.place(2)} = {self.integer(3)};"
        if way < 0.35:
            return f"{self.integer(3)};"
        if way < 0.42:
            pointers = self.visible("pointer")
            return f"{r.choice(pointers)} = {self.pointer(2)};" if pointers else ";"
        if way < 0.46:
            return f"free({self.pointer(2)});" if r.random() < 0.5 else f"putchar({self.integer(2)});"
        if way < 0.49:
            structs, links = self.visible("struct"), self.visible("link")
            places = structs + [f"*{it}" for it in links]
            return f"{r.choice(places)} = {r.choice(places)};" if places else ";"
        if depth <= 0:
            return f"putchar({self.integer(2)});"
        if way < 0.6:
            return f"if ({self.integer(2)}) {self.block(depth - 1)}" + (f" else {self.block(depth - 1)}" if r.random() < 0.4 else "")
        if way < 0.7:
            name = self.name("i")
            self.scope.append((name, "int"))
            held = f"for (int {name} = 0; {name} < {r.choice([3, 8, 17])}; {name}++) {self.block(depth - 1, loop=True)}"
            self.scope.remove((name, "int"))
            return held
        if way < 0.74:
            return f"while ({self.integer(2)}) {self.block(depth - 1, loop=True)}"
        if way < 0.77:
            return f"do {self.block(depth - 1, loop=True)} while ({self.integer(2)});"
        if way < 0.84:
            labels = [it for it in ["case 0", "case 1", "case 'a'", "default"] if r.random() < 0.7]
            labels = " ".join(f"{it}: {self.statement(depth - 1)}{r.choice(['', ' break;'])}" for it in labels)
            return f"switch ({self.integer(2)}) {{ {labels} }}"
        if way < 0.9:
            return self.block(depth - 1)
        return r.choice(["return 3;", ";", self.block(depth - 1), "abort();" if r.random() < 0.1 else ";"])

    def block(self, depth, loop=False):
        r = self.r
        before = len(self.scope)
        held = [self.declaration(False) for _ in range(r.choice([0, 0, 1, 2]))]
        held += [self.statement(depth) for _ in range(r.randrange(1, 4))]
        if loop and r.random() < 0.5:
            held.append(f"if ({self.integer(1)}) {r.choice(['break', 'continue', 'break'])};")
        del self.scope[before:]
        return "{ " + " ".join(held) + " }"

    def made(self):
        r = self.r
        held = ["struct t { int x; long long y; };", "struct s { char c; int n; int a[4]; int *p; struct t in; };"]
        held += ["int table[8];", "struct s first;"][: r.randrange(3)]
        self.globals += [("table", "array"), ("first", "struct")][: len(held) - 2]
        held += [self.declaration(True) for _ in range(r.randrange(5))]
        for i in range(r.randrange(1, 4)):
            takes = [r.choice("ip") for _ in range(r.randrange(3))] if i else []
            name = self.name("f")
            self.scope = [(f"a{k}", "pointer" if it == "p" else "int") for k, it in enumerate(takes)]
            listed = ", ".join(f"int *a{k}" if it == "p" else f"{r.choice(INTEGERS)} a{k}" for k, it in enumerate(takes)) or "void"
            if r.random() < 0.3:
                self.functions.append((name, takes))
            held.append(f"int {name}({listed}) {self.block(3)[:-1]} return {self.integer(2)}; }}")
            if (name, takes) not in self.functions:
                self.functions.append((name, takes))
        self.scope = []
        held.append(f"int main(void) {self.block(4)[:-1]} return {self.integer(3)}; }}")
        return "\n".join(held).encode() + b"\n"


# ---- traces

def made_trace(r):
    """Events of some segments, most of which may come next."""
    live, lines, made, place = [], [], 0, 0
    for _ in range(r.choice([1, 3, 10, 60])):
        way = r.random()
        if way < 0.3 or not live:
            size = r.choice([0, 1, 4, 16, 17, 64, 4096])
            made += r.random() < 0.98
            lines.append(f"alloc {made} {place} {size}")
            live.append((made, place, size))
            place += (size + 15) // 16 * 16 + r.choice([0, 0, 16, 1])
            continue
        identity, _, size = r.choice(live)
        low = r.randrange(size + 2)
        high = r.randrange(low, size + 2)
        if way < 0.5:
            lines.append(f"slice {identity} 0 {size} {low} {high}{r.choice(['', '', ' sealed'])}")
        elif way < 0.6:
            lines.append(f"seal {identity} {low if r.random() < 0.3 else 0} {size}")
        elif way < 0.9:
            lines.append(f"{r.choice(['read', 'write'])} {identity} 0 {size} {r.randrange(size + 1)} {r.choice([1, 2, 4, 8, 16])}")
        elif way < 0.95:
            lines.append(f"refused {edge(r) % 2**32}")
        else:
            lines.append(f"free {identity}")
            live = [it for it in live if it[0] != identity]
    return ("\n".join(lines) + r.choice(["\n", ""])).encode()
