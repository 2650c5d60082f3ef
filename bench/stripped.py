"""Crates without contracts: a program over them is there in minutes, before anything of them is proved.

Each clause is taken out, and each function requires what never holds, so that whatever it does is proved. A program reaches them by a
function of C that claims what never holds. The code that LLVM makes of them is that of the proved crates but for what it has no reason to
tell apart: counts of instructions differ by some hundredths. No such program is ever run for anything but to be counted.
"""

import contextlib
import importlib.machinery
import importlib.util
import io
import os
import re
import shutil
import subprocess
import sys

from parts import TOP

CLAUSE = re.compile(r"\s*(?://[^\n]*\s+)*(requires|ensures)\*?(\s+\w+)?\s*\{")
# Functions of the kit's traits, whose contracts are the traits' own.
OF_TRAITS = ("from", "eq", "fmt", "drop")
NEVER = "\n    requires { ⊥ }\n"


def behind(text, at, opening, closing):
    """The place behind the bracket that closes the one at a place."""
    depth = 0
    while True:
        depth += (text[at] == opening) - (text[at] == closing)
        at += 1
        if depth == 0:
            return at


def without_models(text):
    """A source without what only proofs read: ghost lines, models, and the tactics of single functions."""
    text = re.sub(r"^\s*ghost use [^;]*;\n", "", text, flags=re.M)
    while found := re.search(r"^impl(<[^\n{]*>)? Model for [^{]*\{", text, flags=re.M):
        text = text[: found.start()] + text[behind(text, found.end() - 1, "{", "}") :]
    text = text.replace("use std::marker::Model;\n", "").replace("{Brand, Model}", "Brand")
    text = re.sub(r"^\s*ghost [^;]*;\n", "", text, flags=re.M)
    return re.sub(r"#\[tactic\(auto, [^\]]*\)\]\n", "", text)


def without_clauses(text):
    """A source in which each function requires what never holds, and ensures nothing."""
    out, done = [], 0
    for found in re.finditer(r"\bfn (\w+)", text):
        line = text.rfind("\n", 0, found.start()) + 1
        if found.start() < done or text[line : found.start()].lstrip().startswith("//"):
            continue
        at = found.end()
        if text[at] == "<":
            at = behind(text, at, "<", ">")
        if text[at] != "(":
            continue
        at = behind(text, at, "(", ")")
        while not CLAUSE.match(text, at) and text[at] not in "{;":
            at += 1
        out.append(text[done:at].rstrip())
        while clause := CLAUSE.match(text, at):
            at = behind(text, clause.end() - 1, "{", "}")
        if found.group(1) not in OF_TRAITS:
            out.append(NEVER)
        done = at + len(text[at:]) - len(text[at:].lstrip())
    return "".join([*out, text[done:]])


def put(path, text):
    """Writes a file where it isn't there with this text: what stands is not checked again."""
    with contextlib.suppress(OSError), open(path) as file:
        if file.read() == text:
            return
    os.makedirs(os.path.dirname(path), exist_ok=True)
    with open(path, "w") as file:
        file.write(text)


def files_of(crate, *parts):
    """The paths of a crate's files, from the top of the repository."""
    for part in parts:
        for at, _, names in os.walk(os.path.join(TOP, "crates", crate, part)):
            yield from (os.path.relpath(os.path.join(at, name), TOP) for name in names)


def copy(crate, folder, is_stripped):
    paths = list(files_of(crate, *(("src",) if is_stripped else ("src", "specs", "proofs"))))
    for at, _, names in os.walk(os.path.join(folder, "crates", crate, "src")):
        for name in names:
            if os.path.relpath(os.path.join(at, name), folder) not in paths:
                os.remove(os.path.join(at, name))
    for path in paths:
        with open(os.path.join(TOP, path)) as file:
            text = file.read()
        put(os.path.join(folder, path), without_clauses(without_models(text)) if is_stripped else text)


def lines_of(crates):
    """The lines of crates.txt of these crates and all below them."""
    with open(os.path.join(TOP, "crates.txt")) as file:
        lines = dict(re.findall(r"^(\w+):(.*)$", file.read(), flags=re.M))
    wanted = {}

    def add(crate):
        if crate in lines and crate not in wanted:
            for below in lines[crate].split():
                add(below)
            wanted[crate] = lines[crate]

    for crate in crates:
        add(crate)
    return wanted


def hand_out(folder, stripped):
    """Gives the crates in the folder what `rt ci` has kept of them on this machine, where the kit keeps anything."""
    path = shutil.which("rt")
    if path is None:
        sys.exit("bench: rt is not on the path")
    path = os.path.realpath(path)
    sys.path.insert(0, os.path.dirname(path))
    loader = importlib.machinery.SourceFileLoader("rt", path)
    rt = importlib.util.module_from_spec(importlib.util.spec_from_loader("rt", loader))
    loader.exec_module(rt)
    if not hasattr(rt, "Kept"):
        return
    before = os.getcwd()
    os.chdir(folder)
    try:
        with contextlib.redirect_stdout(io.StringIO()):
            crates = rt.crates_of(folder)
            kept = rt.Kept(crates, False)
            kept.drop = lambda *_: None
            for crate in crates:
                stamp = os.path.join(crate.folder, "out", "rlib", "stamp")
                if crate.name in stripped or crate.is_program or os.path.exists(stamp):
                    continue
                if kept.give(crate, False, kept.key(crate)):
                    put(stamp, crate.stamp())
                kept.is_built(crate)
    finally:
        os.chdir(before)


def run(folder, words):
    """Whether a command of the kit succeeded, and what it said."""
    how = {"cwd": folder, "capture_output": True, "text": True, "env": {**os.environ, "RT_ALLOW_C": "1"}}
    done = subprocess.run(words, **how)
    return done.returncode == 0, done.stdout + done.stderr


def answer_loops(folder, said):
    """Writes the files that a check asks for: loops whose invariant never holds. Returns whether there were any."""
    asked = re.findall(r"write \./(\S+/Invariants\.antt) with these lines.*?\n((?:    .*\n)+)", said)
    for path, lines in asked:
        lines = re.sub(r"^    ", "", lines, flags=re.M)
        lines = re.sub(r"^use Rattle\.(?!.*\.Given as goal).*\n", "", lines, flags=re.M)
        lines = re.sub(r"^(invariant-.*) = .*$", r"\1 = ⊥", lines, flags=re.M)
        put(os.path.join(folder, path), re.sub(r"^(decreases-.*) = .*$", r"\1 = 0", lines, flags=re.M))
    return bool(asked)


def program(folder, stripped, name, source, c_source, crates):
    """Builds a program over crates, of which some are stripped, in a folder that is kept for the next time. Gives its path."""
    lines = lines_of(crates)
    for crate in lines:
        copy(crate, folder, crate in stripped)
    listed = [f"{crate}:{below}" for crate, below in lines.items()]
    put(os.path.join(folder, "crates.txt"), "\n".join([*listed, f"{name}: {' '.join(crates)}", ""]))
    with open(os.path.join(TOP, "HANDLES")) as file:
        put(os.path.join(folder, "HANDLES"), file.read())
    top = os.path.join(folder, "crates", name)
    put(os.path.join(top, "src", "main.rt"), source)
    put(os.path.join(top, "c", f"{name}.c"), c_source)
    hand_out(folder, stripped)
    for crate in [it for it in lines if it in stripped]:
        print(f"bench: {crate} ..", file=sys.stderr)
        at = os.path.join(folder, "crates", crate)
        is_done, said = run(at, ["rt", "check"])
        while not is_done:
            if not answer_loops(at, said):
                sys.exit(said)
            is_done, said = run(at, ["rt", "check"])
    print(f"bench: {name} ..", file=sys.stderr)
    is_done, said = run(top, ["rt", "run"])
    built = os.path.join(top, "out", name)
    if not is_done or not os.path.exists(built):
        sys.exit(said)
    return built
