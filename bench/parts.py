"""What the measurements share: modules in bytes, the programs that are measured, and processor time."""

import os
import re
import shutil
import subprocess
import sys
import tempfile
from typing import NamedTuple

TOP = os.path.dirname(os.path.dirname(os.path.abspath(__file__)))
SEVEN = os.path.join(TOP, "examples", "seven.wasm")

# The greatest budget of steps, as words of the command line.
PATIENT = ["--budget", "1000000000000"]

MARKERS = b"\0asm\1\0\0\0"
MOST_BYTES = 4_194_304


# Bytes of a module, by the binary format of WebAssembly 1.0


def unsigned(n):
    out = bytearray()
    while n >= 128:
        out.append(n % 128 + 128)
        n //= 128
    out.append(n)
    return bytes(out)


def signed(n):
    out = bytearray()
    while not -64 <= n < 64:
        out.append(n % 128 + 128)
        n >>= 7
    out.append(n % 128)
    return bytes(out)


def sized(content):
    return unsigned(len(content)) + content


def section(number, content):
    return bytes([number]) + sized(content)


def vector(items):
    return unsigned(len(items)) + b"".join(items)


# A loop that adds up i32 values of the memory, with an if in it; parameters: where, how many.
SUM = bytes.fromhex(
    "01017f"  # one local of i32
    "0340"  # loop
    "2001450440"  # local.get 1, i32.eqz, if
    "2002200041046a3602000f"  # sum to memory[where + 4], return
    "0b"
    "200220002802006a2102"  # sum += memory[where]
    "200041046a2100"  # where += 4
    "2001417f6a2101"  # count -= 1
    "0c000b"  # br 0, end
    "0b"
)


def module_of(bodies, main=None):
    """A module of functions of two parameters, with a page of memory, and with a function `main` last where its body is given."""
    types = [bytes.fromhex("60027f7f00")] + [bytes.fromhex("6000017f")] * (main is not None)
    functions = [b"\0"] * len(bodies) + [b"\1"] * (main is not None)
    exports = [sized(b"main") + b"\0" + unsigned(len(bodies))] * (main is not None)
    codes = [sized(body) for body in bodies] + ([sized(main)] if main is not None else [])
    return (
        MARKERS
        + section(1, vector(types))
        + section(3, vector(functions))
        + section(5, vector([b"\0\1"]))
        + (section(7, vector(exports)) if exports else b"")
        + section(10, vector(codes))
    )


def many_functions(main=None):
    """A module near the greatest size, of many small functions."""
    each = len(sized(SUM)) + 1
    return module_of([SUM] * ((MOST_BYTES - 200) // each), main)


# The programs


def find(*tools):
    """The paths of tools, or None with a word to the user where one is missing."""
    for tool in tools:
        if shutil.which(tool) is None:
            print(f"bench: skipped, {tool} is not there", file=sys.stderr)
            return None
    return [shutil.which(tool) for tool in tools]


def proved_program():
    """The program as it is built for users."""
    command = [os.path.join(TOP, "mswasm"), "exec", SEVEN]
    subprocess.run(command, check=True, stderr=subprocess.DEVNULL)
    return os.path.join(TOP, "crates", "ms_tool", "out", "ms_tool")


def change(path, old, new):
    with open(path) as file:
        text = file.read()
    if text.count(old) != 1:
        sys.exit(f"{path}: '{old}' does not stand there once")
    with open(path, "w") as file:
        file.write(text.replace(old, new))


def newest_source():
    times = [os.path.getmtime(os.path.join(TOP, "crates.txt"))]
    for folder, folders, files in os.walk(os.path.join(TOP, "crates")):
        folders[:] = [it for it in folders if it not in ("out", "must-fail")]
        times += [os.path.getmtime(os.path.join(folder, it)) for it in files]
    return max(times)


def changed_program(name, source, changes):
    """The program with a source of `ms_run` changed, proved and built in a copy; kept in `bench/out` until a source changes."""
    kept = os.path.join(TOP, "bench", "out", name)
    if os.path.exists(kept) and os.path.getmtime(kept) > newest_source():
        return kept
    with tempfile.TemporaryDirectory() as folder:
        for it in ("crates.txt", "HANDLES"):
            shutil.copy(os.path.join(TOP, it), folder)
        skip = shutil.ignore_patterns("must-fail")
        shutil.copytree(os.path.join(TOP, "crates"), os.path.join(folder, "crates"), ignore=skip)
        for old, new in changes.items():
            change(os.path.join(folder, "crates", "ms_run", "src", source), old, new)
        tool = os.path.join(folder, "crates", "ms_tool")
        print(f"proving and building the program as {name} ..", file=sys.stderr)
        done = subprocess.run(["rt", "run", "--", "exec", SEVEN], cwd=tool, capture_output=True, text=True)
        program = os.path.join(tool, "out", "ms_tool")
        if done.returncode != 0 or not os.path.exists(program):
            sys.exit(done.stdout + done.stderr)
        os.makedirs(os.path.dirname(kept), exist_ok=True)
        shutil.copy2(program, kept)
        os.utime(kept)
    return kept


# Instructions of the processor


def instructions(command, variables=None):
    """How many instructions of the processor a command takes, in an environment with these variables more."""
    with tempfile.NamedTemporaryFile("r") as log:
        words = ["valgrind", "--tool=callgrind", "--callgrind-out-file=/dev/null", f"--log-file={log.name}", *command]
        how = {"stdin": subprocess.DEVNULL, "stderr": subprocess.DEVNULL, "env": {**os.environ, **(variables or {})}}
        subprocess.run(words, check=True, **how)
        return int(re.search(r"Collected : (\d+)", log.read()).group(1))


# Processor time


class Spent(NamedTuple):
    seconds: float  # of the processor, in the program and for it
    memory: int  # the greatest resident size, in bytes
    status: int
    report: bytes


def memory_of(command):
    """The greatest resident size of a run. The system counts that of whoever starts a program as the program's, so that
    something small, GNU time, has to start it."""
    with tempfile.NamedTemporaryFile("r") as told:
        words = ["/usr/bin/time", "--quiet", "--format=%M", f"--output={told.name}", *command]
        subprocess.run(words, stdin=subprocess.DEVNULL, stdout=subprocess.DEVNULL, stderr=subprocess.DEVNULL)
        return int(told.read()) * 1024


def spent(command, memory=0):
    with tempfile.TemporaryFile() as report:
        process = subprocess.Popen(command, stdin=subprocess.DEVNULL, stdout=subprocess.DEVNULL, stderr=report)
        _, status, usage = os.wait4(process.pid, 0)
        process.returncode = os.waitstatus_to_exitcode(status)
        report.seek(0)
        return Spent(usage.ru_utime + usage.ru_stime, memory, process.returncode, report.read())


def least(runs, *commands):
    """For each command the run that took the least time, of so many, with the memory of one more. The commands take turns, so
    that what else the machine does meets all of them."""
    memory = [memory_of(command) for command in commands]
    rounds = [[spent(*it) for it in zip(commands, memory)] for _ in range(runs)]
    return [min(of_one, key=lambda it: it.seconds) for of_one in zip(*rounds)]
