"""The loops of the measurements, as modules in bytes. Each gives the count of its turns."""

from typing import Callable, NamedTuple

from parts import MARKERS, section, signed, sized, vector


def module(main, others=()):
    """Types [] -> [i32] and [i32] -> [i32]; `main` is function 0 and has the first one, all others have the second."""
    codes = [main, *others]
    return (
        MARKERS
        + section(1, vector([bytes.fromhex("6000017f"), bytes.fromhex("60017f017f")]))
        + section(3, vector([b"\0"] + [b"\1"] * len(others)))
        + section(5, vector([b"\0\1"]))
        + section(7, vector([sized(b"main") + b"\0\0"]))
        + section(10, vector([sized(code) for code in codes]))
    )


# Each loop has its counter in local 0: what is done in a turn, and how many steps that is beside `loop` itself.
COUNT = bytes.fromhex("200041016a2200")  # local.get 0, i32.const 1, i32.add, local.tee 0


def turns(n):
    return b"\x41" + signed(n) + b"\x49\x0d\x00"  # i32.const n, i32.lt_u, br_if 0


def loop(locals_, before, body, n):
    return locals_ + before + b"\x03\x40" + body + COUNT + turns(n) + b"\x0b\x20\x00\x0b"


ONE = bytes.fromhex("01017f")
WITH_HANDLE = bytes.fromhex("02017f0158")


def counting(n):
    return module(loop(ONE, b"", b"", n))


def calls(n):
    # local.get 0, call 1, drop; the function is local.get 0, i32.const 1, i32.add
    return module(loop(ONE, b"", bytes.fromhex("200010011a"), n), [bytes.fromhex("00200041016a0b")])


def linear_memory(n):
    # i32.const 16, i32.const 16, i32.load, i32.const 1, i32.add, i32.store
    return module(loop(ONE, b"", bytes.fromhex("4110411028020041016a360200"), n))


def segment(n):
    # a segment of 32 bytes, its handle in local 1; then the same as above, by local.get 1 (twice) for the addresses
    access = bytes.fromhex("20012001e00a41016ae016")
    return module(loop(WITH_HANDLE, bytes.fromhex("4120e001002101"), access, n))


class Loop(NamedTuple):
    make: Callable[[int], bytes]  # the module of so many turns
    steps: int  # of a turn
    for_wabt: bool  # can wabt run it?


LOOPS = {
    "counting": Loop(counting, 8, True),
    "calls": Loop(calls, 8 + 3 + 3, True),
    "linear memory": Loop(linear_memory, 8 + 6, True),
    "segment": Loop(segment, 8 + 6, False),
}
