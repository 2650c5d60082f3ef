"""Traces of the measurements, as the events that they have."""

import random

from parts import MOST_BYTES

LIVE = 60_000


def made_and_freed():
    """One segment after the other at the same place."""
    return (event for n in range(1, 10**6) for event in (f"alloc {n} 0 16", f"free {n}"))


def many_live():
    """As many as are live at once, each read through the shade of the whole."""
    yield from (f"alloc {n} {16 * n} 16" for n in range(1, LIVE + 1))
    order = random.Random(1)
    while True:
        n = order.randint(1, LIVE)
        yield f"read {n} 0 16 {16 * n + 4} 4"


def many_gaps():
    """Every other one of them freed, and as many made in the gaps, over and over."""
    yield from (f"alloc {n} {16 * n} 16" for n in range(1, LIVE + 1))
    newest = {n: n for n in range(2, LIVE + 1, 2)}
    made = LIVE
    order = random.Random(2)
    while True:
        n = 2 * order.randint(1, LIVE // 2)
        made += 1
        yield f"free {newest[n]}"
        yield f"alloc {made} {16 * n} 16"
        newest[n] = made


def slices():
    """A shade more each time."""
    yield "alloc 1 0 1048576"
    for n in range(1, 10**6):
        yield f"slice 1 0 1048576 {n} 1048576"
        yield f"write 1 {n} 1048576 {n} 1"


def refusals():
    """Many gaps, of which none is large enough."""
    yield from (f"alloc {n} {32 * n} 16" for n in range(1, 30_001))
    yield "alloc 30001 960032 88544"
    while True:
        yield "refused 4096"


def text_of(events):
    """The first events, about as many bytes as a file may have."""
    lines, size = [], 0
    for event in events:
        size += len(event) + 1
        if size > MOST_BYTES:
            return lines
        lines.append(event)
