"""Computes the pressure that a block causes in the ancestors of its group, and how further tasks
can change that pressure.

Such a task belongs to an ancestor, and is called an overlay: for a part of the block it runs, waits
for IO, is in a memory stall or is ready. It needs no further time, so it adds no weight to its
group. It doesn't count in the groups below its own.
"""
from __future__ import annotations

from typing import NamedTuple

from .block import Span

# The bits of a status. It describes a segment, a period of a block in which no task changes its
# state: a task waits for IO, a task is in a memory stall, the time counts as memory full, a task is
# ready, a task runs.
WAITS, STALLS, ALL_STALL, READY, RUNS = 1, 2, 4, 8, 16
BUSY = READY | RUNS
STATUSES = 32
IN_STALL = frozenset("sRX")


def levels_of(status: int) -> tuple[int, ...]:
    """Returns 1 for each of the six levels (in the order of LEVELS) that counts time in this
    status, and 0 for the others.
    """
    io, stalls, all_stall = status & WAITS, status & STALLS, status & ALL_STALL
    found = (
        io,
        io and not status & BUSY,
        stalls,
        all_stall,
        status & READY,
        status & READY and not status & RUNS,
    )
    return tuple(int(bool(it)) for it in found)


def status_of(states: str) -> int:
    """Returns the status of a segment, from the letters of its tasks' states."""
    is_stalled = any(it in IN_STALL for it in states)
    is_all = is_stalled and ("X" in states or not any(it in "rx" for it in states))
    status = WAITS * ("w" in states) + STALLS * is_stalled + ALL_STALL * is_all
    return (
        status + READY * any(it in "rR" for it in states) + RUNS * any(it in "xX" for it in states)
    )


# The bit of each state in a set of states, and the status of each set.
STATES = "wsrRxX"
BITS = {state: 1 << number for number, state in enumerate(STATES)}
STATUS_OF = [
    status_of("".join(it for it in STATES if BITS[it] & bits)) for bits in range(1 << len(STATES))
]


class Overlay(NamedTuple):
    """A task that can be added to segments of a block. `after` has, for each status of a segment,
    the status with the task added, or None if the task would also change other levels.
    """

    kind: str
    state: str
    after: tuple[int | None, ...]
    # The levels that change, by status, as pairs of a level and 1 or -1.
    changes: tuple[tuple[tuple[int, int], ...], ...]
    # A bit mask of the statuses to which the task can be added.
    takes: int


def overlay(kind: str, state: str, has: int, lacks: int, adds: int, takes: int = 0) -> Overlay:
    """Returns an overlay for all statuses with all bits of `has` and no bit of `lacks`. The task
    sets the bits `adds`, and clears the bits `takes`.
    """
    after = [
        (it | adds) & ~takes if it & has == has and not it & lacks else None
        for it in range(STATUSES)
    ]
    changes = []
    for before, now in enumerate(after):
        pairs = zip(levels_of(before), levels_of(before if now is None else now))
        changes.append(
            tuple((level, new - old) for level, (old, new) in enumerate(pairs) if old != new)
        )
    takes = sum(1 << status for status, it in enumerate(after) if it is not None)
    return Overlay(kind, state, tuple(after), tuple(changes), takes)


LESS_OF_BOTH = overlay("r", "x", WAITS | ALL_STALL, BUSY, RUNS, ALL_STALL)
LESS_IO_FULL = (
    overlay("r", "x", WAITS, BUSY | STALLS, RUNS),
    overlay("r", "X", WAITS | ALL_STALL, BUSY, RUNS),
)
LESS_MEMORY_FULL = (overlay("r", "x", ALL_STALL, BUSY | WAITS, RUNS, ALL_STALL),)
LESS_CPU_FULL = (
    overlay("r", "x", READY, RUNS | ALL_STALL, RUNS),
    overlay("r", "X", READY | ALL_STALL, RUNS, RUNS),
)
# Overlays that reduce a full level, by the number of the level.
LESS_FULL = {1: LESS_IO_FULL, 3: LESS_MEMORY_FULL, 5: LESS_CPU_FULL}
# Overlays that increase a resource's some and full together, and overlays that increase only its
# some. Both are keyed by the level number of some.
MORE_OF_BOTH = {
    0: overlay("w", "w", 0, WAITS | BUSY, WAITS),
    2: overlay("s", "s", 0, STALLS | BUSY, STALLS | ALL_STALL),
}
MORE_SOME = {
    0: (overlay("w", "w", READY, WAITS, WAITS), overlay("w", "w", RUNS, WAITS, WAITS)),
    2: (overlay("s", "s", READY, STALLS, STALLS), overlay("s", "s", RUNS, STALLS, STALLS)),
    4: (overlay("o", "r", RUNS, READY, READY),),
}


def segments_of(spans: list[Span], length: int) -> list[list[int]]:
    """Returns the segments of a block, each as [begin, end, status]."""
    if len(spans) == 1 and spans[0].begin == 0 and spans[0].end == length:
        return [[0, length, STATUS_OF[BITS[spans[0].state]]]]
    states = [(begin, end, BITS[state]) for begin, end, _, state in spans]
    marks = sorted({0, length, *(it[0] for it in states), *(it[1] for it in states)})
    found = []
    for start, stop in zip(marks, marks[1:]):
        bits = 0
        for begin, end, bit in states:
            if begin <= start < end:
                bits |= bit
        found.append([start, stop, STATUS_OF[bits]])
    return found
