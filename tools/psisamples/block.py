"""Computes blocks. A block is a period on a processor in which tasks of a group cause six given
stall times: some and full of IO, memory and CPU.

The times (ns) are in the order of LEVELS. A block needs at most four tasks, one of each kind: `w`
waits for IO, `s` sleeps in a memory stall, `o` is ready, and `r` runs. A block has three parts. In
the first no task is ready. In the second `o` is ready and no task runs. In the third `r` runs until
the end of the block, so that the length of the block, which is also its weight, is a whole number
of ms.

A letter stands for the state of a task: in `w` it waits for IO, in `s` it sleeps in a memory stall,
in `r` and `R` it is ready, in `x` and `X` it runs, and in `z` it sleeps. In `R` and `X` the task is
also in a memory stall.
"""
from __future__ import annotations

from typing import NamedTuple

from psireplay.lines import LEVELS as SOME_AND_FULL

MS = 1_000_000
TICK = 2000 * MS
RESOURCES = ("io", "memory", "cpu")
LEVELS = tuple((resource, level) for resource in RESOURCES for level in SOME_AND_FULL)
Times = tuple[int, ...]
NONE: Times = (0,) * len(LEVELS)


class Span(NamedTuple):
    """The state of a task: the task of kind `kind` is in `state` from `begin` to `end` (ns since
    the start of its block).
    """

    begin: int
    end: int
    kind: str
    state: str


def possible(times: Times) -> Times:
    """Limits stall times (ns) to values that a group on one processor can have within a tick."""
    io_some, io_full, mem_some, mem_full, cpu_some, cpu_full = (
        min(TICK, max(0, it)) for it in times
    )
    io_full, mem_full = min(io_full, io_some), min(mem_full, mem_some)
    cpu_some = min(cpu_some, TICK - io_full)
    mem_some = min(mem_some, TICK - io_full + mem_full)
    return io_some, io_full, mem_some, mem_full, cpu_some, min(cpu_full, cpu_some)


def fitted(times: Times, room: int) -> Times:
    """Limits stall times (ns) to values that fit into a block of `room` ns."""
    io_some, io_full, mem_some, mem_full, cpu_some, cpu_full = (
        min(room, max(0, it)) for it in times
    )
    io_full, mem_full = min(io_full, io_some), min(mem_full, mem_some)
    cpu_some = min(cpu_some, room - io_full)
    mem_some = min(mem_some, room - io_full + mem_full)
    return io_some, io_full, mem_some, mem_full, cpu_some, min(cpu_full, cpu_some)


def least_length(times: Times) -> int:
    """Returns the length (ns) of the shortest block with these stall times (ns)."""
    io_some, io_full, mem_some, mem_full, cpu_some, _ = times
    busy = max(cpu_some, io_some - io_full, mem_some - mem_full)
    return busy + max(io_full, mem_full - busy)


def easy_length(times: Times) -> int:
    """Returns the length (ns) of a block whose first part, in which no task is ready, contains all
    of the memory full time. Such a block needs fewer context switches. Returns the length of the
    shortest block if a tick is too short for that.
    """
    io_some, io_full, mem_some, mem_full, cpu_some, _ = times
    busy = max(cpu_some, io_some - io_full, mem_some - mem_full)
    easy = busy + max(io_full, mem_full)
    return easy if easy < TICK - MS else least_length(times)


def spans_of(times: Times, length: int) -> list[Span]:
    """Returns the states of the tasks in a block of `length` ns with these stall times (ns)."""
    io_some, io_full, mem_some, mem_full, cpu_some, cpu_full = times
    busy = max(cpu_some, io_some - io_full, mem_some - mem_full)
    idle = max(io_full, min(mem_full, length - busy))
    asleep = min(mem_full, idle)
    # From `idle` to `stalled`, the running or ready task itself is in a memory stall. From
    # `stalled` to `lacking`, the task `s` is in a memory stall.
    stalled = idle + mem_full - asleep
    lacking = stalled + mem_some - mem_full
    found = [
        Span(idle - io_full, idle - io_full + io_some, "w", "w"),
        Span(idle - asleep, idle, "s", "s"),
    ]
    found.append(Span(stalled, lacking, "s", "s"))
    marks = sorted({idle, idle + cpu_full, idle + cpu_some, stalled, length})
    for begin, end in zip(marks, marks[1:]):
        is_in_stall = begin < stalled
        if begin < idle + cpu_full:
            found.append(Span(begin, end, "o", "R" if is_in_stall else "r"))
            continue
        found.append(Span(begin, end, "r", "X" if is_in_stall else "x"))
        if begin < idle + cpu_some:
            found.append(Span(begin, end, "o", "r"))
    return [it for it in found if it.begin < it.end]
