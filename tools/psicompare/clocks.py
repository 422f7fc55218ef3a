"""Computes the states of each group on each processor over the time of a trace. The states are
those of `kernel/sched/psi.c` (`test_state`), which docs/TRACES.md lists.

The states are stored as changes of a mask, nine bytes each, so that the time in each state can be
computed between any two times. This is needed because the kernel samples each group at its own
times, which are fitted if they are unknown.
"""
from __future__ import annotations

from array import array
from bisect import bisect_right
from collections import defaultdict
from collections.abc import Iterable, Sequence

from psireplay.groups import Group
from psireplay.world import ASLEEP, IOWAIT, READY, RUNNING, World, Task
from psireplay.trace import event_in

# The bit number of each state in a mask of states.
IO_SOME, IO_FULL, MEMORY_SOME, MEMORY_FULL, CPU_SOME, CPU_FULL, NONIDLE = (
    1 << place for place in range(7)
)
STATES = 7
# For each mask, the numbers of the states whose bits are set.
STATES_IN = [
    tuple(state for state in range(STATES) if mask >> state & 1) for mask in range(1 << STATES)
]
# A group has four counts of its tasks on a processor. They count the tasks that wait for IO, the
# tasks in a memory stall, the ready or running tasks, and the ready or running tasks in a memory
# stall. PLACES has the indices of the counts that include a task, by the task's state and by
# whether it is in a memory stall.
COUNTS = 4
PLACES: dict[tuple[int, bool], tuple[int, ...]] = {
    (ASLEEP, False): (), (ASLEEP, True): (1,), (IOWAIT, False): (0,), (IOWAIT, True): (0, 1),
    (READY, False): (2,), (READY, True): (1, 2, 3),
    (RUNNING, False): (2,), (RUNNING, True): (1, 2, 3),
}  # fmt: skip


class Clock:
    """The history of a group on one processor. `counts` contains the current four counts of its
    tasks. `masks` contains the masks of its states, and `times` the time (ns) at which each of them
    began.
    """

    __slots__ = ("counts", "times", "masks")

    def __init__(self, start: int) -> None:
        self.counts = [0] * COUNTS
        self.times = array("q", (start,))
        self.masks = bytearray(1)

    def put(self, time_ns: int, mask: int) -> None:
        """Records that the group's states are those in `mask` from `time_ns` on."""
        if mask == self.masks[-1]:
            return
        if self.times[-1] == time_ns:
            self.masks[-1] = mask
        else:
            self.times.append(time_ns)
            self.masks.append(mask)


def mask_of(counts: Sequence[int], runs: bool, stalls: bool) -> int:
    """Returns the mask of states of a group on a processor. `counts` are the four counts of its
    tasks there. `runs` says whether one of the group's tasks runs there, and `stalls` whether the
    running task is in a memory stall.
    """
    waiting, stalled, ready, ready_stalled = counts
    mask = NONIDLE if waiting or stalled or ready else 0
    if waiting:
        mask |= IO_SOME if ready else IO_SOME | IO_FULL
    if stalled:
        mask |= MEMORY_SOME
        if ready == ready_stalled or (runs and stalls):
            mask |= MEMORY_FULL
    if ready > runs:
        mask |= CPU_SOME
    if ready and not runs:
        mask |= CPU_FULL
    return mask


class Clocks(World[Task]):
    """The history of all groups of a trace, computed from its lines. The index in `clocks` is the
    group's number.
    """

    def __init__(self, lines: Iterable[str]) -> None:
        super().__init__(Task)
        # `clocks` contains each group's clocks by processor. `changed` contains, for each
        # processor, the groups whose counts changed at the current time.
        self.clocks: list[dict[int, Clock]] = [{}]
        self.changed = defaultdict[int, set[int]](set)
        for line in lines:
            self.take(*event_in(line))
        self.pass_to(self.now)

    def made(self, group: Group) -> None:
        self.clocks.append({})

    def number_at(self, path: str, time_ns: int) -> int | None:
        """Returns the number of the group with the path `path` that exists at `time_ns`, or None if
        there is no such group.
        """
        for group in reversed([it for it in self.all if it.path == path]):
            if group.made <= time_ns:
                is_live = group.removed is None or time_ns <= group.removed
                return group.number if is_live else None
        return None

    def clock(self, group: int, processor: int) -> Clock:
        """Returns the group's clock on this processor, and creates the clock if it doesn't exist.
        """
        clocks = self.clocks[group]
        if processor not in clocks:
            clocks[processor] = Clock(self.all[group].made)
        return clocks[processor]

    def count(self, task: Task, step: int) -> None:
        """Adds the task to the counts of its groups if `step` is 1, and subtracts it if `step` is
        -1.
        """
        processor, groups = task.cpu, task.group.counted
        places = PLACES[task.state, task.is_stalled]
        for group in groups:
            clock = self.clocks[group].get(processor) or self.clock(group, processor)
            counts = clock.counts
            for place in places:
                counts[place] += step
        self.changed[processor].update(groups)

    def leave(self, task: Task) -> None:
        self.count(task, -1)

    def enter(self, task: Task) -> None:
        self.count(task, 1)

    def pass_to(self, time_ns: int) -> None:
        """Records the states at the current time for all groups whose counts changed."""
        for processor, groups in self.changed.items():
            running = self.running.get(processor)
            above = running.group.counted if running else ()
            stalls = running is not None and running.is_stalled
            for group in groups:
                clock = self.clock(group, processor)
                clock.put(self.now, mask_of(clock.counts, group in above, stalls))
        self.changed.clear()

    # ------------------------------------------------------------ time in each state

    def times(self, group: int, bounds: Sequence[int]) -> list[list[tuple[int, ...]]]:
        """Returns the time (ns) in each state between consecutive times of `bounds` (ns), for each
        processor on which the group had tasks. If there is no such processor, returns the times of
        one idle processor.
        """
        idle: list[tuple[int, ...]] = [(0,) * STATES] * (len(bounds) - 1)
        return [times_of(clock, bounds) for clock in self.clocks[group].values()] or [idle]


def times_of(clock: Clock, bounds: Sequence[int]) -> list[tuple[int, ...]]:
    """Returns the time (ns) in each state between consecutive times of `bounds` (ns)."""
    changes, masks = clock.times, clock.masks
    place = bisect_right(changes, bounds[0])
    mask, found = masks[place - 1] if place else 0, []
    now, last = bounds[0], len(changes)
    for until in bounds[1:]:
        spent: dict[int, int] = {}
        while place < last and changes[place] <= until:
            spent[mask] = spent.get(mask, 0) + changes[place] - now
            now, mask = changes[place], masks[place]
            place += 1
        spent[mask] = spent.get(mask, 0) + until - now
        now = until
        row = [0] * STATES
        for it, time in spent.items():
            for state in STATES_IN[it]:
                row[state] += time
        found.append(tuple(row))
    return found
