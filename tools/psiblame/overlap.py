"""Measures how long other groups waited for IO, or were in a memory stall, at the same time as a
requested group.
"""
from __future__ import annotations

import collections

# Overlaps (ns), keyed by the numbers of the requested group and of the other group.
Pairs = dict[tuple[int, int], int]


class Beside:
    """A clock that runs while a requested group is in a certain state. `total` is the clock's time
    (ns), summed over processors, at the time `last` (ns). `processors` is the number of processors
    on which the group is in the state now. For each other group in the state, `since` is the
    clock's time at which that group entered the state. The clock's advance since then is the
    overlap of both groups.
    """

    __slots__ = ("group", "total", "processors", "last", "since", "sums")

    def __init__(self, group: int) -> None:
        self.group = group
        self.total = self.processors = self.last = 0
        self.since: dict[int, int] = {}
        self.sums = collections.defaultdict[int, int](int)

    def at(self, now: int) -> int:
        """Returns the time (ns) that the clock shows at `now` (ns)."""
        return self.total + self.processors * (now - self.last)

    def change(self, by: int, now: int) -> None:
        """Adds `by` to the number of processors on which the group is in the state."""
        self.total, self.last = self.at(now), now
        self.processors += by

    def count(self, other: int, now: int) -> None:
        """Adds the overlap with the group `other` since that group entered the state. If the
        requested group was created later, the overlap counts from its creation.
        """
        total = self.at(now)
        self.sums[other] += total - self.since.get(other, 0)
        self.since[other] = total


class Overlap:
    """Measures, for each requested group and each other group, how long the other group was in a
    certain state while the requested group was. The time is summed over the processors on which the
    requested group is in the state. The other group may be in the state on any processor.
    """

    def __init__(self) -> None:
        self.asked: list[Beside] = []
        # The number of processors on which each group is in the state. Groups with 0 processors are
        # absent.
        self.processors: dict[int, int] = {}

    def ask(self, group: int) -> None:
        """Adds a requested group at its creation."""
        self.asked.append(Beside(group))

    def begin(self, group: int, now: int) -> None:
        """Counts one more processor on which a group is in the state."""
        is_first = group not in self.processors
        self.processors[group] = 1 if is_first else self.processors[group] + 1
        for asked in self.asked:
            if asked.group == group:
                asked.change(1, now)
            if is_first:
                asked.since[group] = asked.at(now)

    def end(self, group: int, now: int) -> None:
        """Counts one processor less on which a group is in the state."""
        is_last = self.processors[group] == 1
        if is_last:
            del self.processors[group]
        else:
            self.processors[group] -= 1
        for asked in self.asked:
            if asked.group == group:
                asked.change(-1, now)
            if is_last:
                asked.count(group, now)

    def taken(self, now: int) -> Pairs:
        """Returns all overlaps up to `now` (ns), and resets them to 0."""
        found: Pairs = {}
        for asked in self.asked:
            for group in self.processors:
                asked.count(group, now)
            found.update({(asked.group, other): time for other, time in asked.sums.items() if time})
            asked.sums.clear()
        return found
