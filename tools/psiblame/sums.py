"""Adds up the times (ns) of a part of the trace, by groups and processors."""
from __future__ import annotations

import collections
from typing import Iterable

from .memory import Growth
from .overlap import Pairs
from .processor import ALONE, LENGTH, Processor

Places = collections.defaultdict[tuple[int, int], int]


class Sums:
    """The sums (ns) of a time span. A running task counts for its own group only. A waiting task
    counts for its group and all ancestors.

    `waited`, `io` and `memory` are keyed by processor and group. `pairs` is keyed by a group that
    waited for a processor, and the runner that ran there at that time (NOBODY if none). `alone` is
    the part of `pairs` in which, without the victim that ran, no task would have waited.
    """

    def __init__(self) -> None:
        self.length = 0
        self.ran = collections.defaultdict[int, int](int)
        self.pairs, self.alone = Places(int), Places(int)
        self.waited, self.io, self.memory = Places(int), Places(int), Places(int)
        self.io_beside: Pairs = {}
        self.memory_beside: Pairs = {}
        self.growth: dict[int, Growth] = {}

    def take_rows(self, processor: Processor, now: int) -> None:
        """Adds, for one processor, the run times of runners and the waiting times of groups up to
        `now` (ns).
        """
        for key, row in processor.taken(now).items():
            runner = key - ALONE if key >= ALONE else key
            for group, time in row.items():
                if group == LENGTH:
                    self.ran[runner] += time
                    continue
                self.pairs[group, runner] += time
                self.waited[processor.number, group] += time
                if runner != key:
                    self.alone[group, runner] += time

    def take_group_times(self, processor: Processor, now: int) -> None:
        """Adds, for one processor, the times of IO waits and memory stalls of groups up to `now`
        (ns).
        """
        for group_times, sums in ((processor.io, self.io), (processor.memory, self.memory)):
            for group, time in group_times.taken(now).items():
                sums[processor.number, group] += time


class Stretches:
    """The sums of three time spans: before, within and after the requested time span."""

    def __init__(self, start: int, end: int) -> None:
        self.cuts = [start, end]
        self.begin = 0
        self.now = Sums()
        self.done: list[Sums] = []

    def next_cut(self) -> float:
        """Returns the time (ns) at which the current time span ends. Returns infinity for the last
        time span.
        """
        return self.cuts[0] if self.cuts else float("inf")

    def fold(self, processors: Iterable[Processor], now: int) -> None:
        """Adds the rows of all processors up to `now` (ns) to the current sums, and clears the
        rows.
        """
        for processor in processors:
            self.now.take_rows(processor, now)

    def end(self, processors: list[Processor], now: int) -> Sums:
        """Ends the current time span at `now` (ns), and returns its sums."""
        self.fold(processors, now)
        for processor in processors:
            self.now.take_group_times(processor, now)
        self.now.length = now - self.begin
        ended, self.now = self.now, Sums()
        self.done.append(ended)
        self.begin, self.cuts = now, self.cuts[1:]
        return ended

    @property
    def asked(self) -> Sums:
        """The sums of the requested time span."""
        return self.done[1]
