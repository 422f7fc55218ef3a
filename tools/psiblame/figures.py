"""Computes the figures that are printed for a group: its times, and the groups that ran, waited or
stalled at the same time.
"""
from __future__ import annotations

import collections
from collections.abc import Mapping
from typing import NamedTuple, Optional

from psinames.lives import Life
from psinames.tasks import Share
from psireplay.groups import Group

from .memory import Growth
from .overlap import Pairs
from .processor import NOBODY
from .walk import Walk

DEEPEST = 32


class Part(NamedTuple):
    """A part of a time span: during `time` (ns) the group `group` ran, waited or stalled. `group`
    is None if no task ran. If processes have names, `shares` divides the part among the group's
    processes.
    """

    group: Optional[Group]
    time: int
    shares: tuple[Share, ...] = ()


class Figures(NamedTuple):
    """The figures of a group in the requested time span, all times in ns. `ran` is the run time of
    its tasks, summed over processors. `waits` is the wait for each processor. `io` and `memory` are
    the times for which the group waited for IO and was in a memory stall. The lists of parts say
    which groups ran, waited or stalled at the same time. `while_victim` is the time for which the
    victim ran while the group waited. `less` is the part of `while_victim` in which the group
    wouldn't have waited without the victim. Both are None for the victim and its descendants.
    """

    group: Group
    ran: int
    waits: list[int]
    io: int
    memory: int
    growth: Optional[Growth]
    while_ran: list[Part]
    io_beside: list[Part]
    memory_beside: list[Part]
    while_victim: Optional[int]
    less: Optional[int]
    shares: tuple[Share, ...]

    @property
    def waited(self) -> int:
        """The time (ns) for which the group waited for processors, summed over processors."""
        return sum(self.waits)

    @property
    def worst(self) -> int:
        """The longest of the group's waits (ns). Groups are sorted by this time."""
        return max(self.waited, self.io, self.memory)

    @property
    def has_some(self) -> bool:
        """Returns whether at least one figure of the group isn't 0."""
        return bool(self.ran or self.worst or self.growth)


def depth(group: Group) -> int:
    """Returns the number of components in the group's path."""
    return group.path.count("/") if group.parent else 0


def at_depth(group: Group, most: int) -> Group:
    """Returns the group, or its ancestor at depth `most` if the group is deeper."""
    return next(it for it in group.line() if depth(it) <= most)


def longest_first(times: Mapping[Optional[Group], int]) -> list[Part]:
    """Returns a part for each time (ns) above 0, the longest first."""
    found = [Part(group, time) for group, time in times.items() if time]
    return sorted(found, key=lambda it: (-it.time, it.group.number if it.group else NOBODY))


class Asker:
    """Computes figures from the sums of the requested time span. A group deeper than `depth` counts
    as its ancestor at that depth. Processes have the names that they had at the end of the time
    span, `to` (ns).
    """

    def __init__(self, walk: Walk, cpus: int, depth: int, to: int) -> None:
        self.groups, self.runners, self.victims = walk.all, walk.runners, walk.victims.numbers
        self.sums, self.cpus, self.depth, self.to = walk.stretches.asked, cpus, depth, to
        sums = self.sums
        self.ran = collections.defaultdict[Group, collections.Counter[Optional[Life]]](
            collections.Counter
        )
        for runner, time in sums.ran.items():
            for group in self.runners.all[runner].group.line() if runner != NOBODY else ():
                self.ran[group][self.runners.all[runner].life] += time
        self.pairs: dict[int, dict[int, int]] = collections.defaultdict(dict)
        for (number, runner), time in sums.pairs.items():
            self.pairs[number][runner] = time

    def figures(self, group: Group) -> Figures:
        """Returns the figures of a group."""
        number, sums = group.number, self.sums
        places = [(processor, number) for processor in range(self.cpus)]
        runners = self.pairs.get(number, {})
        is_victim, ran = number in self.victims, self.ran[group]
        return Figures(
            group=group,
            ran=ran.total(),
            waits=[sums.waited.get(place, 0) for place in places],
            io=sum(sums.io.get(place, 0) for place in places),
            memory=sum(sums.memory.get(place, 0) for place in places),
            growth=sums.growth.get(number),
            while_ran=self.while_ran(runners),
            io_beside=self.beside(group, sums.io_beside),
            memory_beside=self.beside(group, sums.memory_beside),
            while_victim=None if is_victim else self.of_victims(runners),
            less=(
                None
                if is_victim
                else sum(sums.alone.get((number, runner), 0) for runner in runners)
            ),
            shares=self.shares(ran),
        )

    def of_victims(self, runners: dict[int, int]) -> int:
        """Returns how long (ns) a task of the victim ran while the group waited. `runners` has the
        group's wait (ns) during which each runner ran, keyed by the runner's number.
        """
        of = self.runners.all
        return sum(
            time
            for runner, time in runners.items()
            if runner != NOBODY and of[runner].group.number in self.victims
        )

    def shares(self, times: Mapping[Optional[Life], int]) -> tuple[Share, ...]:
        """Returns the run times (ns) of processes, each with the process's name. Returns an empty
        tuple if processes have no names.
        """
        return tuple(self.runners.tasks.shares(times, self.to)) if self.runners.tasks.lives else ()

    def while_ran(self, runners: dict[int, int]) -> list[Part]:
        """Splits a group's wait for processors among the groups that ran during the wait. `runners`
        has the wait (ns) during which each runner ran, keyed by the runner's number.
        """
        times = collections.defaultdict[Optional[Group], collections.Counter[Optional[Life]]](
            collections.Counter
        )
        for number, time in runners.items():
            runner = self.runners.all[number] if number != NOBODY else None
            times[at_depth(runner.group, self.depth) if runner else None][
                runner.life if runner else None
            ] += time
        found = longest_first({group: lives.total() for group, lives in times.items()})
        return [
            it._replace(shares=self.shares(times[it.group]) if it.group else ()) for it in found
        ]

    def beside(self, group: Group, pairs: Pairs) -> list[Part]:
        """Returns the groups that were in the same state as `group` at the same time, and for how
        long (ns). Ancestors of `group` are omitted, since an ancestor is in every state of its
        descendants.
        """
        others = {
            self.groups[other]: time
            for (asked, other), time in pairs.items()
            if asked == group.number
        }
        return longest_first(
            {
                it: time
                for it, time in others.items()
                if depth(it) <= self.depth and not group.is_below(it)
            }
        )

    def table(self) -> list[Figures]:
        """Returns the figures of all groups up to `depth` components deep. The group with the
        longest wait comes first.
        """
        found = [self.figures(group) for group in self.groups if depth(group) <= self.depth]
        return sorted(found, key=lambda it: (-it.worst, it.group.number))
