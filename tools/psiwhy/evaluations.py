"""Reconstructs the machine's state at each evaluation of the rules: its groups, their last samples
and their pressure, and values of earlier evaluations.
"""
from __future__ import annotations

import itertools
from collections.abc import Iterable, Iterator

from psireplay.groups import Group, Sample
from psireplay.world import World, Task
from psireplay.trace import Events
from psireplay.lines import Report, read

from .judged import Asked

NO_SAMPLE = Sample(0, 0, 0)
# The number of earlier evaluations whose memory sizes the rules use.
REMEMBERED = 4


class Evaluation:
    """The machine's state at the evaluation at `time_ns`. `full` has the averages of full pressure
    (hundredths of a percent), by path, resource and average. `sizes` has each group's memory
    (bytes) at earlier evaluations, the newest first. `scans` has each group's count of scanned
    pages at the previous evaluation.
    """

    def __init__(self, world: World[Task]) -> None:
        self.time_ns = 0
        self.world = world
        self.full: dict[tuple[str, str, str], int] = {}
        self.sizes: dict[Group, list[int]] = {}
        self.scans: dict[Group, int] = {}

    def take(self, time_ns: int, reports: list[Report]) -> None:
        """Advances to the evaluation at `time_ns`, and stores the averages in its reports."""
        self.time_ns = time_ns
        self.full = {}
        for it in reports:
            self.full[it.path, it.resource, "avg10"] = it.full.avg10
            self.full[it.path, it.resource, "avg60"] = it.full.avg60

    def remember(self) -> None:
        """Stores the memory sizes and scan counts that later evaluations need."""
        groups = self.world.live.values()
        self.scans = {group: self.sample(group).scanned for group in groups}
        self.sizes = {
            group: [self.sample(group).memory, *self.sizes.get(group, [])][:REMEMBERED]
            for group in groups
        }

    def sample(self, group: Group) -> Sample:
        """Returns the group's last sample, or a sample of zeros if there is none."""
        return group.sample or NO_SAMPLE

    def at(self, path: str) -> Sample:
        return self.sample(self.world.live[path])

    def pressure(self, path: str, resource: str) -> int:
        """Returns the sum of full pressure over 10 s and 60 s, in hundredths of a percent."""
        return sum(self.full.get((path, resource, it), 0) for it in ("avg10", "avg60"))

    def rise(self, path: str) -> int:
        """Returns the number of pages scanned since the previous evaluation, or 0 if the group
        didn't exist then.
        """
        group = self.world.live[path]
        scanned = self.sample(group).scanned
        return max(0, scanned - self.scans.get(group, scanned))

    def growth(self, path: str) -> tuple[int, int]:
        """Returns the growth as a numerator and a denominator: the size divided by the mean of
        earlier sizes. The denominator is 0 if there are no earlier sizes, or if all are 0.
        """
        group = self.world.live[path]
        past = self.sizes.get(group, [])
        return self.sample(group).memory * len(past), sum(past)


def evaluations(printed: Iterable[bytes], asked: Asked) -> Iterator[Evaluation]:
    """Yields the state at each evaluation of a replay, which must have a report at each evaluation.
    Always yields the same object, whose content changes.
    """
    world = World(Task)
    found = Evaluation(world)
    reports = (it for it in read(printed) if isinstance(it, Report))
    events = Events(asked.trace)
    for time_ns, found_reports in itertools.groupby(reports, key=lambda it: it.time_ns):
        if asked.is_due(time_ns):
            for event in events.until(time_ns):
                world.take(*event)
            found.take(time_ns, list(found_reports))
            yield found
            found.remember()
