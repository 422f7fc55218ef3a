"""Reads those parts of a replay's output that a chart shows: the reports and events of some groups,
all kills, and removals of groups.
"""
from __future__ import annotations

from array import array
from typing import Iterable, NamedTuple, Optional

from psireplay.lines import AVERAGES, LEVELS, End, Event, Kill, Pressure, Report, read

Which = tuple[str, str]


class Series:
    """The averages of a group for one resource: the time (ns), the round and the shares (hundredths
    of a percent) of each report. A round is a tick at which reports are printed, numbered in order
    of time. If a round has no report on the group, the group didn't exist at that time.
    """

    def __init__(self) -> None:
        self.times_ns, self.rounds = array("Q"), array("Q")
        self.shares: dict[Which, array[int]] = {
            (level, it): array("Q") for level in LEVELS for it in AVERAGES
        }

    def take(self, report: Report, number: int) -> None:
        """Adds a report from the round `number`."""
        self.times_ns.append(report.time_ns)
        self.rounds.append(number)
        for level, pressure in (("some", report.some), ("full", report.full)):
            if pressure:
                self.take_line(level, pressure)

    def take_line(self, level: str, pressure: Pressure) -> None:
        """Adds the averages of one line of a report: `some` or `full`."""
        for average, share in zip(AVERAGES, pressure):
            self.shares[level, average].append(share)


class Removal(NamedTuple):
    """The removal of a group. The group has a report in one round, and none in the next round, at
    `time_ns`.
    """

    time_ns: int
    path: str


class Rounds:
    """Finds removals of groups. `before` and `now` are the groups with reports in the previous and
    in the current round. `paths` are all groups with a report so far.
    """

    def __init__(self) -> None:
        self.number = 0
        self.time_ns: Optional[int] = None
        self.before: set[str] = set()
        self.now: set[str] = set()
        self.removals: list[Removal] = []
        self.paths: set[str] = set()

    def take(self, time_ns: int, path: str) -> None:
        """Adds a report on the group `path`. A report with a later time starts a new round."""
        if time_ns != self.time_ns:
            self.close()
            self.time_ns, self.number = time_ns, self.number + 1
        self.now.add(path)
        self.paths.add(path)

    def close(self) -> None:
        """Ends the round. A group that had a report in the previous round but not in this one was
        removed.
        """
        if self.time_ns is not None:
            removed = sorted(self.before - self.now)
            self.removals += [Removal(self.time_ns, path) for path in removed]
            self.before, self.now = self.now, set()


class Replay:
    """The part of a replay's output that a chart of certain groups shows."""

    def __init__(self, groups: list[str]) -> None:
        self.groups = groups
        self.series: dict[tuple[str, str], Series] = {}
        self.events: dict[tuple[str, str, str], list[int]] = {}
        self.kills: list[Kill] = []
        self.rounds = Rounds()
        self.end = End(0, 0, 0, 0)

    def take_report(self, report: Report) -> None:
        """Adds a report to its round, and stores it if its group is drawn."""
        self.rounds.take(report.time_ns, report.path)
        if report.path in self.groups:
            series = self.series.setdefault((report.path, report.resource), Series())
            series.take(report, self.rounds.number)

    def take_event(self, event: Event) -> None:
        """Stores an event of a trigger if its group is drawn."""
        if event.path in self.groups:
            self.events.setdefault((event.path, event.resource, event.level), []).append(
                event.time_ns
            )

    def removals(self) -> list[Removal]:
        """Returns the removals of drawn groups, and of groups that the rules would have killed."""
        named = {*self.groups, *(kill.path for kill in self.kills)}
        return [it for it in self.rounds.removals if it.path in named]


def read_replay(printed: Iterable[bytes], groups: list[str]) -> Replay:
    """Parses the lines of a replay's output. `groups` contains the paths of the groups to draw."""
    replay = Replay(groups)
    for line in read(printed):
        if isinstance(line, Report):
            replay.take_report(line)
        elif isinstance(line, Event):
            replay.take_event(line)
        elif isinstance(line, Kill):
            replay.kills.append(line)
        else:
            replay.end = line
    replay.rounds.close()
    return replay
