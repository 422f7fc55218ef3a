"""Ranks groups by how long they stalled, according to the totals that a replay printed.

Apart from the root, only groups without children contain tasks. The stalls of an ancestor come from
these groups, so only they are ranked.
"""
from __future__ import annotations

from typing import Iterable, NamedTuple, Optional

from .lines import LEVELS, Pressure, Report, read

ROOT = "/"
# The resources by which groups are ranked, in the order of columns. Interrupts don't count, since
# time spent on them isn't a stall of tasks.
RANKED = ("io", "memory", "cpu")


class Stalls(NamedTuple):
    """A group, and how long (us) its tasks were stalled, keyed by resource and level (`some` or
    `full`).
    """

    path: str
    totals: dict[tuple[str, str], int]

    def rank(self) -> tuple[int, int]:
        """Returns the sort key: the longest `full` stall (us) for a single resource, and then the
        longest `some` stall.
        """
        full, some = (
            max(self.totals.get((it, level), 0) for it in RANKED) for level in ("full", "some")
        )
        return full, some


class Lives:
    """Adds up the growth of each group's totals in the reports after `start` and up to `end` (ns).
    Groups that had the same path at different times count as one group.
    """

    def __init__(self, start: int, end: float) -> None:
        self.start, self.end = start, end
        self.last: dict[tuple[str, str, str], int] = {}
        self.found: dict[str, Stalls] = {}

    def take(self, report: Report) -> None:
        """Adds the totals of a report."""
        lines: tuple[Optional[Pressure], ...] = (report.some, report.full)
        for level, pressure in zip(LEVELS, lines):
            if pressure:
                key = report.path, report.resource, level
                last = self.last.get(key, 0)
                grown = pressure.total - (last if pressure.total >= last else 0)
                self.last[key] = pressure.total
                if self.start < report.time_ns <= self.end:
                    totals = self.found.setdefault(report.path, Stalls(report.path, {})).totals
                    totals[key[1:]] = totals.get(key[1:], 0) + grown


def ranked(printed: Iterable[bytes], start: int = -1, end: float = float("inf")) -> list[Stalls]:
    """Returns the groups without children in the output of a replay, sorted by how long they
    stalled after `start` and up to `end` (ns). The longest stall comes first. Returns only the root
    if there are no other groups.
    """
    lives = Lives(start, end)
    for line in read(printed):
        if isinstance(line, Report):
            lives.take(line)
    found = lives.found
    above = {
        path[:place] or ROOT
        for path in found
        if path != ROOT
        for place, letter in enumerate(path)
        if letter == "/"
    }
    lowest = [it for path, it in found.items() if path not in above]
    return sorted(lowest, key=lambda it: (*(-time for time in it.rank()), it.path))
