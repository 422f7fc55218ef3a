"""Reads the pressure of all groups from a replay in one pass. Reduces each series to the reports
that a picture can show.
"""
from __future__ import annotations

import collections
from typing import Iterable, NamedTuple

from psichart.replay import Replay, Series
from psireplay.lines import AVERAGES, LEVELS, Kill, Report, read

# The share, in hundredths of a percent, below which a group doesn't count as stalled.
LEAST = 100
# The number of groups that are drawn for each resource, and the number of equal parts into which a
# series is divided by time. A reduced series contains the highest values of each part.
DRAWN = 3
STRETCHES = 300


class Peak(NamedTuple):
    """The highest share over 10 s, in hundredths of a percent, and the first time (ns) at which it
    occurred.
    """

    share: int
    time_ns: int


class Peaks:
    """The highest `some` and `full` shares for each group and resource, and all kills."""

    def __init__(self) -> None:
        self.found: dict[tuple[str, str, str], Peak] = {}
        self.resources: set[str] = set()
        self.kills: list[Kill] = []

    def take(self, report: Report) -> None:
        self.resources.add(report.resource)
        for level, pressure in (("some", report.some), ("full", report.full)):
            key = report.path, report.resource, level
            if pressure and (key not in self.found or pressure.avg10 > self.found[key].share):
                self.found[key] = Peak(pressure.avg10, report.time_ns)

    def highest(self, path: str, resource: str, level: str) -> Peak:
        return self.found.get((path, resource, level), Peak(0, 0))

    def worst(self, resource: str) -> list[str]:
        """Returns the groups that stalled most for a resource, the worst first. If all groups
        hardly stalled, returns only the worst of them.
        """
        level = "full" if resource == "irq" else "some"
        peaks = {
            path: peak.share
            for (path, kind, it), peak in self.found.items()
            if (kind, it) == (resource, level)
        }
        order = sorted(peaks, key=lambda path: (-peaks[path], path.count("/"), path))
        return [path for path in order if peaks[path] >= LEAST][:DRAWN] or order[:1]


def read_peaks(printed: Iterable[bytes]) -> Peaks:
    peaks = Peaks()
    for line in read(printed):
        if isinstance(line, Report):
            peaks.take(line)
        elif isinstance(line, Kill):
            peaks.kills.append(line)
    return peaks


def kept_rows(series: Series, start: int, end: int) -> list[int]:
    """Returns the indices of the reports that a reduced series contains. From each part of the time
    these are the first report and, for each average, the report with the highest value. So the
    series contains every peak.
    """
    stretches: dict[int, list[int]] = collections.defaultdict(list)
    for place, time_ns in enumerate(series.times_ns):
        stretches[(time_ns - start) * STRETCHES // max(1, end - start)].append(place)
    indices = {0, len(series.times_ns) - 1} if series.times_ns else set[int]()
    for places in stretches.values():
        indices.add(places[0])
        for shares in filter(None, series.shares.values()):
            indices.add(max(places, key=lambda place: shares[place]))
    return sorted(indices)


def thinned(series: Series, start: int, end: int) -> Series:
    """Returns the series with only the selected reports. Rounds are renumbered. A number is skipped
    only if the group didn't exist in between.
    """
    found, last, number = Series(), -1, 0
    for place in kept_rows(series, start, end):
        is_broken = series.rounds[place] - series.rounds[max(last, 0)] > place - max(last, 0)
        number += 3 if is_broken else 1
        last = place
        found.times_ns.append(series.times_ns[place])
        found.rounds.append(number)
        for level in LEVELS:
            for average in AVERAGES:
                shares = series.shares[level, average]
                if shares:
                    found.shares[level, average].append(shares[place])
    return found


def thin(replay: Replay) -> None:
    """Reduces all series of a replay to the reports that a picture can show."""
    for which, series in replay.series.items():
        replay.series[which] = thinned(series, 0, replay.end.time_ns)
