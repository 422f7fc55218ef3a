"""Compares the growth of stall totals (us) between a machine's own pressure files, which a
recording contains, and the reports of a replay. In a *reading* the recorder reads the pressure
files of all groups once.
"""
from __future__ import annotations

import re
from bisect import bisect_left
from collections.abc import Iterator
from typing import NamedTuple

from psirec.layout import MARK, PRESSURE, escaped_path

from .events import GroupMade, Marker
from .files import text_of
from .source import Source

SAMPLE = re.compile(
    r"sample ([0-9]{1,18}) (\S+) (io|memory|cpu)\nsome [^\n]*total=([0-9]{1,20})\nfull"
    r" [^\n]*total=([0-9]{1,20})\n"
)
REPORT = re.compile(
    r"report ([0-9]{1,20}) (\S+) (io|memory|cpu)\nsome [^\n]*total=([0-9]{1,20})\nfull"
    r" [^\n]*total=([0-9]{1,20})\n"
)
READING = re.compile(rb"pressure ([0-9]{1,18}) (begin|end)\s*")


class File(NamedTuple):
    """Identifies a pressure file by its group and its resource."""

    path: str
    resource: str


class Totals(NamedTuple):
    """The totals of a pressure file at a time (ns): the stall times (us) of `some` and `full`."""

    time_ns: int
    some: int
    full: int


# Series: the totals that a replay printed for each pressure file, in order of time. Readings: the
# totals in the machine's own files, keyed by the number of the reading.
Series = dict[File, list[Totals]]
Readings = dict[int, dict[File, Totals]]


def reading_markers(source: Source) -> Iterator[tuple[Marker, int, bool]]:
    """Yields the markers at the start and the end of each reading of the pressure files. With each
    marker, yields the reading's number, and whether the marker is at the start.
    """
    for event in source.events:
        if isinstance(event, Marker) and event.text.startswith(MARK.encode()):
            found = READING.fullmatch(event.text[len(MARK) :])
            if found:
                yield event, int(found[1]), found[2] == b"begin"


def recorder_of(source: Source) -> int | None:
    """Returns the number of the task that read the pressure files. Returns None if the recording
    has no reading.
    """
    return next((marker.current for marker, _, _ in reading_markers(source)), None)


def spans_of(source: Source) -> dict[int, tuple[int, int]]:
    """Returns the start and the end of each reading of the pressure files (ns of the recording's
    clock).
    """
    begins: dict[int, int] = {}
    spans: dict[int, tuple[int, int]] = {}
    for marker, number, is_begin in reading_markers(source):
        if is_begin:
            begins[number] = marker.time_ns
        elif number in begins:
            spans[number] = begins[number], marker.time_ns
    return spans


def machine_readings(folder: str, source: Source) -> Readings:
    """Returns the totals in the machine's own pressure files. The files of a reading were read one
    after the other, at times that weren't recorded. They get evenly spaced times between the start
    and the end of the reading.
    """
    spans = spans_of(source)
    found: dict[int, list[tuple[File, int, int]]] = {}
    for number, path, resource, some, full in SAMPLE.findall(text_of(folder, PRESSURE)):
        file = File(escaped_path(path.encode("utf-8", "surrogateescape")), resource)
        found.setdefault(int(number), []).append((file, int(some), int(full)))
    readings: Readings = {}
    for number in sorted(set(found) & set(spans)):
        (begin, end), files = spans[number], found[number]
        readings[number] = {
            file: Totals(begin + (end - begin) * (place + 1) // (len(files) + 1), some, full)
            for place, (file, some, full) in enumerate(files)
        }
    return readings


def replay_series(printed: str) -> Series:
    """Parses the totals that a replay printed. Times are in ns since the trace's start."""
    series: Series = {}
    for time_ns, path, resource, some, full in REPORT.findall(printed):
        series.setdefault(File(path, resource), []).append(
            Totals(int(time_ns), int(some), int(full))
        )
    return series


def totals_at(totals: list[Totals], time_ns: int) -> Totals:
    """Returns the totals at a time (ns). They are 0 at time 0, and are interpolated linearly
    between two reports. After the last report they are those of the last report.
    """
    place = bisect_left([it.time_ns for it in totals], time_ns)
    if place == len(totals):
        return totals[-1]
    after = totals[place]
    before = totals[place - 1] if place else Totals(0, 0, 0)
    part = (
        (time_ns - before.time_ns) / (after.time_ns - before.time_ns)
        if after.time_ns > before.time_ns
        else 1.0
    )
    return Totals(
        time_ns, *(round(one + (other - one) * part) for one, other in zip(before[1:], after[1:]))
    )


class Pair(NamedTuple):
    """The growth (us) of a file's totals `some` and `full`, on the machine and in the replay."""

    file: File
    machine: tuple[int, int]
    replay: tuple[int, int]


class Compared(NamedTuple):
    """The result of a comparison: the numbers of the first and the last reading, the time between
    them (ns), and the growth of each file.
    """

    first: int
    last: int
    length: int
    pairs: list[Pair]


def growth(before: Totals, after: Totals) -> tuple[int, int]:
    """Returns the growth (us) of `some` and of `full` from `before` to `after`."""
    return after.some - before.some, after.full - before.full


def made_in(source: Source) -> dict[str, int]:
    """Returns the time (ns) at which each group was created during the recording, keyed by path.
    For a group that was created more than once, this is the last of the times.
    """
    made = (it for it in source.events if isinstance(it, GroupMade) and not it.hierarchy)
    return {escaped_path(it.path): it.time_ns for it in made}


def first_totals(
    file: File, readings: list[dict[File, Totals]], made: dict[str, int]
) -> Totals | None:
    """Returns the totals from which a file's growth is counted. They are those of the first reading
    that contains the file: a group that isn't accounted has no pressure files. Returns None if the
    group was created after the first reading, since its totals then began at 0.
    """
    is_new = file not in readings[0] and made.get(file.path, 0) > max(
        it.time_ns for it in readings[0].values()
    )
    return None if is_new else next(files[file] for files in readings if file in files)


def readings_within(readings: Readings, start: int, end: int) -> list[int]:
    """Returns the numbers of the readings between `start` and `end` (ns of the recording's clock).
    """
    return [
        number
        for number, files in readings.items()
        if all(start <= it.time_ns <= end for it in files.values())
    ]


def compared(
    readings: Readings, series: Series, made: dict[str, int], start: int, end: int
) -> Compared | None:
    """Compares the growth of each file that both the machine and the replay have at the last
    reading. The trace lasts from `start` to `end` (ns of the recording's clock). `made` contains
    the times (ns) at which groups were created. Returns None if the trace contains fewer than two
    readings.
    """
    inside = readings_within(readings, start, end)
    if len(inside) < 2:
        return None
    first, last = readings[inside[0]], readings[inside[-1]]
    pairs = []
    for file, after in sorted(last.items()):
        reports, before = series.get(file), first_totals(
            file, [readings[it] for it in inside], made
        )
        if reports:
            ours = totals_at(reports, before.time_ns - start) if before else Totals(0, 0, 0)
            theirs = before or Totals(start, 0, 0)
            pairs.append(
                Pair(
                    file,
                    growth(theirs, after),
                    growth(ours, totals_at(reports, after.time_ns - start)),
                )
            )
    root = File("/", "cpu")
    return Compared(
        inside[0],
        inside[-1],
        last[root].time_ns - first[root].time_ns if root in last and root in first else 0,
        pairs,
    )
