"""Finds defects of a recording: missing pages, an incomplete snapshot, files of processors that
`meta` doesn't count, and implausible times.
"""
from __future__ import annotations

import os
import re
from collections.abc import Iterator
from typing import NamedTuple

from psirec.layout import MARK, escaped_path

from .events import NEVER, Event, Gap, GroupMade, GroupRemoved, Marker
from .source import Source
from psicli.times import SECOND, seconds_to_ms

# A tolerance (ns) for recordings with missing pages. A processor lost events if its first or last
# event is farther than this from the start or the end of the recording.
FAR = SECOND // 10
# The longest possible trace (ns): a million ticks of 2 s.
MOST_LENGTH = 10**6 * 2 * SECOND
RAW = re.compile(r"cpu([0-9]{1,9})(?:\.[0-9]+)?\.raw(?:\.gz)?")
GROUP_SAMPLE = f"{MARK}mem ".encode()


class Expected(NamedTuple):
    """The contents that a recording should have. `byte_count` is the size (bytes) of its pages
    according to `meta`, or None if `meta` has no count, or if some pages couldn't be written.
    `has_stop` says whether the events include the recorder's last marker, and `has_end` whether the
    recorder ends its snapshots with an end mark.
    """

    byte_count: int | None
    has_stop: bool
    has_end: bool


def tell_missing(source: Source, folder: str, expected: Expected) -> None:
    """Finds missing parts of the recording, and adds them to the source's losses and notes."""
    if expected.byte_count is not None and source.bytes != expected.byte_count:
        tell_bytes(source, expected.byte_count, expected.has_stop)
    for processor in unread_processors(folder, source.processors):
        source.losses.append(
            f"cpu {processor}: its pages aren't read, since meta says that there are"
            f" {source.processors} processors"
        )
    if expected.has_end:
        if not source.snapshot.has_end:
            source.losses.append("the snapshot has no end: groups and tasks are missing in it")
        return
    missing = missing_in_snapshot(source)
    if missing:
        source.losses.append(f"the snapshot is cut: {missing}")
    else:
        source.notes.append(
            "the snapshot has no end mark, since the recorder is older; it lists what it must, so"
            " it seems whole"
        )


def tell_bytes(source: Source, count: int, has_stop: bool) -> None:
    """Compares the size of the pages with the size in `meta`, and reports the difference as a loss.
    If the events of all processors end at about the same time, before the recorder's last marker,
    nothing is missing before that time. In this case the difference is only a note.
    """
    if source.bytes > count:
        source.losses.append(
            f"the pages have {source.bytes} bytes, and meta counts {count}: some aren't of this"
            " recording"
        )
        return
    what, found = (
        f"{count - source.bytes} of {count} bytes of pages that meta counts are missing",
        list(missing_ends(source)),
    )
    source.gaps += [gap for gap, _ in found]
    if found or has_stop:
        source.losses += [what, *(text for _, text in found)]
    else:
        source.notes.append(
            f"{what}: all processors' events end at {seconds_to_ms(source.stop - source.start)} s,"
            " and so does what is known"
        )


def missing_ends(source: Source) -> Iterator[tuple[Gap, str]]:
    """Yields a gap and its description for each processor whose events begin late or end early."""
    length, (firsts, lasts) = source.stop - source.start, ends_of(source)
    for processor in range(source.processors):
        if processor not in firsts:
            yield Gap(
                processor, 0, NEVER, 0
            ), f"cpu {processor}: there are no events in {seconds_to_ms(length)} s"
            continue
        first, last = firsts[processor], lasts[processor]
        if first > source.start + FAR and not source.whole_from:
            when = f"{seconds_to_ms(first - source.start)} s of {seconds_to_ms(length)} s"
            yield Gap(processor, 0, first, 0), f"cpu {processor}: events begin at {when}"
        if last < source.stop - FAR:
            when = f"{seconds_to_ms(max(last - source.start, 0))} s of {seconds_to_ms(length)} s"
            yield Gap(processor, last, NEVER, 0), f"cpu {processor}: events end at {when}"


def ends_of(source: Source) -> tuple[dict[int, int], dict[int, int]]:
    """Returns the times (ns) of the first and the last event of each processor."""
    firsts: dict[int, int] = {}
    lasts: dict[int, int] = {}
    for event in source.events:
        firsts.setdefault(event[1], event[0])
        lasts[event[1]] = event[0]
    return firsts, lasts


def unread_processors(folder: str, processors: int) -> list[int]:
    """Returns the numbers of processors that have files in the folder although `meta` counts only
    `processors` processors, numbered from 0.
    """
    found = (RAW.fullmatch(name) for name in os.listdir(folder))
    return sorted({int(it[1]) for it in found if it and int(it[1]) >= processors})


# ---------------------------------------------------------------- the contents of a snapshot


def missing_in_snapshot(source: Source) -> str | None:
    """Describes what is missing from a snapshot that has no end mark. Returns None if nothing is
    missing. The snapshot must list the recorder. It must also list each group of the first memory
    sample that wasn't created or removed during the recording.
    """
    snapshot = source.snapshot
    if snapshot.is_cut:
        return "its last line has no newline"
    if not snapshot.tasks:
        return "it lists no task"
    made = {
        escaped_path(event.path)
        for event in source.events
        if isinstance(event, (GroupMade, GroupRemoved))
    }
    for event in source.events:
        if isinstance(event, Marker) and event.text.startswith(MARK.encode()):
            if event.current not in snapshot.tasks:
                return f"it doesn't list the recorder, which is task {event.current}"
            break
    absent = sorted(first_sampled(source.events) - set(snapshot.groups) - made)
    return f"it doesn't list the group {absent[0]}" if absent else None


def first_sampled(events: list[Event]) -> set[str]:
    """Returns the paths of the groups in the first memory sample. In a sample, the recorder writes
    one marker for each group, so a repeated path begins the second sample.
    """
    found: set[str] = set()
    for event in events:
        if isinstance(event, Marker) and event.text.startswith(GROUP_SAMPLE):
            path = escaped_path(event.text[len(GROUP_SAMPLE) :].split(b" ")[0])
            if path in found:
                break
            found.add(path)
    return found


# ---------------------------------------------------------------- implausible times


def bound_times(source: Source) -> None:
    """Limits the end of the source to the longest possible trace. Adds a loss if there are later
    events, or if the source ends before it begins.
    """
    if source.stop < source.start:
        source.losses.append("the recording ends before it begins: times of its pages are damaged")
        source.stop = source.start
    latest = source.start + MOST_LENGTH
    if source.stop > latest:
        source.losses.append(
            f"events reach to {seconds_to_ms(source.stop - source.start)} s, and a trace to"
            f" {seconds_to_ms(MOST_LENGTH)} s: their times are damaged"
        )
        source.stop = max(
            (event[0] for event in source.events if event[0] <= latest), default=source.start
        )
