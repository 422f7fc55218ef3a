"""Reads the folder of a recording in one step. The module `slices` reads long recordings in parts.
`psirec.layout` defines the names of the files.
"""
from __future__ import annotations

import os
import struct
from collections.abc import Callable
from operator import itemgetter
from typing import NamedTuple

from psinames.text import escaped
from psirec import containers

from psirec.layout import (
    FORMATS, LOST_STATS, MARK, META, SNAPSHOT_BEGINS, START, STOP, Probe, raw_name,
)  # fmt: skip

from .events import NEVER, Event, Gap, Marker
from .files import Raw, text_of
from .formats import Format, FormatFault, PageFormat, formats_of, page_format_of, sections_of
from .meta import Meta, meta_of
from .missing import Expected, bound_times, tell_missing
from .names import NameFields, Names, name_fields
from .pages import PageFault, read_pages
from .records import Decoder, decoders_of
from .snapshot import snapshot_of
from .source import Source, Unreadable

# The word after MARK in a marker at the start or end of a reading of the pressure files.
READING = "pressure"


class Kernel(NamedTuple):
    """The formats of the recorded kernel. `page` is the layout of its pages. `decoders` contains a
    decoder for each event number, `names` the positions of tasks' names in records, and `forms` the
    format of each event, keyed by name.
    """

    page: PageFormat
    decoders: dict[int, Decoder]
    names: NameFields
    forms: dict[str, Format]


def kernel_of(folder: str) -> Kernel:
    """Reads the formats in the recording's folder."""
    sections = sections_of(text_of(folder, FORMATS))
    try:
        forms = formats_of(sections)
        return Kernel(page_format_of(sections), decoders_of(forms), name_fields(forms), forms)
    except FormatFault as fault:
        raise Unreadable(f"{FORMATS}: {fault}") from None


def gaps_at_end(processor: int, lost: int, gaps: list[Gap], last: Event | None) -> list[Gap]:
    """Returns a list with a gap for the events that a processor lost after its last page. Their
    number is `lost`, which the kernel's statistics count, minus the losses in the known `gaps`.
    `last` is the processor's last event. The list is empty if no event was lost then, or if the
    number of losses in some known gap is unknown.
    """
    rest = lost - sum(gap.lost for gap in gaps)
    return (
        [Gap(processor, last.time_ns if last else 0, NEVER, rest)]
        if rest > 0 and all(gap.lost for gap in gaps)
        else []
    )


def read_processors(folder: str, meta: Meta, source: Source) -> None:
    """Reads the pages of all processors, and merges their events by time. The events of one
    processor keep the order in which they were written.
    """
    kernel = kernel_of(folder)
    overrun = {} if meta.is_ring() else meta.lost("overrun")
    for processor in range(source.processors):
        name = raw_name(processor)
        try:
            data = Raw(folder, processor, meta.bytes()).read_all()
            read = read_pages(
                data, processor, kernel.page, kernel.decoders, Names(kernel.names), meta.is_ring()
            )
        except (PageFault, struct.error, IndexError) as fault:
            raise Unreadable(f"{name}: {fault}") from None
        source.gaps += read.gaps
        source.gaps += gaps_at_end(
            processor,
            overrun.get(processor, 0),
            read.gaps,
            read.events[-1] if read.events else None,
        )
        if read.rest:
            source.mended[f"bytes at the end of {name} that are no whole page"] += read.rest
        source.bytes += len(data)
        source.events += read.events
    source.events.sort(key=itemgetter(0))


# ---------------------------------------------------------------- reading the whole recording


def is_marker(event: Event, word: str) -> bool:
    """Returns whether `event` is a recorder's marker that begins with `word`."""
    return isinstance(event, Marker) and event.text.startswith((MARK + word).encode())


def first_times(events: list[Event]) -> dict[int, int]:
    """Returns the time (ns) of each processor's first event."""
    firsts: dict[int, int] = {}
    for event in events:
        firsts.setdefault(event.processor, event.time_ns)
    return firsts


def first_marker_time(events: list[Event], word: str) -> int | None:
    """Returns the time (ns) of the recorder's first marker that begins with `word`, or None."""
    return next((event.time_ns for event in events if is_marker(event, word)), None)


def begin_ring(source: Source, start: int) -> None:
    """Drops the events of a flight recorder from before the time at which all processors have
    events, which is at least `start` (ns). The source then begins at the next reading of the
    pressure files, so that the totals can be compared.
    """
    whole_from = max([start, *first_times(source.events).values()])
    source.events = [event for event in source.events if event.time_ns >= whole_from]
    if not source.events:
        raise Unreadable("no event is left in the ring from where all processors have events")
    source.gaps = [gap for gap in source.gaps if gap.end > whole_from]
    source.whole_from = whole_from
    source.start = first_marker_time(source.events, READING) or whole_from


def tell_losses(source: Source, meta: Meta) -> None:
    """Adds the losses that the pages don't show: events that were lost at unknown times, and all
    events after an early end of the recording.
    """
    for line in LOST_STATS[1:]:
        for processor, count in sorted(meta.lost(line).items()):
            source.losses.append(f"cpu {processor}: {count} events by '{line}', nobody knows when")
    if meta.end() is None or meta.ended_early():
        lasts: dict[int, int] = {event.processor: event.time_ns for event in source.events}
        source.gaps += [
            Gap(processor, time_ns, NEVER, 0) for processor, time_ns in sorted(lasts.items())
        ]
    if meta.ended_early():
        source.notes.append(f"the recording ended early: {meta.end()}")


def read_recording(
    folder: str, is_forced: bool, read: Callable[[str, Meta, Source], None] = read_processors
) -> Source:
    """Reads the folder of a recording. `read` is the function that reads its pages. Unless
    `is_forced`, rejects a recording that has no end because its recorder was killed.
    """
    meta = meta_of(folder)
    fault = meta.version_fault()
    if fault is None and meta.end() is None and not is_forced:
        fault = (
            f"{META}: the recording has no end: its recorder was killed, or still runs; --force"
            " reads what is there"
        )
    if fault:
        raise Unreadable(fault)
    source = Source([], meta.processors(), 0, 0, realtime=meta.realtime())
    source.has_switch_probe = meta.had_event(Probe.SWITCH)
    source.ahead, source.containers = meta.ahead(), containers_of(folder)
    source.has_sample_times = meta.had_event(Probe.SHOW) and meta.had_event(Probe.AVERAGE)
    source.has_ready_probe = meta.had_event(Probe.READY)
    source.snapshot = snapshot_of(folder)
    read(folder, meta, source)
    if not source.events:
        raise Unreadable("there are no events in it")
    start = first_marker_time(source.events, START)
    source.start = source.events[0].time_ns if start is None else start
    if meta.is_ring():
        begin_ring(source, meta.ring_start())
    stop = first_marker_time(source.events, STOP)
    source.stop = source.events[-1].time_ns if stop is None else stop
    source.snapshot.time_ns = (
        source.snapshot.time_ns or first_marker_time(source.events, SNAPSHOT_BEGINS) or source.start
    )
    tell_losses(source, meta)
    count = meta.bytes() if meta.has_all_bytes() else None
    tell_missing(source, folder, Expected(count, stop is not None, meta.has_snapshot_end()))
    bound_times(source)
    return source


def containers_of(folder: str) -> dict[str, str]:
    """Returns the names of containers and pods, keyed by their ids. A damaged file counts as empty.
    """
    if not os.path.isfile(os.path.join(folder, containers.FILE)):
        return {}
    try:
        found = containers.names_in(text_of(folder, containers.FILE))
    except ValueError:
        return {}
    return {
        number: escaped(name.encode("utf-8", "surrogateescape")) for number, name in found.items()
    }
