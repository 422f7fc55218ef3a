"""Reads a recording of any length in little memory: its pages in parts, and the events of all
processors in slices of time.

Before the first slice, a *survey* collects what must be known of the whole recording: the rare
events, the first and the last event of each processor, the first event of each kind, the losses,
and the tasks that never leave a processor.
"""
from __future__ import annotations

import contextlib
import multiprocessing
import os
import signal
import struct
from bisect import bisect_left
from collections.abc import Iterator
from typing import Any
from multiprocessing.connection import Connection
from operator import itemgetter
from threading import Thread

from psirec.layout import MARK, Probe, raw_name

from .events import NEVER, Event, Gap, Marker, Switch
from .files import Raw
from .formats import Format, IntegerReader, integers_of
from .names import Names
from .pages import Page, PageFault, page_at, records_of
from .meta import Meta
from .recording import gaps_at_end, kernel_of
from .source import Source, Unreadable

# The frequent events, of which a machine writes thousands per second. A marker that begins with one
# of SAMPLES is frequent too.
OFTEN = (
    "sched_switch", "sched_wakeup", "sched_migrate_task", "sched_stat_iowait", Probe.SWITCH,
    Probe.STALL_BEGINS, Probe.STALL_ENDS,
    Probe.INTERRUPT, Probe.READY, Probe.SHOW, Probe.AVERAGE,
)  # fmt: skip
SAMPLES = (MARK + "mem ").encode(), (MARK + "host ").encode()
# The largest number of memory samples that a survey stores per processor, to check the snapshot.
FIRST_SAMPLES = 2048
# The shortest slice (ns). A slice consists of one or several parts, each of which may be much
# shorter.
LEAST_SLICE = 2 * 10**9
# The number of bytes that are read at once, for all processors together.
READ_BYTES = 8 << 20
BY_TIME = itemgetter(0)


class WaitingSwitch(Switch):
    """A switch that begins a wait for IO. It replaces a Switch, and the probe that precedes that
    switch.
    """

    __slots__ = ()


class Records:
    """The formats of a recording's pages and events."""

    def __init__(self, folder: str) -> None:
        self.kernel = kernel_of(folder)
        forms = self.kernel.forms
        # `ends_of` reads the two tasks of a switch. `read_probe` reads from the probe of a switch
        # the task, and whether it waits for IO.
        self.switch, self.ends_of = reader_of(forms, "sched_switch", ("prev_pid", "next_pid"))
        self.probe, self.read_probe = reader_of(forms, Probe.SWITCH, (Probe.PID, Probe.IO))
        # The numbers of the events that a survey ignores.
        self.often = {forms[name].number for name in OFTEN if name in forms}


def reader_of(
    forms: dict[str, Format], name: str, fields: tuple[str, ...]
) -> tuple[int, IntegerReader]:
    """Returns the number of an event, and a function that reads these fields of its records. If the
    recording lacks the event, returns -1 and a function that reads nothing.
    """
    form = forms.get(name)
    return (
        (form.number, integers_of(form, fields))
        if form
        else (-1, integers_of(Format(name, -1, {}, ""), ()))
    )


class Reader:
    """Reads one processor's pages, in parts of about `size` bytes. `most` is the largest number of
    decompressed bytes (see `Raw`). `gaps` are the gaps found so far, and `rest` is the number of
    bytes after the last complete page.
    """

    def __init__(
        self,
        folder: str,
        processor: int,
        records: Records,
        is_ring: bool,
        size: int,
        most: int | None,
    ) -> None:
        self.name, self.processor, self.records, self.is_ring = (
            raw_name(processor),
            processor,
            records,
            is_ring,
        )
        self.form = records.kernel.page
        self.size = max(size // self.form.size, 1) * self.form.size
        self.rest, self.before, self.gaps = 0, 0, list[Gap]()
        # The values of the last probe, until its switch has been read: the task, and whether it
        # waits for IO.
        self.pending: tuple[int, ...] | None = None
        self.file = Raw(folder, processor, most)
        self.names = Names(records.kernel.names)

    def data(self) -> bytes:
        """Returns the next complete pages, or no bytes at the end."""
        data = self.file.read(self.size)
        rest = len(data) % self.form.size
        self.rest += rest
        return data[: len(data) - rest]

    def pages(self, data: bytes) -> Iterator[Page]:
        """Yields the headers of these pages. If events were lost before a page, adds a gap."""
        for at in range(0, len(data), self.form.size):
            page = page_at(data, at, self.form)
            if page.lost and not self.is_ring:
                self.gaps.append(Gap(self.processor, self.before, page.time_ns, max(page.lost, 0)))
            self.is_ring = False
            yield page

    def part(self) -> list[Event] | None:
        """Returns the events of the next pages, or None at the end."""
        data = self.data()
        try:
            return self.decoded(data) if data else None
        except (PageFault, struct.error, IndexError) as fault:
            raise Unreadable(f"{self.name}: {fault}") from None

    def decoded(self, data: bytes) -> list[Event]:
        """Returns the events in these pages, without the probes of switches. A switch that begins a
        wait for IO becomes a WaitingSwitch.
        """
        events: list[Event] = []
        add, processor, records, pending, time_ns = (
            events.append,
            self.processor,
            self.records,
            self.pending,
            self.before,
        )
        decoders, switch, probe, read_probe = (
            records.kernel.decoders,
            records.switch,
            records.probe,
            records.read_probe,
        )
        names, has_name = self.names, self.names.exec
        for page in self.pages(data):
            for time_ns, start, end in records_of(data, page):
                number = data[start] | data[start + 1] << 8
                if number == probe:
                    pending = read_probe(data, start)
                elif number == switch:
                    event: Any = decoders[number](time_ns, processor, data, start, end)
                    name = names.of_switch(event, data, start)
                    if name:
                        add(name)
                    is_wait = pending is not None and pending[1] and pending[0] == event[3]
                    add(WaitingSwitch._make(event) if is_wait else event)
                    pending = None
                elif number in decoders:
                    event = decoders[number](time_ns, processor, data, start, end)
                    if number == has_name and (name := names.of(number, event, data, start, end)):
                        add(name)
                    add(event)
            self.before = time_ns
        self.pending = pending
        return events


# ---------------------------------------------------------------- the survey


class Surveyed:
    """The survey of a processor: its rare events, its last event, and the tasks that got the
    processor (`coming`) or left it (`leaving`) by a switch.
    """

    def __init__(self, reader: Reader) -> None:
        self.rare: list[Event] = []
        self.coming, self.leaving = set[int](), set[int]()
        self.last: Event | None = None
        self.known: set[int] = set()
        self.samples = 0
        while data := reader.data():
            try:
                self.take(reader, data)
            except (PageFault, struct.error, IndexError) as fault:
                raise Unreadable(f"{reader.name}: {fault}") from None
        if self.last is not None and self.last is not (self.rare or [None])[-1]:
            self.rare.append(self.last)
        self.gaps, self.rest, self.bytes = reader.gaps, reader.rest, reader.file.count

    def take(self, reader: Reader, data: bytes) -> None:
        """Stores each rare event, and the first event of each frequent kind, from the next pages.
        """
        records, processor, known, leave, come = (
            reader.records,
            reader.processor,
            self.known,
            self.leaving.add,
            self.coming.add,
        )
        decoders, switch, often, ends_of = (
            records.kernel.decoders,
            records.switch,
            records.often,
            records.ends_of,
        )
        last, time_ns = None, reader.before
        for page in reader.pages(data):
            for time_ns, start, end in records_of(data, page):
                number = data[start] | data[start + 1] << 8
                if number == switch:
                    previous, following = ends_of(data, start)
                    leave(previous)
                    come(following)
                if number not in often or number not in known:
                    if number not in decoders:
                        continue
                    self.take_rare(decoders[number](time_ns, processor, data, start, end), number)
                last = time_ns, start, end
            reader.before = time_ns
        if last:
            number = data[last[1]] | data[last[1] + 1] << 8
            self.last = decoders[number](last[0], processor, data, *last[1:])

    def take_rare(self, event: Event, number: int) -> None:
        """Stores an event of the kind `number`. Stores at most FIRST_SAMPLES memory samples."""
        is_sample = type(event) is Marker and event.text.startswith(SAMPLES)
        self.samples += is_sample
        if not is_sample or self.samples <= FIRST_SAMPLES:
            self.rare.append(event)
        self.known.add(number)


def survey_share(readers: list[Reader], own: Connection, others: list[Connection]) -> None:
    """The main function of a child process: sends the survey of some processors, or an error. The
    process ends if the parent closes its end of `own`. It closes `others`, the connections of its
    siblings.
    """
    signal.signal(signal.SIGINT, signal.SIG_IGN)
    for line in others:
        line.close()
    Thread(target=end_with, args=(own,), daemon=True).start()
    with contextlib.suppress(BrokenPipeError):
        try:
            own.send([Surveyed(reader) for reader in readers])
        except Unreadable as fault:
            own.send(fault)


def end_with(line: Connection) -> None:
    """Ends this process when the parent closes its end of the connection."""
    with contextlib.suppress(EOFError, OSError):
        line.recv()
    os._exit(1)


def surveyed_at_once(readers: list[Reader]) -> list[Surveyed]:
    """Surveys all processors, in one child process for each processor of this machine."""
    context, count = multiprocessing.get_context("fork"), min(
        len(readers), len(os.sched_getaffinity(0))
    )
    pairs = [context.Pipe() for _ in range(count)]
    every = [end for pair in pairs for end in pair]
    for start, (_, there) in enumerate(pairs):
        others = [end for end in every if end is not there]
        context.Process(
            target=survey_share, args=(readers[start::count], there, others), daemon=True
        ).start()
    for _, there in pairs:
        there.close()
    shares = [share_from(here) for here, _ in pairs]
    return [shares[place % count][place // count] for place in range(len(readers))]


def share_from(line: Connection) -> list[Surveyed]:
    """Receives a survey. Raises Unreadable if the child process failed or ended early."""
    try:
        found = line.recv()
    except EOFError:
        raise Unreadable("a process that reads pages has ended: was there no memory?") from None
    if isinstance(found, Unreadable):
        raise found
    share: list[Surveyed] = found
    return share


class Survey:
    """Reads the folder of a recording twice: first only the rare events, and then all events in
    slices. For a large recording, several processes read the rare events. `silent` are the tasks
    that got a processor by a switch, but never left one.
    """

    def __init__(self, folder: str, is_large: bool) -> None:
        self.folder, self.is_large, self.silent = folder, is_large, set[int]()
        self.records, self.processors, self.is_ring = Records(folder), 0, False
        self.most: int | None = None

    def readers(self) -> list[Reader]:
        """Returns a reader for each processor, at its first page."""
        size, most = READ_BYTES // self.processors, self.most
        return [
            Reader(self.folder, processor, self.records, self.is_ring, size, most)
            for processor in range(self.processors)
        ]

    def read(self, _: str, meta: Meta, source: Source) -> None:
        """Surveys the whole recording. Adds the rare events and the losses to `source`."""
        self.processors, self.is_ring, self.most = source.processors, meta.is_ring(), meta.bytes()
        overrun = {} if self.is_ring else meta.lost("overrun")
        coming, leaving = set[int](), set[int]()
        readers = self.readers()
        surveyed = surveyed_at_once(readers) if self.is_large else map(Surveyed, readers)
        for reader, found in zip(readers, surveyed):
            coming |= found.coming
            leaving |= found.leaving
            source.gaps += found.gaps
            source.gaps += gaps_at_end(
                reader.processor, overrun.get(reader.processor, 0), found.gaps, found.last
            )
            if found.rest:
                source.mended[
                    f"bytes at the end of {reader.name} that are no whole page"
                ] += found.rest
            source.bytes += found.bytes
            source.events += found.rare
        source.events.sort(key=BY_TIME)
        self.silent = coming - leaving

    def slices(self, whole_from: int) -> Iterator[list[Event]]:
        """Yields the events in slices. Leaves out events before the time `whole_from` (ns), since
        before that time the events of some processors are missing.
        """
        for events in slices_of(self.readers()):
            yield (
                events
                if not events or events[0].time_ns >= whole_from
                else [it for it in events if it.time_ns >= whole_from]
            )


# ---------------------------------------------------------------- events in slices


def slices_of(readers: list[Reader]) -> Iterator[list[Event]]:
    """Yields the events of all processors in order of time, in slices. Each slice except the last
    covers at least LEAST_SLICE ns.
    """
    events: list[Event] = []
    for part in parts_of(readers):
        events += part
        if events and events[-1].time_ns - events[0].time_ns >= LEAST_SLICE:
            yield events
            events = []
    yield events


def parts_of(readers: list[Reader]) -> Iterator[list[Event]]:
    """Yields the events of all processors in order of time, in parts. A part ends at the first time
    after which some processor's next events are not in memory yet, so it may be short.
    """
    waiting: dict[int, list[Event]] = {place: [] for place in range(len(readers))}
    ended: set[int] = set()
    boundary = 0
    while True:
        for place, events in waiting.items():
            while place not in ended and (not events or events[-1].time_ns <= boundary):
                part = readers[place].part()
                if part is None:
                    ended.add(place)
                else:
                    events += part
        boundary = min(
            (events[-1].time_ns for place, events in waiting.items() if place not in ended),
            default=NEVER,
        )
        found: list[Event] = []
        for events in waiting.values():
            end = bisect_left(events, boundary, key=BY_TIME)
            found += events[:end]
            del events[:end]
        found.sort(key=BY_TIME)
        yield found
        if len(ended) == len(readers):
            return
