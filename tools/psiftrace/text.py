"""Reads ftrace text, and repairs defects. It sorts lines that are out of order, joins lines if a
task's name contains newlines, and removes carriage returns. If the buffer was overwritten, it drops
the time in which some processors have no events.
"""
from __future__ import annotations

import gzip
import io
import re
import sys
import zlib
from collections import Counter
from operator import itemgetter

from psicli.fault import Fault
from psiread.events import NEVER, Event, FirstWakeup, Gap, Switch, Wakeup
from psiread.kinds import HEAD, TRACE_HEADER, kind_of, kind_of_file
from psiread.missing import bound_times
from psiread.recording import first_marker_time, first_times
from psiread.source import Source, Unreadable
from psirec.layout import START, STOP

from .lines import event_of, forms_of, head_of

LOST = re.compile(rb"CPU:(\d{1,5}) \[(?:LOST )?(\d{0,18}) ?EVENTS(?: DROPPED)?\]")
ENTRIES = re.compile(rb"# entries-in-buffer/entries-written: (\d{1,18})/(\d{1,18})")
PROCESSORS = re.compile(rb"#.*#P:(\d{1,6})|cpus=(\d{1,6})$")
GZIP = b"\x1f\x8b"
# The largest size (bytes) of a decompressed text, and the number of bytes that are decompressed at
# once. 4,000,000 events need about 600 MB.
MOST_UNPACKED, PIECE = 2 << 30, 8 << 20
# The largest number of lines that are appended to a line whose task name contains newlines.
MOST_JOINED = 3
# A step back (ns) in the times of one processor that is larger than this begins another recording.
MOST_BACK = 10**6


def bytes_of(name: str) -> bytes:
    """Returns the bytes of a file, or of the standard input if `name` is `-`. The file may be
    gzipped.
    """
    try:
        if name == "-":
            data = sys.stdin.buffer.read()
        else:
            with open(name, "rb") as file:
                data = file.read()
        return unpacked(name, data) if data.startswith(GZIP) else data
    except IsADirectoryError:
        raise Unreadable(f"{name}: {kind_of_file(name)}") from None
    except (OSError, EOFError, zlib.error) as fault:
        raise Unreadable(f"{name}: {getattr(fault, 'strerror', None) or fault}") from None


def unpacked(name: str, data: bytes) -> bytes:
    """Decompresses gzipped data. Raises Unreadable if the result is larger than MOST_UNPACKED."""
    with gzip.GzipFile(fileobj=io.BytesIO(data)) as file:
        pieces, size = [], 0
        while piece := file.read(PIECE):
            pieces.append(piece)
            size += len(piece)
            if size > MOST_UNPACKED:
                raise Unreadable(
                    f"{name}: unpacked it has more than {MOST_UNPACKED} bytes: unpack it, and give"
                    " a part"
                )
    return b"".join(pieces)


class Text:
    """A parsed text. `events` are in the order of the lines, and `mended` contains the number of
    repairs of each kind. `overwritten` is the number of events that were overwritten before the
    first event.
    """

    def __init__(self, data: bytes) -> None:
        self.lines = data.split(b"\n")
        self.events: list[Event] = []
        self.gaps: list[Gap] = []
        self.mended: Counter[str] = Counter()
        self.processors = 0
        self.overwritten = 0
        # For each processor, the number of events that were lost since its last event, and the time
        # (ns) of that event.
        self.lost: dict[int, int] = {}
        self.lasts: dict[int, int] = {}
        if self.lines.pop():
            self.mended["last line left out, since it was cut"] += 1
        place = 0
        while place < len(self.lines):
            place += self.take(place)
        self.gaps += [
            Gap(processor, self.lasts.get(processor, 0), NEVER, count)
            for processor, count in self.lost.items()
        ]

    def line_at(self, place: int) -> bytes:
        """Returns the line with the index `place`, without its carriage return."""
        line = self.lines[place]
        if line.endswith(b"\r"):
            self.mended["carriage return at a line's end"] += 1
            return line[:-1]
        return line

    def take(self, place: int) -> int:
        """Parses the line with the index `place`. If a task's name contains newlines, the next
        lines are parsed with it. Returns the number of parsed lines.
        """
        line = self.line_at(place)
        head = head_of(line)
        if head is None:
            self.take_other(line)
            return 1
        forms = forms_of(head)
        if not forms:
            return 1
        event = event_of(head, forms)
        for more in range(1, MOST_JOINED + 1):
            if event or place + more >= len(self.lines):
                break
            head = head._replace(fields=head.fields + b"\n" + self.lines[place + more])
            event = event_of(head, forms)
            if event:
                self.mended["lines joined where a name holds a newline"] += more
                self.add(event)
                return more + 1
        if event:
            self.add(event)
        else:
            self.mended[f"{head.kind} whose fields can't be read"] += 1
        return 1

    def take_other(self, line: bytes) -> None:
        """Parses a line without an event. It may report lost or overwritten events, or the number
        of processors.
        """
        lost, entries, processors = LOST.match(line), ENTRIES.match(line), PROCESSORS.match(line)
        if lost:
            self.lost[int(lost[1])] = self.lost.get(int(lost[1]), 0) + int(lost[2] or 0)
        if entries:
            self.overwritten += int(entries[2]) - int(entries[1])
        if processors:
            self.processors = max(self.processors, int(processors[1] or processors[2]))
        if not (lost or entries or processors or line.startswith(b"#") or not line.strip()):
            self.mended["line without an event, passed over"] += 1

    def add(self, event: Event) -> None:
        """Appends an event. If events of its processor were lost since the last one, appends a gap
        too.
        """
        processor, last = event.processor, self.lasts.get(event.processor, 0)
        if processor in self.lost:
            self.gaps.append(Gap(processor, last, event.time_ns, self.lost.pop(processor)))
        self.lasts[processor] = event.time_ns
        self.events.append(event)


# ---------------------------------------------------------------- sorting by time


def parts_of(events: list[Event]) -> list[list[Event]]:
    """Splits the events into recordings. A new recording begins if the time of a processor goes
    back by more than MOST_BACK.
    """
    parts: list[list[Event]] = [[]]
    lasts: dict[int, int] = {}
    for event in events:
        if event.time_ns + MOST_BACK < lasts.get(event.processor, 0):
            parts.append([])
            lasts = {}
        lasts[event.processor] = event.time_ns
        parts[-1].append(event)
    return parts


def ordered(text: Text, source: Source) -> list[Event]:
    """Returns the events in order of time. If the text contains several recordings, returns the
    longest one, and reports the others as a loss.
    """
    parts = parts_of(text.events)
    longest = max(
        parts, key=lambda part: max(it.time_ns for it in part) - min(it.time_ns for it in part)
    )
    if len(parts) > 1:
        source.losses.append(
            f"{len(parts)} recordings, one after the other: the longest alone can be had"
        )
        first, last = min(it.time_ns for it in longest), max(it.time_ns for it in longest)
        text.gaps = [
            gap for gap in text.gaps if first <= gap.start and (gap.end <= last or gap.end == NEVER)
        ]
    back = sum(after.time_ns < before.time_ns for before, after in zip(longest, longest[1:]))
    if back:
        text.mended["times that went back, and were put in order"] += back
    return sorted(longest, key=itemgetter(0))


def begin(text: Text, source: Source) -> None:
    """Sets the start of the source to the time of the recorder's start marker, or of the first
    event if there is no marker. If the buffer was overwritten, drops the events from before the
    time at which all processors have events.
    """
    if text.overwritten > 0:
        whole_from = max(first_times(source.events).values())
        source.events = [event for event in source.events if event.time_ns >= whole_from]
        source.notes.append(
            f"{text.overwritten} events were overwritten before the first: the trace begins where"
            " all processors have events"
        )
    marked = first_marker_time(source.events, START)
    source.start = source.events[0].time_ns if marked is None else marked


# ---------------------------------------------------------------- reading the whole text


def tell_missing(source: Source) -> None:
    """Adds a loss if the text has no wakeup, and a loss if it has no switch from or to the idle
    task. Every recording of a whole machine has both.
    """
    kinds = {type(event) for event in source.events}
    if not {Wakeup, FirstWakeup} & kinds:
        source.losses.append(
            "there is no wakeup at all: was sched_wakeup on? Each sleep seems to last until the"
            " task runs"
        )
    if not any(
        isinstance(event, Switch) and not (event.previous and event.next) for event in source.events
    ):
        source.losses.append(
            "there is no switch from or to the idle task: no processor ever seems idle"
        )


def processors_of(text: Text, wanted: int | None, greatest: int) -> int:
    """Returns the number of processors: `wanted`, or the number that the text shows if `wanted` is
    None. `greatest` is the largest number of a processor in the text. Raises a Fault if `wanted`
    isn't above `greatest`.
    """
    if wanted is not None and greatest >= wanted:
        raise Fault(
            f"--cpus {wanted}: there are events of processor {greatest}, and they count from 0"
        )
    return wanted or max(text.processors, greatest + 1)


def read_text(name: str, processors: int | None) -> Source:
    """Reads ftrace text from a file, or from the standard input if `name` is `-`. `processors` is
    the number of processors, or None if the text shows it.
    """
    data = bytes_of(name)
    text = Text(data)
    if not any(isinstance(event, Switch) for event in text.events):
        kind = (
            "it is a trace already"
            if TRACE_HEADER.match(data)
            else None if data.startswith(b"#") else kind_of(data[:HEAD])
        )
        advice = kind or "is it text of ftrace with a clock in seconds?"
        raise Unreadable(f"{name}: no sched_switch can be read in it; {advice}")
    source = Source([], 0, 0, 0)
    source.events = ordered(text, source)
    source.processors = processors_of(
        text, processors, max(event.processor for event in source.events)
    )
    source.gaps = text.gaps
    begin(text, source)
    stop = first_marker_time(source.events, STOP)
    source.stop = source.events[-1].time_ns if stop is None else stop
    source.mended = text.mended
    tell_missing(source)
    bound_times(source)
    return source
