"""Reads the pages of a kernel's ring buffers, in the binary form of `per_cpu/cpuN/trace_pipe_raw`.

A page begins with the time (ns) of its first record, and with the word `commit`, which contains the
number of bytes of the records that follow. Two of its bits say whether events were lost before the
page, and whether their number is stored after the records. The first word of a record has 5 bits
for its kind, and 27 bits for the time since the previous record. See `include/linux/ring_buffer.h`
and `kernel/trace/ring_buffer.c` of Linux (`RB_MISSED_EVENTS`, `rb_event_length`,
`ring_buffer_read_page`).
"""
from __future__ import annotations

import struct
from collections.abc import Iterator
from typing import NamedTuple

from .events import Event, Gap
from .formats import PageFormat
from .names import Names
from .records import Decoder

MISSED = 1 << 31
MISSED_STORED = 1 << 30
# The bits of the page header's field `commit` that contain the number of used bytes. A page has at
# most 1 MB.
USED = (1 << 30) - 1

# The kinds of records. The kinds 1 to 28 are lengths in words of four bytes. Kind 0 has its length
# in an extra word.
PADDING, TIME_EXTENDS = 29, 30
TIME_BITS = 27
# The number of time bits in a record with an absolute timestamp. The higher bits are those of the
# previous time.
ABSOLUTE_BITS = 59

WORD = struct.Struct("<I").unpack_from
LONG = struct.Struct("<Q").unpack_from


class PageFault(Exception):
    """Raised if a page is malformed."""


class Page(NamedTuple):
    """The header of a page. `time_ns` is the time (ns) of its first record. `lost` is the number of
    events lost before the page: 0 for none, -1 for unknown. `start` and `end` are the offsets
    (bytes) of the first record and of the end of the last.
    """

    time_ns: int
    lost: int
    start: int
    end: int


def page_at(data: bytes, at: int, form: PageFormat) -> Page:
    """Parses the header of the page that begins at the offset `at`."""
    time_ns = LONG(data, at)[0]
    commit = LONG(data, at + 8)[0] if form.commit_size == 8 else WORD(data, at + 8)[0]
    start = at + form.data
    end = start + (commit & USED)
    if end > at + form.size:
        raise PageFault(f"the page at byte {at} tells of {commit & USED} bytes of records")
    lost = 0
    if commit & MISSED:
        is_stored = commit & MISSED_STORED and end + 8 <= at + form.size
        lost = (LONG(data, end)[0] if is_stored else 0) or -1
    return Page(time_ns, lost, start, end)


def records_of(data: bytes, page: Page) -> Iterator[tuple[int, int, int]]:
    """Yields the time (ns), start and end of each event's record in a page."""
    time_ns, at, end = page.time_ns, page.start, page.end
    while at + 4 <= end:
        word = WORD(data, at)[0]
        kind, delta = word & 31, word >> 5
        at += 4
        if 0 < kind < PADDING:
            time_ns += delta
            yield time_ns, at, at + 4 * kind
            at += 4 * kind
            continue
        if at + 4 > end:
            return
        more = WORD(data, at)[0]
        if kind == 0:
            time_ns += delta
            yield time_ns, at + 4, min(at + more, end)
            at += more
        elif kind == PADDING:
            if delta == 0:  # the rest of the page is empty
                return
            time_ns += delta
            at += more
        else:
            value = delta + (more << TIME_BITS)
            time_ns = (
                time_ns + value
                if kind == TIME_EXTENDS
                else time_ns >> ABSOLUTE_BITS << ABSOLUTE_BITS | value
            )
            at += 4


class Pages(NamedTuple):
    """The contents of one processor's pages: its events in order, the gaps, and the number of bytes
    after the last complete page.
    """

    events: list[Event]
    gaps: list[Gap]
    rest: int


def read_pages(
    data: bytes,
    processor: int,
    form: PageFormat,
    decoders: dict[int, Decoder],
    names: Names,
    is_ring: bool,
) -> Pages:
    """Reads all pages of a processor. A flight recorder's buffer overwrites old pages by design, so
    there a loss before the first page isn't a gap.
    """
    events: list[Event] = []
    gaps: list[Gap] = []
    named = names.switch, names.exec
    before = 0
    pages = len(data) // form.size
    for at in range(0, pages * form.size, form.size):
        page = page_at(data, at, form)
        if page.lost and not (is_ring and at == 0):
            gaps.append(Gap(processor, before, page.time_ns, max(page.lost, 0)))
        for time_ns, start, end in records_of(data, page):
            number = data[start] | data[start + 1] << 8
            decoder = decoders.get(number)
            if decoder:
                event = decoder(time_ns, processor, data, start, end)
                name = names.of(number, event, data, start, end) if number in named else None
                if name:
                    events.append(name)
                events.append(event)
            before = time_ns
    return Pages(events, gaps, len(data) % form.size)
