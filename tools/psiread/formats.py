"""Parses the kernel's `format` files. They describe the fields in the records of an event.

A field's line is `field:TYPE NAME; offset:N; size:N; signed:N;`, with offsets and sizes in bytes
(`Documentation/trace/events.rst` of Linux, section 2.2). Numbers in records are little-endian.
"""
from __future__ import annotations

import operator
import re
import struct
from collections.abc import Callable, Sequence
from typing import NamedTuple

FIELD = re.compile(
    r"\s+field:(.*?)([A-Za-z0-9_]+)(\[[^\]]*\])?;\s*offset:([0-9]{1,7});\s*size:([0-9]{1,7});"
    r"\s*signed:([01]);"
)
INTEGERS = {(1, True): "b", (1, False): "B", (2, True): "h", (2, False): "H",
            (4, True): "i", (4, False): "I", (8, True): "q", (8, False): "Q"}  # fmt: skip
# The size (bytes) of the largest accepted page. The largest ring-buffer pages have 1 MB.
MOST_PAGE = 1 << 21
# A function that reads integer fields of a record. Its arguments are the pages and the offset of
# the record.
IntegerReader = Callable[[bytes, int], tuple[int, ...]]


class FormatFault(Exception):
    """Raised if pages or records with these formats aren't supported."""


class Field(NamedTuple):
    """A field of a record, with its offset and size in bytes. If `size` is 0, the field is a text
    that extends to the end of the record.
    """

    type: str
    offset: int
    size: int
    is_signed: bool


class Format(NamedTuple):
    """The format of an event: its name, the number that identifies its records, its fields, and its
    print format.
    """

    name: str
    number: int
    fields: dict[str, Field]
    print_format: str


def field_of(line: str) -> tuple[str, Field] | None:
    """Parses a line of a format. Returns the field's name and the field, or None if the line
    doesn't describe a field.
    """
    found = FIELD.match(line)
    if not found:
        return None
    return found[2], Field(
        found[1].strip() + (found[3] or ""), int(found[4]), int(found[5]), found[6] == "1"
    )


def sections_of(text: str) -> dict[str, list[str]]:
    """Splits the recording's file of formats into sections. A section begins with `== NAME`.
    Returns the lines of each section, keyed by NAME.
    """
    sections: dict[str, list[str]] = {}
    lines: list[str] = []
    for line in text.split("\n"):
        if line.startswith("== "):
            lines = sections[line[3:].strip()] = []
        else:
            lines.append(line)
    return sections


def fields_of(lines: Sequence[str]) -> dict[str, Field]:
    """Returns all fields of a format, keyed by name."""
    return dict(found for found in map(field_of, lines) if found)


def formats_of(sections: dict[str, list[str]]) -> dict[str, Format]:
    """Returns the formats of all events, keyed by the event's name without its subsystem."""
    formats = {}
    for path, lines in sections.items():
        number = next(
            (int(line[4:]) for line in lines if re.fullmatch("ID: [0-9]{1,9}", line)), None
        )
        if number is not None:
            name = path.rpartition("/")[2]
            texts = [line for line in lines if line.startswith("print fmt:")]
            formats[name] = Format(name, number, fields_of(lines), texts[0] if texts else "")
    return formats


class PageFormat(NamedTuple):
    """The layout of a ring-buffer page, according to `events/header_page`: the page size, the size
    of the field `commit`, and the offset of the records, all in bytes.
    """

    size: int
    commit_size: int
    data: int


def page_format_of(sections: dict[str, list[str]]) -> PageFormat:
    """Returns the layout of the recording's pages."""
    fields = fields_of(sections.get("header_page", ()))
    try:
        data, commit = fields["data"], fields["commit"]
    except KeyError as missing:
        raise FormatFault(f"header_page has no field {missing}") from None
    if commit.size not in (4, 8) or commit.offset != 8:
        raise FormatFault(f"header_page: commit has {commit.size} bytes at {commit.offset}")
    if data.offset < 16 or not data.offset < data.offset + data.size <= MOST_PAGE:
        raise FormatFault(f"header_page: data has {data.size} bytes at {data.offset}")
    return PageFormat(data.offset + data.size, commit.size, data.offset)


def state_letters(print_format: str) -> tuple[dict[int, str], int]:
    """Returns the letter for each bit of `prev_state`, and the bit for `R+`, both derived from the
    print format of `sched_switch`. `R+` means that the task was preempted while it was about to
    sleep, and remains ready. Its bit is the one above the bits with letters.
    """
    letters = {
        int(bit, 16): letter
        for bit, letter in re.findall(r"\{\s*(0x[0-9a-fA-F]{1,16}),\s*\"(\w)\"", print_format)
    }
    if not letters:
        raise FormatFault("the format of sched_switch has no letters of states")
    return letters, 2 * max(letters)


def integers_of(form: Format, names: Sequence[str]) -> IntegerReader:
    """Returns a function that reads the fields `names` of a record. The fields must be integers."""
    try:
        fields = [form.fields[name] for name in names]
        order = sorted(range(len(fields)), key=lambda place: fields[place].offset)
        layout, end = "<", 0
        for field in (fields[place] for place in order):
            layout += f"{field.offset - end}x" + INTEGERS[field.size, field.is_signed]
            end = field.offset + field.size
        reader = struct.Struct(layout)
    except (KeyError, struct.error) as fault:
        raise FormatFault(f"{form.name} has no field {fault} that can be read") from None
    return in_order(reader, [order.index(place) for place in range(len(order))])


def in_order(reader: struct.Struct, places: list[int]) -> IntegerReader:
    """Returns a function that unpacks a structure, and returns its numbers in the order of
    `places`.
    """
    unpack = reader.unpack_from
    if places == list(range(len(places))):
        return unpack
    pick: Callable[[tuple[int, ...]], tuple[int, ...]] = operator.itemgetter(*places)
    return lambda data, at: pick(unpack(data, at))


def text_at(data: bytes, at: int, end: int, field: Field) -> bytes:
    """Returns the text field of a record between the offsets `at` and `end`, without its
    terminating zero.
    """
    if field.type.startswith("__data_loc"):
        where = int.from_bytes(data[at + field.offset : at + field.offset + 4], "little")
        start = at + (where & 0xFFFF)
        found = data[start : min(start + (where >> 16), end)]
    else:
        start = at + field.offset
        found = data[start : start + field.size if field.size else end]
    return found.split(b"\0", 1)[0]
