"""Defines the rows into which all formats of samples are parsed, and checks their values."""
from __future__ import annotations

import re
from collections.abc import Callable
from decimal import Decimal, InvalidOperation
from typing import NamedTuple

from psicli.fault import Fault
from psicli.times import SECOND
from psirec.layout import escaped_path

# The numbers of a row's fields. Fields 0 to 5 are the totals (us) in the order of LEVELS. Then
# follow a group's memory and swap (bytes) and scanned pages, the machine's memory, swap and free
# swap (bytes), and three averages (hundredths of a percent) for each of the six levels.
MEMORY, SWAP, SCANS, HOST, AVERAGES = 6, 7, 8, 9, 12
MOST_COMPONENTS, MOST_BYTES, MOST_VALUE = 32, 255, 2**60
ROOT = "/"


class Place(NamedTuple):
    """The place of a sample in the input: a file, and a line number from 1."""

    file: str
    line: int

    def __str__(self) -> str:
        return f"{self.file} line {self.line}"


class Row(NamedTuple):
    """Values of a group at `time` (ns since 1970), for consecutive fields that start at `field`.
    `place` has the number of the input file and the line.
    """

    time: int
    group: str
    field: int
    values: tuple[int, ...]
    place: tuple[int, int]


Put = Callable[[int, str, int, tuple[int, ...], int], None]


def ns_of(text: str) -> int:
    """Parses a decimal number of seconds, which may have an exponent. Returns ns. Raises ValueError
    if the number is malformed.
    """
    if re.fullmatch(r"[0-9]{1,12}", text):
        return int(text) * SECOND
    found = re.fullmatch(r"([0-9]{1,12})\.([0-9]{1,9})", text)
    if found:
        return int(found[1]) * SECOND + int(found[2].ljust(9, "0"))
    try:
        value = Decimal(text) * SECOND
    except InvalidOperation:
        raise ValueError(text) from None
    if not value.is_finite() or not 0 <= value < 10**12 * SECOND:
        raise ValueError(text)
    return int(value)


def us_of(text: str) -> int:
    """Parses a number of seconds. Returns us, rounded, since exporters print floating-point
    numbers.
    """
    value = float(text)
    if not 0 <= value < 1e12:
        raise ValueError(text)
    return round(value * 1e6)


def whole(text: str) -> int:
    """Parses a whole number, which may be written in floating-point notation. Raises ValueError if
    it is malformed, negative or too large.
    """
    if re.fullmatch(r"[0-9]{1,19}", text):
        found = int(text)
    else:
        value = float(text)
        found = int(value) if value == value and abs(value) < 2.0**62 else -1
        if found != value:
            raise ValueError(text)
    if not 0 <= found <= MOST_VALUE:
        raise ValueError(text)
    return found


def hundredths(text: str) -> int:
    """Parses a percentage with at most two decimals. Returns hundredths of a percent."""
    found = re.fullmatch(r"([0-9]{1,3})(?:\.([0-9]{1,2}))?", text)
    if not found:
        raise ValueError(text)
    return int(found[1]) * 100 + int((found[2] or "").ljust(2, "0"))


def must_be_path(path: str, place: Place) -> None:
    """Raises a Fault if a trace can't contain this path of a group."""
    components = path[1:].split("/") if path != ROOT else []
    if not path.startswith("/"):
        raise Fault(f"{place}: the group {path!r} doesn't begin with a /: --rename gives it a path")
    if escaped_path(path.encode("utf-8", "surrogateescape")) != path:
        escaped = escaped_path(path.encode("utf-8", "surrogateescape"))
        raise Fault(
            f"{place}: a trace can't name the group {path!r}: rename it, as by --rename"
            f" '{path}={escaped}'"
        )
    if len(components) > MOST_COMPONENTS or len(path) > MOST_BYTES:
        raise Fault(
            f"{place}: the path of a group has {len(path)} bytes and {len(components)} parts: at"
            " most 255 and 32; see --groups"
        )


def prefixes(path: str) -> list[str]:
    """Returns the paths of a group's ancestors, starting with the root."""
    if path == ROOT:
        return []
    return [ROOT, *(path[:place] for place, letter in enumerate(path) if letter == "/" and place)]
