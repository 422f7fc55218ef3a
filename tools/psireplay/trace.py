"""Reads the header, the end, the groups and the events of a trace file, without checking that the
trace is valid.
"""
from __future__ import annotations

import io
import mmap
import os
import re
from collections.abc import Iterator
from typing import IO

from .program import opened
from .sampled import MOST_BYTES, mark_in

HEADER = re.compile(rb"psitrace [12] cpus=([1-9][0-9]?)\n")
END = re.compile(rb"(?:\A|\n)([0-9]{1,19}) end\n\Z")
GROUP = re.compile(rb"^[0-9]+ group (\S+)$", re.MULTILINE)
# A number of bytes that is sufficient for a header or a last line.
SHORT = 64
# The end (ns) that is assumed for a file without an end line. The program rejects such a file
# later.
UNKNOWN = 2**63
# An event: its time (ns), its verb, and its fields.
Event = tuple[int, str, list[str]]


def cpus_in(file: IO[bytes]) -> int | None:
    """Parses the header, and returns the number of processors. Returns None if the line isn't a
    header.
    """
    found = HEADER.fullmatch(file.readline(SHORT))
    return int(found[1]) if found else None


def end_in(file: IO[bytes]) -> int | None:
    """Returns the end of a trace (ns), or None if the file's last line isn't an end line."""
    size = file.seek(0, os.SEEK_END)
    file.seek(max(0, size - SHORT))
    found = END.search(file.read())
    return int(found[1]) if found else None


def end_of(trace: str, unknown: int = UNKNOWN) -> int:
    """Returns the end of a trace (ns). Returns `unknown` if the file can't be read, or if its last
    line isn't an end line.
    """
    try:
        with open(trace, "rb") as file:
            end = end_in(file)
    except OSError:
        return unknown
    return unknown if end is None else end


def groups_in(number: int) -> set[str]:
    """Returns the paths of the root and of all groups that a trace ever creates, except the group
    that marks a trace of samples. `number` is the file descriptor of the trace.
    """
    with mmap.mmap(number, 0, access=mmap.ACCESS_READ) as data:
        found = GROUP.findall(data, len(mark_in(data[:MOST_BYTES])))
    return {"/", *(path.decode("latin-1") for path in found)}


def groups_of(trace: str) -> set[str]:
    """Returns the paths of the root and of all groups that a trace ever creates. Returns only the
    root if the file can't be read.
    """
    try:
        with open(trace, "rb") as file:
            return groups_in(file.fileno())
    except (OSError, ValueError):
        return {"/"}


def event_in(line: str) -> Event:
    """Parses a line that follows the header."""
    time_ns, verb, *fields = line.split()
    return int(time_ns), verb, fields


def events_of(trace: str) -> Iterator[Event]:
    """Yields the events of a trace file."""
    with io.TextIOWrapper(opened(trace), "latin-1", newline="\n") as file:
        next(file, None)
        yield from map(event_in, file)


class Events:
    """Reads the events of a trace file step by step. Each call of `until` continues after the last
    event of the previous call.
    """

    def __init__(self, trace: str) -> None:
        self.events = events_of(trace)
        self.following = next(self.events, None)

    def until(self, time_ns: float) -> Iterator[Event]:
        """Yields the next events up to and including `time_ns`."""
        while self.following and self.following[0] <= time_ns:
            yield self.following
            self.following = next(self.events, None)
