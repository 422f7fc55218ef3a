"""Reads and writes the mark of a trace that was made from samples. The mark is the trace's first
two events: the first creates a group whose name contains the details, and the second removes that
group.

Such a trace has the pressure of groups, but its tasks, its processors and its context switches are
synthetic. Every tool that needs real tasks or switches calls this module, and rejects such a trace.
"""
from __future__ import annotations

import os
import re
from typing import NamedTuple, Optional

from psicli.fault import Fault
from psicli.times import SECOND, seconds

MS = SECOND // 1000
NAME = "psi-samples"
FIELDS = ("every-ms", "gap-ms", "scans", "set", "part", "start-ms", "skip-ms")
MARK = re.compile(
    rb"psitrace [12] cpus=\d+\n0 group (/psi-samples(?::[a-z-]+:[0-9a-f]+){7})\n0 rmgroup \1\n"
)
# The number of bytes, from the start of a trace, that contain the mark.
MOST_BYTES = 512


class Sampled(NamedTuple):
    """The contents of a mark: the interval between samples and the longest gap (ns), and whether
    scanned pages were sampled.

    Long samples become a set of several traces, called parts. `whole` is the number of the set, and
    `part` the number of the part from 1. `start` is the time (ns) in the set at which the part
    begins. `skip` is the time (ns) in the part up to which kills belong to the previous part.
    """

    every: int
    gap: int
    has_scans: bool
    whole: int
    part: int
    start: int
    skip: int

    def lines(self) -> list[str]:
        """Returns the lines of the mark, which follow the header of a trace."""
        values = (
            self.every // MS,
            self.gap // MS,
            int(self.has_scans),
            self.whole,
            self.part,
            self.start // MS,
            self.skip // MS,
        )
        name = "/" + ":".join(
            [
                NAME,
                *(
                    f"{key}:{value:x}" if key == "set" else f"{key}:{value}"
                    for key, value in zip(FIELDS, values)
                ),
            ]
        )
        return [f"0 group {name}\n", f"0 rmgroup {name}\n"]

    def interval(self) -> str:
        """Describes the interval between samples as text."""
        longest = f", with gaps of up to {seconds(self.gap)} s" if self.gap > 2 * self.every else ""
        return f"samples each {seconds(self.every)} s{longest}"


def mark_in(data: bytes) -> bytes:
    """Returns the first lines of a trace, up to the end of its mark. Returns no bytes if it has no
    mark.
    """
    found = MARK.match(data)
    return found[0] if found else b""


def sampled_in(data: bytes) -> Optional[Sampled]:
    """Returns the mark in the first bytes of a trace, or None if it has no mark."""
    found = MARK.match(data[:MOST_BYTES])
    if not found:
        return None
    words = found[1].decode().split(":")[1:]
    values = dict(zip(words[::2], words[1::2]))
    if tuple(values) != FIELDS:
        return None
    every, gap, scans, whole, part, start, skip = (
        int(values[key], 16 if key == "set" else 10) for key in FIELDS
    )
    return Sampled(every * MS, gap * MS, bool(scans), whole, part, start * MS, skip * MS)


def sampled(name: str) -> Optional[Sampled]:
    """Returns the mark of a trace, or None if it has no mark or can't be read. If the trace can't
    be read, the next reader reports why. The name `-` is the standard input, if that is a file.
    """
    try:
        if name == "-":
            return sampled_in(os.pread(0, MOST_BYTES, 0))
        with open(name, "rb") as file:
            return sampled_in(file.read(MOST_BYTES))
    except OSError:
        return None


def refusal(name: str, found: Sampled, what: str) -> str:
    """Returns the message that rejects a trace of samples. `what` names what the tool needs, which
    such a trace doesn't contain.
    """
    return f"{name} was made of {found.interval()}: it doesn't say {what} (docs/SAMPLES.md)"


def refuse_sampled(file: str, name: str, what: str) -> None:
    """Raises a Fault if the trace was made from samples. `what` names what the tool needs, which
    such a trace doesn't contain.
    """
    found = sampled(file)
    if found:
        raise Fault(refusal(name, found, what))


class Whole(NamedTuple):
    """A single trace, or a set of traces that were made together from long samples. A set has the
    name of its first trace. Each trace is listed with its mark.
    """

    name: str
    parts: list[tuple[str, Optional[Sampled]]]


def wholes(names: list[str]) -> list[Whole]:
    """Groups the traces `names` into sets. Traces that were made together from samples form one
    set.
    """
    found: dict[str, Whole] = {}
    for place, name in enumerate(names):
        mark = sampled(name)
        key = f"set {mark.whole}" if mark else f"trace {place}"
        found.setdefault(key, Whole(name, [])).parts.append((name, mark))
    ordered = [
        sorted(it.parts, key=lambda part: part[1].part if part[1] else 0) for it in found.values()
    ]
    return [Whole(parts[0][0], parts) for parts in ordered]


def time_in_whole(time: int, mark: Optional[Sampled]) -> Optional[int]:
    """Converts `time` (ns) in a part to the time (ns) in the whole set. Returns None for a time
    that the previous part covers too.
    """
    if mark is None:
        return time
    return mark.start + time if time >= mark.skip else None
