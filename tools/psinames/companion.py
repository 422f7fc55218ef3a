"""Reads and writes the companion file of a trace, `X.trace.names` next to `X.trace`. psitrace
writes this file. It contains names and times that a trace can't express. docs/TRACES.md describes
its lines.
"""
from __future__ import annotations

import contextlib
import hashlib
import os
import re
from collections.abc import Iterable, Iterator
from dataclasses import dataclass, field
from typing import Optional, Union

from psicli.fault import Fault
from psicli.times import WallTime, wall_time

from .busy import Busy, Process
from .clock import wall_text
from .lives import Life
from .text import is_escaped

SUFFIX = ".names"
HEADER = "psinames 1"
END = "end"
PIECE = 1 << 20
NUMBER = "(0|[1-9][0-9]{0,19})"
PATH = r"(/[A-Za-z0-9_.@:\\/-]*)"


@dataclass
class Companion:
    """The contents of a companion file: the trace's size (bytes), SHA-256 and length (ns), the time
    of day at its start, and the time (ns) at which the recording begins after a warm-up. It also
    contains the tasks with their lifetimes, and the processes that ran most in each window of
    `window` ns. The tasks of a folded trace have the label 0. `containers` maps the ids of
    containers and pods to names.
    """

    size: int
    digest: str
    length: int
    start: Optional[WallTime] = None
    begins: int = 0
    window: int = 0
    containers: dict[str, str] = field(default_factory=dict)
    tasks: list[Life] = field(default_factory=list)
    busy: list[Busy] = field(default_factory=list)


def companion_of(trace: str) -> str:
    """Returns the path of a trace's companion file."""
    return trace + SUFFIX


# ---------------------------------------------------------------- writing the file


def lines_of(known: Companion) -> Iterator[str]:
    """Yields the lines of a companion file, without newlines."""
    yield HEADER
    yield f"trace {known.size} {known.digest}"
    yield f"length {known.length}"
    if known.start:
        yield f"start {wall_text(known.start)}"
    if known.begins:
        yield f"begins {known.begins}"
    yield from (f"container {number} {name}" for number, name in sorted(known.containers.items()))
    for life in known.tasks:
        last = known.length if life.last is None else life.last
        names = life.names or ((life.first, ""),)
        yield f"task {life.label} {life.first} {last} {life.task} {life.process} {names[0][1]}"
        yield from (f"name {since} {name}" for since, name in names[1:])
    if known.window:
        yield f"window {known.window}"
    for it in known.busy:
        processes = (f" {process.number} {process.ran}" for process in it.processes)
        yield f"busy {it.window} {it.path} {it.ran}{''.join(processes)}"
    yield END


def write(name: str, known: Companion) -> None:
    """Writes a companion file atomically: an incomplete file never appears under its name."""
    part = f"{name}.part"
    try:
        with open(part, "w", encoding="utf-8", errors="surrogateescape", newline="\n") as file:
            file.writelines(f"{line}\n" for line in lines_of(known))
        os.replace(part, name)
    except BaseException:
        with contextlib.suppress(OSError):
            os.unlink(part)
        raise


# ---------------------------------------------------------------- reading the file

Fields = tuple[str, ...]
# The syntax of each kind of line, after the first word.
FORMS: dict[str, re.Pattern[str]] = {
    "trace": re.compile(f"{NUMBER} ([0-9a-f]{{64}})"),
    "length": re.compile(NUMBER),
    "start": re.compile("([0-9T:.Z+-]{1,40})"),
    "begins": re.compile(NUMBER),
    "window": re.compile("([1-9][0-9]{0,19})"),
    "container": re.compile("([0-9a-f_-]{12,64}) (.{1,300})"),
    "task": re.compile(f"{NUMBER} {NUMBER} {NUMBER} {NUMBER} {NUMBER} (.{{0,80}})"),
    "name": re.compile(f"{NUMBER} (.{{0,80}})"),
    "busy": re.compile(f"{NUMBER} {PATH} {NUMBER}((?: {NUMBER} {NUMBER})*)"),
}  # fmt: skip
# The kinds of lines that precede the tasks. A tool that needs only the time of day stops reading
# after them.
HEAD = ("trace", "length", "start", "begins", "container")


class Malformed(ValueError):
    """The error for a line that can't be part of a companion file."""


class Reader:
    """Parses the lines of a companion file, and stores their contents in `known`."""

    def __init__(self) -> None:
        self.known = Companion(0, "", 0)

    def take(self, line: str) -> str:
        """Parses a line, and returns the line's first word."""
        word, _, rest = line.partition(" ")
        found = FORMS[word].fullmatch(rest) if word in FORMS else None
        if not found or not line.isprintable():
            raise Malformed(line)
        getattr(self, f"take_{word}")(found.groups(""))
        return word

    def take_trace(self, fields: Fields) -> None:
        self.known.size, self.known.digest = int(fields[0]), fields[1]

    def take_length(self, fields: Fields) -> None:
        self.known.length = int(fields[0])

    def take_start(self, fields: Fields) -> None:
        self.known.start = wall_time(fields[0])

    def take_begins(self, fields: Fields) -> None:
        self.known.begins = int(fields[0])

    def take_window(self, fields: Fields) -> None:
        self.known.window = int(fields[0])

    def take_container(self, fields: Fields) -> None:
        self.known.containers[fields[0]] = must_be_escaped(fields[1])

    def take_task(self, fields: Fields) -> None:
        label, first, last, task, process = map(int, fields[:5])
        life = Life(label, first, task, process)
        life.last = last
        if fields[5]:
            life.rename(first, must_be_escaped(fields[5]))
        self.known.tasks.append(life)

    def take_name(self, fields: Fields) -> None:
        if not self.known.tasks:
            raise Malformed("name")
        self.known.tasks[-1].rename(int(fields[0]), must_be_escaped(fields[1]))

    def take_busy(self, fields: Fields) -> None:
        numbers = [int(it) for it in fields[3].split()]
        found = tuple(Process(number, "", ran) for number, ran in zip(numbers[::2], numbers[1::2]))
        self.known.busy.append(Busy(int(fields[0]), fields[1], int(fields[2]), found))


def must_be_escaped(name: str) -> str:
    """Returns `name`, or raises Malformed if it isn't escaped."""
    if not is_escaped(name):
        raise Malformed(name)
    return name


def read(name: str, is_whole: bool = True) -> Companion:
    """Reads a companion file. Without `is_whole` it stops before the tasks."""
    reader, number, word = Reader(), 1, ""
    try:
        with open(name, encoding="utf-8", errors="surrogateescape", newline="\n") as file:
            if file.readline() != f"{HEADER}\n":
                why = f"it doesn't begin with '{HEADER}'"
                raise Fault(f"{name} isn't a companion file of a trace: {why}")
            for number, line in enumerate(file, 2):
                if line == f"{END}\n":
                    return led(reader.known)
                word = reader.take(line.removesuffix("\n"))
                if word not in HEAD and not is_whole:
                    return reader.known
    except ValueError:
        why = f"line {number} isn't one of a companion file"
        raise Fault(f"{name}: {why}: make the trace again") from None
    raise Fault(f"{name} is cut off: make the trace again")


def led(known: Companion) -> Companion:
    """Sets each task's `leader` to the first thread of its process. Pids are reused, so several
    tasks may have the process's number. The leader is the latest of them that began no later than
    the task, or the earliest if all began later.
    """
    leaders: dict[int, list[Life]] = {}
    for life in known.tasks:
        if life.task == life.process:
            leaders.setdefault(life.process, []).append(life)
    for life in known.tasks:
        found = leaders.get(life.process, ()) if life.task != life.process else ()
        before = [it for it in found if it.first <= life.first]
        life.leader = (before or found or [life])[-1 if before else 0]
    return known


# ---------------------------------------------------------------- matching a trace


def digest_of(parts: Iterable[Union[bytes, memoryview]]) -> tuple[int, str]:
    """Returns the total number of bytes in `parts` and their SHA-256."""
    found, size = hashlib.sha256(), 0
    for part in parts:
        found.update(part)
        size += len(part)
    return size, found.hexdigest()


def pieces_of(trace: str) -> Iterator[bytes]:
    """Yields the bytes of a file in pieces of up to 1 MiB."""
    with open(trace, "rb") as file:
        while piece := file.read(PIECE):
            yield piece


def must_belong(name: str, known: Companion, trace: str) -> None:
    """Raises a Fault if the companion belongs to another trace, since its names and times would be
    wrong for this trace.
    """
    size = os.path.getsize(trace)
    why = f"its trace has {known.size} bytes, and {trace} {size}" if size != known.size else ""
    if not why and digest_of(pieces_of(trace))[1] != known.digest:
        why = f"its trace has another SHA-256 than {trace}"
    if why:
        advice = "make both with psitrace -o, or remove it"
        raise Fault(f"{name} is the companion of another trace: {why}: {advice}")


def find(trace: str, is_whole: bool = True) -> Optional[Companion]:
    """Reads the companion of a trace. Returns None if there is no such file, or if the trace is
    the standard input.
    """
    name = companion_of(trace)
    if trace == "-" or not os.path.isfile(name) or not os.path.isfile(trace):
        return None
    known = read(name, is_whole)
    must_belong(name, known, trace)
    return known
