"""Parses the lines that `psi_oomd replay` prints. docs/COMMANDS.md describes them."""
from __future__ import annotations

import re
from typing import Iterable, Iterator, NamedTuple, Optional, Union

from psicli.fault import Fault

from .kinds import REPLAY, kind_of, kind_message

RESOURCES = ("io", "memory", "cpu", "irq")
LEVELS = ("some", "full")
AVERAGES = ("avg10", "avg60", "avg300")


class Pressure(NamedTuple):
    """A line of a pressure file: averages in hundredths of a percent, and the total (us)."""

    avg10: int
    avg60: int
    avg300: int
    total: int


class Report(NamedTuple):
    """The pressure of a group for one resource at `time_ns`, as in a pressure file. `some` is None
    for interrupts.
    """

    time_ns: int
    path: str
    resource: str
    some: Optional[Pressure]
    full: Pressure


class Event(NamedTuple):
    """A signal of a trigger at `time_ns`. The trigger's threshold and window are in us."""

    time_ns: int
    trigger: int
    path: str
    resource: str
    level: str
    threshold: int
    window: int


class Kill(NamedTuple):
    """A kill that an action of a ruleset would have made at `time_ns`. Rulesets and actions are
    numbered from 0.
    """

    time_ns: int
    ruleset: int
    action: int
    path: str


class End(NamedTuple):
    """The last line: the end of the trace (ns), and the numbers of ticks, signals and kills."""

    time_ns: int
    ticks: int
    events: int
    kills: int


Line = Union[Report, Event, Kill, End]

# The largest number of bytes of a line that a message shows.
SHOWN = 60
ADVICE = ": give all that `psi_oomd replay` prints, and see what it says on standard error"
# A number that replay prints, which has at most 19 digits.
NUMBER = "(?:0|[1-9][0-9]{0,18})"
PATH = r"/[A-Za-z0-9_.@:\\/-]*"
SHARES = " ".join(rf"{average}=({NUMBER})\.([0-9][0-9])" for average in AVERAGES)
FORMS = {
    "live": re.compile(rf"live {NUMBER} cpu={NUMBER} count={NUMBER}(?: {NUMBER}){{7}}\n"),
    "report": re.compile(rf"report ({NUMBER}) ({PATH}) ({'|'.join(RESOURCES)})\n"),
    "event": re.compile(
        rf"event ({NUMBER}) trigger=({NUMBER}) ({PATH}) (io|memory|cpu) (some|full) ({NUMBER})"
        rf" ({NUMBER})\n"
    ),
    "kill": re.compile(rf"kill ({NUMBER}) ruleset=({NUMBER}) action=({NUMBER}) ({PATH})\n"),
    "end": re.compile(rf"end ({NUMBER}) ticks=({NUMBER}) events=({NUMBER}) kills=({NUMBER})\n"),
    **{level: re.compile(rf"{level} {SHARES} total=({NUMBER})\n") for level in LEVELS},
}


def pressure_of(fields: tuple[str, ...]) -> Pressure:
    whole10, part10, whole60, part60, whole300, part300, total = fields
    return Pressure(
        int(whole10 + part10), int(whole60 + part60), int(whole300 + part300), int(total)
    )


class Reader:
    """Parses lines one by one. A report consists of several lines, so its first lines are stored
    until its last line, `full`.
    """

    def __init__(self) -> None:
        self.head: Optional[tuple[str, str, str]] = None
        self.some: Optional[Pressure] = None
        self.is_ended = False

    def due(self) -> Optional[str]:
        """Returns the word with which the next line of a report must begin, or None outside of a
        report.
        """
        if not self.head:
            return None
        return "full" if self.some or self.head[2] == "irq" else "some"

    def is_in_place(self, verb: str) -> bool:
        due = self.due()
        return not self.is_ended and (verb == due if due else verb not in LEVELS)

    def take(self, line: str) -> Optional[Line]:
        """Parses a line. Returns the report, signal, kill or end that it completes, or None if it
        completes none of these. Raises ValueError if `replay` can't print the line at this point.
        """
        verb = line.partition(" ")[0]
        found = FORMS[verb].fullmatch(line) if verb in FORMS and self.is_in_place(verb) else None
        if not found:
            raise ValueError(line)
        fields = found.groups()
        if verb == "report":
            self.head = (fields[0], fields[1], fields[2])
        elif verb == "some":
            self.some = pressure_of(fields)
        elif verb == "full":
            return self.whole_report(pressure_of(fields))
        elif verb == "event":
            time_ns, trigger, path, resource, level, threshold, window = fields
            return Event(
                int(time_ns), int(trigger), path, resource, level, int(threshold), int(window)
            )
        elif verb == "kill":
            return Kill(int(fields[0]), int(fields[1]), int(fields[2]), fields[3])
        elif verb == "end":
            self.is_ended = True
            return End(*map(int, fields))
        return None

    def whole_report(self, full: Pressure) -> Report:
        assert self.head
        time_ns, path, resource = self.head
        report = Report(int(time_ns), path, resource, self.some, full)
        self.head = self.some = None
        return report


def refused(number: int, text: bytes) -> Fault:
    """Returns the error for a line that `replay` can't print at this point. If it is the first
    line, the message says what kind of file the input is.
    """
    found = kind_message(kind_of(text), REPLAY, "FILE") if number == 1 else ""
    if found:
        return Fault(f"the input: {found}")
    shown = repr(text[:SHOWN].decode("latin-1").rstrip("\n")) + (".." if len(text) > SHOWN else "")
    return Fault(f"line {number}: replay prints no such line here: {shown}{ADVICE}")


def read(printed: Iterable[bytes]) -> Iterator[Line]:
    """Yields the reports, signals and kills of a replay's output, and its end. Lines `live` are
    ignored. Raises a Fault at a line that `replay` can't print at this point, and if the last line
    is missing.
    """
    reader = Reader()
    number = 0
    for number, text in enumerate(printed, 1):
        try:
            line = reader.take(text.decode("latin-1"))
        except ValueError:
            raise refused(number, text) from None
        if line:
            yield line
    if not number:
        raise Fault(f"the input is empty{ADVICE}")
    if not reader.is_ended:
        raise Fault(
            f"the input stops before the last line of a replay, which begins with `end`{ADVICE}"
        )
