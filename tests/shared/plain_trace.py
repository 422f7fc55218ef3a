"""The reference parser of traces: it computes whether a trace must be rejected, at which line and
for which cause.

It follows docs/TRACES.md. A line that isn't spelled as defined there is malformed. Other lines are
checked against the state after the previous lines. If a line has several causes, the first in the
order of that page's table is reported.
"""
from __future__ import annotations

import re
from collections.abc import Iterator
from typing import Callable, Optional

from shared.machine import Machine, parent_of

LONGEST_LINE = 512
MOST_MOMENT, MOST_NUMBER = 2 * 10**15, 2**64 - 1
MOST_EVENTS, MOST_GROUPS, MOST_TASKS, MOST_TRIGGERS, MOST_PRESSURES = (
    4_000_000, 1024, 65_536, 256, 65_536,
)
MOST_INTERRUPTS = 10**9
# The causes to reject a correctly spelled line, in order of precedence.
ORDER = (
    "TimeBack", "TimeTooLate", "TooManyEvents", "TooManyGroups", "TooManyTasks", "TooManyTriggers",
    "TooManyPressures",
    "UnknownGroup", "GroupExists", "NoParent", "GroupBusy", "RootPressure", "UnknownTask",
    "TaskExists", "BadWindow", "BadCpu",
    "NotRunning", "NotReady", "NotBlocked", "WrongHow", "InStall", "NotInStall", "IrqTooLong",
)  # fmt: skip
Refusal = tuple[int, str]

# ---------------------------------------------------------------- spelling of lines

Form = Callable[[str], bool]


def number(least: int, most: int) -> Form:
    """Returns a parser of a decimal number in a range, without leading zeros."""
    return lambda text: bool(
        re.fullmatch("0|[1-9][0-9]{0,19}", text, re.ASCII)
    ) and least <= int(text) <= most


def word(*words: str) -> Form:
    return lambda text: text in words


def is_path(text: str) -> bool:
    """Returns whether a text is a path: the root, or 1 to 32 components that each follow a slash. A
    path has at most 255 bytes.
    """
    parts = text[1:].split("/")
    are_names = all(
        re.fullmatch(r"[A-Za-z0-9_.@:\\-]+", part, re.ASCII) and part not in (".", "..")
        for part in parts
    )
    return text == "/" or (text[:1] == "/" and are_names and len(parts) <= 32 and len(text) <= 255)


PID, CPU, NEXT = number(1, 2**32 - 1), number(0, 2**32 - 1), number(0, 2**32 - 1)
SIZE, TIME = number(0, 2**60), number(0, MOST_NUMBER)
FIELDS: dict[str, tuple[Form, ...]] = {
    "group": (is_path,),
    "rmgroup": (is_path,),
    "prefer": (is_path, word("prefer", "avoid", "none")),
    "fork": (PID, is_path, CPU),
    "wake": (PID, CPU),
    "switch": (CPU, NEXT, word("preempt", "sleep", "iowait", "exit", "idle")),
    "stall": (PID,),
    "unstall": (PID,),
    "migrate": (PID, CPU),
    "move": (PID, is_path),
    "mem": (is_path, SIZE, SIZE, SIZE),
    "host": (SIZE, SIZE, SIZE),
    "trigger": (is_path, word("io", "memory", "cpu"), word("some", "full"), TIME, TIME),
    "irq": (CPU, TIME),
    "pressure": (is_path, word("on", "off")),
    "end": (),
}

LATER_VERBS = ("irq", "pressure")


def fault_of_spelling(version: int, line: str) -> Optional[str]:
    """Returns the first cause to reject the spelling of an event line, or None if its spelling is
    correct.
    """
    time_ns, *rest = line.split(" ")
    if not TIME(time_ns):
        return "BadTime"
    if not rest or rest[0] not in FIELDS or (rest[0] in LATER_VERBS and version < 2):
        return "BadVerb"
    forms, fields = FIELDS[rest[0]], rest[1:]
    for place in range(max(len(forms), len(fields))):
        if place >= len(forms) or place >= len(fields) or not forms[place](fields[place]):
            return f"BadField {place + 1}"
    return None


def header_of(line: str) -> Optional[tuple[int, int]]:
    """Parses a header. Returns the version and the number of processors, or None if it is
    malformed.
    """
    found = re.fullmatch("psitrace ([12]) cpus=([1-9][0-9]?)", line, re.ASCII)
    return (int(found[1]), int(found[2])) if found and int(found[2]) <= 64 else None


# ---------------------------------------------------------------- the state after each line


class World:
    """The state after the previous lines: groups, tasks and processors."""

    def __init__(self, cpus: int) -> None:
        self.machine = Machine(cpus)
        self.last = self.events = self.triggers = self.pressures = 0
        self.interrupted: dict[int, int] = {}

    def take(self, time_ns: int, verb: str, fields: list[str]) -> None:
        """Applies a valid event at `time_ns`."""
        self.machine.take(verb, *fields)
        self.last, self.events = time_ns, self.events + 1
        self.triggers += verb == "trigger"
        self.pressures += verb == "pressure"
        if verb == "irq":
            self.interrupted[int(fields[0])] = time_ns

    def causes(self, time_ns: int, verb: str, fields: list[str], most: int) -> Iterator[str]:
        """Yields all causes to reject the event at `time_ns`. `most` is the largest allowed
        time (ns).
        """
        limits = (time_ns < self.last, "TimeBack"), (time_ns > most, "TimeTooLate"), (
            self.events >= MOST_EVENTS, "TooManyEvents"
        )
        yield from (cause for stands, cause in limits if stands)
        against = getattr(self, f"against_{verb}", None)
        if verb == "irq":
            yield from self.against_irq(time_ns, *fields)
        elif against:
            yield from (cause for stands, cause in against(*fields) if stands)

    def is_cpu(self, cpu: str) -> bool:
        return int(cpu) < self.machine.cpus

    def is_at(self, pid: str, *at: str) -> bool:
        """Returns whether the task exists and its state is one of `at`."""
        return pid in self.machine.tasks and self.machine.tasks[pid].at in at

    def is_stalled(self, pid: str) -> bool:
        return pid in self.machine.tasks and self.machine.tasks[pid].is_stalled

    def against_group(self, path: str) -> Iterator[tuple[bool, str]]:
        live = self.machine.live
        yield len(self.machine.parents) >= MOST_GROUPS, "TooManyGroups"
        yield path in live, "GroupExists"
        yield path != "/" and parent_of(path) not in live, "NoParent"

    def against_rmgroup(self, path: str) -> Iterator[tuple[bool, str]]:
        live, tasks = self.machine.live, self.machine.tasks.values()
        yield path not in live, "UnknownGroup"
        has_child = any(it != "/" and parent_of(it) == path for it in live)
        yield path == "/" or has_child or any(
            task.group == live.get(path) for task in tasks
        ), "GroupBusy"

    def against_prefer(self, path: str, *_: str) -> Iterator[tuple[bool, str]]:
        yield path not in self.machine.live, "UnknownGroup"

    against_mem = against_prefer

    def against_fork(self, pid: str, path: str, cpu: str) -> Iterator[tuple[bool, str]]:
        yield len(self.machine.tasks) >= MOST_TASKS, "TooManyTasks"
        yield path not in self.machine.live, "UnknownGroup"
        yield pid in self.machine.tasks, "TaskExists"
        yield not self.is_cpu(cpu), "BadCpu"

    def against_wake(self, pid: str, cpu: str) -> Iterator[tuple[bool, str]]:
        yield pid not in self.machine.tasks, "UnknownTask"
        yield not self.is_cpu(cpu), "BadCpu"
        yield self.is_at(pid, "ready", "running"), "NotBlocked"

    def against_switch(self, cpu: str, then: str, how: str) -> Iterator[tuple[bool, str]]:
        running = self.machine.running(int(cpu))
        is_there = then == "0" or then in self.machine.tasks
        yield not is_there, "UnknownTask"
        yield not self.is_cpu(cpu), "BadCpu"
        is_ready = self.is_at(then, "ready") and self.machine.tasks[then].cpu == int(cpu)
        yield then != "0" and not is_ready, "NotReady"
        yield (how == "idle") == bool(running), "WrongHow"
        yield how == "exit" and any(map(self.is_stalled, running)), "InStall"

    def against_stall(self, pid: str) -> Iterator[tuple[bool, str]]:
        yield pid not in self.machine.tasks, "UnknownTask"
        yield not self.is_at(pid, "running"), "NotRunning"
        yield self.is_stalled(pid), "InStall"

    def against_unstall(self, pid: str) -> Iterator[tuple[bool, str]]:
        yield pid not in self.machine.tasks, "UnknownTask"
        yield not self.is_at(pid, "running"), "NotRunning"
        yield not self.is_stalled(pid), "NotInStall"

    def against_migrate(self, pid: str, cpu: str) -> Iterator[tuple[bool, str]]:
        yield pid not in self.machine.tasks, "UnknownTask"
        yield not self.is_cpu(cpu), "BadCpu"
        yield not self.is_at(pid, "ready"), "NotReady"

    def against_move(self, pid: str, path: str) -> Iterator[tuple[bool, str]]:
        yield path not in self.machine.live, "UnknownGroup"
        yield pid not in self.machine.tasks, "UnknownTask"

    def against_trigger(
        self, path: str, _resource: str, _level: str, threshold: str, window: str
    ) -> Iterator[tuple[bool, str]]:
        yield self.triggers >= MOST_TRIGGERS, "TooManyTriggers"
        yield path not in self.machine.live, "UnknownGroup"
        yield not (
            500_000 <= int(window) <= 10_000_000 and 1 <= int(threshold) <= int(window)
        ), "BadWindow"

    def against_pressure(self, path: str, _switched: str) -> Iterator[tuple[bool, str]]:
        yield self.pressures >= MOST_PRESSURES, "TooManyPressures"
        yield path not in self.machine.live, "UnknownGroup"
        yield path == "/", "RootPressure"

    def against_irq(self, time_ns: int, cpu: str, length: str) -> Iterator[str]:
        """Yields the causes to reject an `irq` line. The length of interrupts is at most a second,
        and at most the time since the processor's previous `irq` line.
        """
        if not self.is_cpu(cpu):
            yield "BadCpu"
        if int(length) > min(MOST_INTERRUPTS, time_ns - self.interrupted.get(int(cpu), 0)):
            yield "IrqTooLong"


# ---------------------------------------------------------------- checking a whole trace


def lines_of(data: bytes) -> Iterator[tuple[int, bytes, Optional[str]]]:
    """Yields the number of each line (from 1), its bytes and its fault or None. A line that is too
    long or has no newline is faulty, and is the last. After the last newline, an empty line without
    a newline follows.
    """
    at, count = 0, 1
    while True:
        end = data.find(b"\n", at)
        length = (len(data) if end < 0 else end) - at
        if length > LONGEST_LINE:
            yield count, b"", "LineTooLong"
            return
        yield count, data[at : at + length], "NoEnd" if end < 0 else None
        if end < 0:
            return
        at, count = end + 1, count + 1


def refusal_of(data: bytes, most: int = MOST_MOMENT) -> Optional[Refusal]:
    """Returns the first invalid line of a trace and the cause, or None if the trace is valid.
    `most` is the largest allowed time (ns).
    """
    version, world, is_ended = 0, World(1), False
    for count, line, fault in lines_of(data):
        text = line.decode("latin-1")
        if is_ended:
            return (count, "AfterEnd") if line or fault != "NoEnd" else None
        if count == 1:
            header = None if fault else header_of(text)
            if not header:
                return count, fault if fault == "LineTooLong" else "BadHeader"
            version, world = header[0], World(header[1])
            continue
        fault = fault or fault_of_spelling(version, text)
        if not fault:
            time_ns, verb, *fields = text.split(" ")
            fault = min(world.causes(int(time_ns), verb, fields, most), key=ORDER.index,
                        default=None)
        if fault:
            return count, fault
        world.take(int(time_ns), verb, fields)
        is_ended = verb == "end"
    raise AssertionError("a text has a last line")
