"""The reference implementation of `import`: it computes the expected result for an ftrace text
according to docs/IMPORT.md.

The only state is a table of the tasks in the trace so far. tests/imports and
tests/release/import_lines compare this result with the program's. Times are in ns.
"""
from __future__ import annotations

import re
from dataclasses import dataclass
from typing import NamedTuple

LONGEST = 512
MOST_LINES = 16_000_000
MOST_EVENTS = 3_999_999
MOST_TASKS = 65_536
LATEST = 2 * 10**15

MARK = re.compile(rb": (?:sched_switch|sched_wakeup|sched_wakeup_new|sched_migrate_task): ")
TIME = re.compile(rb"([0-9]{1,10})\.([0-9]{1,9})")
BRACKET = re.compile(rb"\[([0-9]+)\]")
DIGITS = re.compile(rb"[0-9]{1,10}")
HOW = {b"R": "preempt", b"D": "iowait", b"X": "exit", b"Z": "exit"}


class Bad(Exception):
    """Raised for a line that `import` must reject. The argument is the cause."""


class Switch(NamedTuple):
    """The event of a processor `cpu` that switched from task `previous` to task `next`. Task 0 is
    the idle task. `how` is the trace's word for the state in which the previous task left.
    """

    cpu: int
    previous: int
    next: int
    how: str


class Wakeup(NamedTuple):
    """The event of a task `pid` that was woken on the processor `cpu`."""

    pid: int
    cpu: int


class Migration(NamedTuple):
    """The event of a task `pid` that moved to the processor `cpu`."""

    pid: int
    cpu: int


Seen = Switch | Wakeup | Migration


@dataclass
class Task:
    """A task that hasn't exited: its state (`asleep`, `ready` or `running`) and its processor."""

    mode: str
    cpu: int


class Result(NamedTuple):
    """The expected result of a run: its status, its output and its message."""

    status: int
    output: bytes
    note: str


# ---------------------------------------------------------------- parsing a line


def after_last(key: bytes, part: bytes) -> bytes:
    """Returns the part after the last occurrence of the key. Raises Bad if the key doesn't occur.
    """
    before, found, after = part.rpartition(key)
    if not found:
        raise Bad("BadLine")
    return after


def number(key: bytes, part: bytes) -> int:
    """Returns the number between the last occurrence of the key and the next space or the end."""
    digits = after_last(key, part).partition(b" ")[0]
    if not DIGITS.fullmatch(digits) or int(digits) >= 2**32:
        raise Bad("BadLine")
    return int(digits)


def head_of(head: bytes) -> tuple[int, int]:
    """Parses the head of a line. Returns the time (ns) and the processor, which is the last number
    in brackets.
    """
    time = TIME.fullmatch(after_last(b" ", head))
    processors = BRACKET.findall(head)
    if not time or not processors or len(processors[-1]) > 3:
        raise Bad("BadLine")
    return int(time[1]) * 10**9 + int(time[2].ljust(9, b"0")), int(processors[-1])


def switch_of(cpu: int, tail: bytes) -> Switch:
    """Parses the part of a switch line after the event's name. The last `==>` divides it into the
    previous and the next task.
    """
    previous, arrow, right = tail.rpartition(b" ==> ")
    if not arrow:
        raise Bad("BadLine")
    state = after_last(b" prev_state=", previous)
    if not state:
        raise Bad("BadLine")
    return Switch(cpu, number(b" prev_pid=", previous), number(b" next_pid=", right),
                  HOW.get(state[:1], "sleep"))


def task_and_cpu(tail: bytes, key: bytes) -> tuple[int, int]:
    """Parses the part of a wakeup or migration line after the event's name. Returns the task, which
    mustn't be 0, and the processor, which follows the key.
    """
    pid = number(b" pid=", tail)
    if pid == 0:
        raise Bad("BadLine")
    return pid, number(key, tail)


def read_line(line: bytes) -> tuple[int, Seen] | None:
    """Returns the time (ns) and the event of a line, or None for a comment line (#) or a line
    without an event.
    """
    mark = None if line.startswith(b"#") else MARK.search(line)
    if mark is None:
        return None
    head, tail = line[: mark.start()], line[mark.end() :]
    time, cpu = head_of(head)
    if b"switch" in mark[0]:
        return time, switch_of(cpu, tail)
    if b"wakeup" in mark[0]:
        return time, Wakeup(*task_and_cpu(tail, b" target_cpu="))
    return time, Migration(*task_and_cpu(tail, b" dest_cpu="))


# ---------------------------------------------------------------- building the trace


class Importer:
    """Builds the trace line by line."""

    def __init__(self, cpus: int) -> None:
        self.cpus = cpus
        self.first: int | None = None
        self.moment = 0
        self.tasks: dict[int, Task] = {}
        self.runs: dict[int, int] = {}
        self.lines: list[bytes] = []

    def acts_of(self, seen: Seen) -> list[str]:
        """Returns the trace events (verb and fields) that an event of the ftrace text causes."""
        if isinstance(seen, Switch):
            return [] if seen.next and self.runs.get(
                seen.cpu
            ) == seen.next else self.arrival(seen) + self.turn(seen)
        task = self.tasks.get(seen.pid)
        if isinstance(seen, Migration):
            return [
                f"migrate {seen.pid} {seen.cpu}"
            ] if task and task.mode == "ready" and task.cpu != seen.cpu else []
        if task is None:
            return [f"fork {seen.pid} / {seen.cpu}"]
        return [f"wake {seen.pid} {seen.cpu}"] if task.mode == "asleep" else []

    def arrival(self, seen: Switch) -> list[str]:
        """Returns the trace events that make the next task ready on its processor."""
        pid, cpu = seen.next, seen.cpu
        task = self.tasks.get(pid)
        if not pid:
            return []
        if task is None:
            return [f"fork {pid} / {cpu}"]
        if task.mode == "asleep":
            return [f"wake {pid} {cpu}"]
        if task.mode == "running":
            return [f"switch {task.cpu} 0 preempt", f"migrate {pid} {cpu}"]
        return [f"migrate {pid} {cpu}"] if task.cpu != cpu else []

    def turn(self, seen: Switch) -> list[str]:
        """Returns the trace events that make the next task run."""
        runner = self.runs.get(seen.cpu)
        if runner is None:
            return [f"switch {seen.cpu} {seen.next} idle"] if seen.next else []
        return [
            f"switch {seen.cpu} {seen.next} {seen.how if runner == seen.previous else 'preempt'}"
        ]

    def play(self, act: str) -> None:
        """Applies a trace event to the table of tasks."""
        verb, *fields = act.split()
        if verb == "switch":
            cpu, pid, how = int(fields[0]), int(fields[1]), fields[2]
            runner = self.runs.pop(cpu, None)
            if runner is not None and how == "exit":
                del self.tasks[runner]
            elif runner is not None:
                self.tasks[runner].mode = "ready" if how == "preempt" else "asleep"
            if pid:
                self.runs[cpu] = pid
                self.tasks[pid].mode = "running"
        else:
            self.tasks[int(fields[0])] = Task("ready", int(fields[-1]))

    def take(self, time: int, seen: Seen) -> None:
        """Appends the trace events of a line to the trace. `time` is the line's time (ns). Raises
        Bad with the first cause if the line must be rejected.
        """
        self.first = time if self.first is None else self.first
        time_ns = max(self.moment, time - self.first)
        acts = self.acts_of(seen)
        if seen.cpu >= self.cpus:
            raise Bad("BadCpu")
        if time_ns > LATEST:
            raise Bad("TooLate")
        if any(act.startswith("fork") for act in acts) and len(self.tasks) >= MOST_TASKS:
            raise Bad("TooManyTasks")
        if len(self.lines) + len(acts) > MOST_EVENTS:
            raise Bad("TooManyEvents")
        self.moment = time_ns
        for act in acts:
            self.play(act)
            self.lines.append(f"{time_ns} {act}\n".encode())


def imported(text: bytes, cpus: int) -> Result:
    """Returns the expected result of `import - --cpus N` for this text."""
    importer = Importer(cpus)
    lines = text.split(b"\n")
    for place, line in enumerate(lines, 1):
        is_rest = place == len(lines)
        if is_rest and not line:
            break
        try:
            if place > MOST_LINES:
                raise Bad("TooManyLines")
            if len(line) > LONGEST:
                raise Bad("LineTooLong")
            if is_rest:
                raise Bad("Cut")
            if found := read_line(line):
                importer.take(*found)
        except Bad as cause:
            return Result(8, b"", f"import line {place}: {cause}\n")
    end = f"{importer.moment} end\n".encode()
    return Result(0, b"".join([f"psitrace 1 cpus={cpus}\n".encode(), *importer.lines, end]), "")
