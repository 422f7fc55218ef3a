"""The reference implementation of `psi_oomd whatif`: it computes the trace that remains after
kills.

It follows docs/COMMANDS.md, and applies a trace event by event to tests/shared/machine.py. The
victims are those that a replay of the trace printed.
"""
from __future__ import annotations

import re
from collections.abc import Callable, Iterator
from typing import NamedTuple

from shared.machine import Machine

MOST_ROUNDS = 64
# Verbs of the events whose first field is a task's number.
OF_A_TASK = ("wake", "stall", "unstall", "migrate", "move")


class Event(NamedTuple):
    """An event: its time (ns), its verb, and its fields."""

    moment: int
    verb: str
    fields: tuple[str, ...] = ()


class Kill(NamedTuple):
    """A kill: its time (ns) and the victim's path."""

    moment: int
    path: str


class Trace(NamedTuple):
    """A trace: its header, and its events including `end`."""

    header: str
    events: list[Event]

    def machine(self) -> Machine:
        """Returns a new Machine with the trace's processors, in the state before all events."""
        return Machine(int(self.header.partition("cpus=")[2]))

    def text(self) -> str:
        lines = (" ".join((str(time_ns), verb, *fields)) for time_ns, verb, fields in self.events)
        return "\n".join((self.header, *lines, ""))


def trace_of(text: str) -> Trace:
    """Parses the text of a valid trace."""
    header, *lines = text.splitlines()
    parts = (line.split(" ") for line in lines)
    return Trace(header,
                 [Event(int(time_ns), verb, tuple(fields)) for time_ns, verb, *fields in parts])


def kills_of(printed: str) -> list[Kill]:
    """Returns the kills in the output of a replay, in order of ticks, rulesets and actions."""
    found = re.findall(r"^kill ([0-9]+) ruleset=[0-9]+ action=[0-9]+ (\S+)$", printed, re.MULTILINE)
    return [Kill(int(time_ns), path) for time_ns, path in found]


# ---------------------------------------------------------------- removing a victim from a trace


def members(machine: Machine, path: str) -> list[str]:
    """Returns the numbers, in ascending order, of the tasks in the live group with the path `path`
    and in its descendants.
    """
    top = machine.live[path]
    return sorted((pid for pid, task in machine.tasks.items() if machine.is_under(task.group, top)),
                  key=int)


def exit_of(machine: Machine, pid: str, time_ns: int) -> list[Event]:
    """Returns the events by which a task exits at `time_ns`: it wakes if it sleeps, its
    processor switches to it if it doesn't run, its memory stall ends, and it exits. Then the
    interrupted task continues.
    """
    task = machine.tasks[pid]
    cpu, others = str(task.cpu), [other for other in machine.running(task.cpu) if other != pid]
    events = []
    if task.at in ("sleep", "iowait"):
        events.append(Event(time_ns, "wake", (pid, cpu)))
    if task.at != "running":
        events.append(Event(time_ns, "switch", (cpu, pid, "preempt" if others else "idle")))
    if task.is_stalled:
        events.append(Event(time_ns, "unstall", (pid,)))
    return [*events, Event(time_ns, "switch", (cpu, *(others or ["0"]), "exit"))]


def left_of(machine: Machine, dead: set[str], event: Event) -> list[Event]:
    """Returns the events that replace `event` if the tasks in `dead` don't exist. `machine` is the
    state before the event in the recorded trace.
    """
    if event.verb in OF_A_TASK:
        return [] if event.fields[0] in dead else [event]
    if event.verb != "switch":
        return [event]
    cpu, then, how = event.fields
    then = "0" if then in dead else then
    if any(pid not in dead for pid in machine.running(int(cpu))):
        return [event._replace(fields=(cpu, then, how))]
    return [event._replace(fields=(cpu, then, "idle"))] if then != "0" else []


def rest_of(machine: Machine, dead: set[str], events: list[Event]) -> Iterator[Event]:
    """Yields the events that remain without the tasks in `dead`. If a task of `dead` exits in the
    recorded trace, its number is removed from `dead`, since a new task may get this number.
    """
    for event in events:
        yield from left_of(machine, dead, event)
        if event.verb == "switch" and event.fields[2] == "exit":
            dead.difference_update(machine.running(int(event.fields[0])))
        machine.take(event.verb, *event.fields)


def without(trace: Trace, kill: Kill) -> Trace:
    """Returns the trace without the victim's tasks. Up to the time of the kill it is unchanged. The
    victim's tasks exit 1 ns later, and the remaining events follow without them. A kill at the
    trace's end changes nothing.
    """
    if kill.moment >= trace.events[-1].moment:
        return trace
    front = [event for event in trace.events if event.moment <= kill.moment]
    as_recorded, supposed = trace.machine(), trace.machine()
    for event in front:
        as_recorded.take(event.verb, *event.fields)
        supposed.take(event.verb, *event.fields)
    dead, exits = members(supposed, kill.path), list[Event]()
    for pid in dead:
        events = exit_of(supposed, pid, kill.moment + 1)
        for event in events:
            supposed.take(event.verb, *event.fields)
        exits += events
    return Trace(trace.header,
                 [*front, *exits, *rest_of(as_recorded, set(dead), trace.events[len(front) :])])


# ---------------------------------------------------------------- applying all kills


class Round(NamedTuple):
    """A trace after some kills, the output of its replay, and the next kill to apply (None if no
    kill remains).
    """

    trace: Trace
    printed: str
    kill: Kill | None


def rounds(trace: Trace, replay: Callable[[str], str]) -> Iterator[Round]:
    """Yields the traces up to the final one, whose output `whatif` prints. After N kills, the kill
    with index N in the output is applied next. At most 64 kills are applied.
    """
    for number in range(MOST_ROUNDS + 1):
        printed = replay(trace.text())
        kills = kills_of(printed)
        if number == MOST_ROUNDS or number >= len(kills):
            yield Round(trace, printed, None)
            return
        yield Round(trace, printed, kills[number])
        trace = without(trace, kills[number])
