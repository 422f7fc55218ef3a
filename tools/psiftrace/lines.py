"""Parses single lines of ftrace text. The accepted formats are those of `trace` and `trace_pipe`,
of `trace-cmd report` with and without -N, and of `perf script`.

The name of a task may contain any bytes, so a field is found by the text around a name. A name
can't imitate further fields, since it has at most 15 bytes (`TASK_COMM_LEN` of Linux, without its
terminating zero).
"""
from __future__ import annotations

import re
from collections.abc import Callable
from typing import NamedTuple

from psiread.events import (
    Attach, AttachProbe, Event, Exec, FirstWakeup, GroupMade, GroupRemoved, Marker, Migration,
    NewTask, StallBegins, StallEnds,
    Switch, SwitchProbe, Victim, WaitEnds, Wakeup,
)  # fmt: skip

TIME = rb"(\d{1,10})\.(\d{1,9}):"
FTRACE = (
    rb"-(\d{1,10}) +(?:\([ \d-]+\) +)?\[(\d{1,5})\](?: +[A-Za-z0-9.*#]{4,6})? +"
    + TIME
    + rb" +([A-Za-z0-9_]+):(?: +(.*))?$"
)
PERF = rb" +(?:\d+ +)?[a-z0-9_]+:([A-Za-z0-9_]+):(?: +(.*))?$"
HEADS = (
    # The kernel pads the task's name to 16 columns, so the dash after the name has a fixed
    # position.
    re.compile(rb".{16}" + FTRACE, re.DOTALL),
    re.compile(rb" *\S.*?" + FTRACE, re.DOTALL),
    re.compile(rb" *\S.*? +(?:\d+/)?(\d{1,10}) +\[(\d{1,5})\] +" + TIME + PERF, re.DOTALL),
)


class Line(NamedTuple):
    """The parts of an event's line. `time_ns` is in ns. `current` is the task in which the event
    was written, `kind` the name of the event, and `fields` the text of its fields. `is_perf` says
    whether perf wrote the line.
    """

    time_ns: int
    processor: int
    current: int
    kind: str
    fields: bytes
    is_perf: bool


def head_of(line: bytes) -> Line | None:
    """Splits the line of an event into its parts. Returns None if the line has no event."""
    for head in HEADS:
        found = head.match(line)
        if found:
            current, processor, whole, part, kind, fields = found.groups()
            time_ns = int(whole) * 10**9 + int(part.ljust(9, b"0"))
            return Line(
                time_ns,
                int(processor),
                int(current),
                kind.decode(),
                fields or b"",
                head is HEADS[-1],
            )
    return None


# ---------------------------------------------------------------- the fields of events


class Form(NamedTuple):
    """A syntax for the fields of an event, and the function that creates the event from the fields.
    """

    pattern: re.Pattern[bytes]
    make: Callable[[Line, tuple[bytes, ...]], Event]


def form(pattern: bytes, make: Callable[[Line, tuple[bytes, ...]], Event]) -> Form:
    """Returns a form whose pattern must match the whole text of the fields. A dot in the pattern
    also matches a newline, since names of tasks may contain newlines.
    """
    return Form(re.compile(pattern, re.DOTALL), make)


def numbers(kind: type) -> Callable[[Line, tuple[bytes, ...]], Event]:
    """Returns a function that creates an event of the class `kind` from decimal fields."""

    def make(line: Line, fields: tuple[bytes, ...]) -> Event:
        event: Event = kind(line.time_ns, line.processor, line.current, *map(int, fields))
        return event

    return make


def switch(line: Line, fields: tuple[bytes, ...]) -> Event:
    """Creates a switch. If the state has several letters, only the first counts: `R+` becomes `R`.
    """
    previous, state, following = fields
    return Switch(
        line.time_ns,
        line.processor,
        line.current,
        int(previous),
        state[:1].decode("latin-1"),
        int(following),
    )


def new_task(line: Line, fields: tuple[bytes, ...]) -> Event:
    """Creates the event of a new task. The flags are hexadecimal."""
    return NewTask(line.time_ns, line.processor, line.current, int(fields[0]), int(fields[1], 16))


def attach(line: Line, fields: tuple[bytes, ...]) -> Event:
    """Creates the event of a task that moves to another group."""
    return Attach(
        line.time_ns, line.processor, line.current, int(fields[0]), fields[1], int(fields[2])
    )


def group(
    kind: Callable[[int, int, int, int, bytes], Event]
) -> Callable[[Line, tuple[bytes, ...]], Event]:
    """Returns a function that creates the event of a new or of a removed group. `kind` is the
    event's class.
    """
    return lambda line, fields: kind(
        line.time_ns, line.processor, line.current, int(fields[0]), fields[1]
    )


def stall_ends(line: Line, fields: tuple[bytes, ...]) -> Event:
    """Creates the event for the end of a memory stall. The flags are hexadecimal."""
    return StallEnds(line.time_ns, line.processor, line.current, int(fields[0], 16))


def marker(line: Line, fields: tuple[bytes, ...]) -> Event:
    """Creates a marker: a text that was written to `trace_marker`."""
    return Marker(line.time_ns, line.processor, line.current, fields[0])


# The forms of fields, keyed by the kind of event. The form of the kernel's own print format comes
# first, followed by the forms of trace-cmd's plugins.
PRIORITY = rb"(?: prio=-?\d+)?"
PLAIN = rb"\[-?\d+\]"
LEAVES = rb"prev_comm=.* prev_pid=(\d{1,10})(?: prev_prio=-?\d+)? prev_state=(\S+)"
COMES = rb"next_comm=.* next_pid=(\d{1,10})(?: next_prio=-?\d+)?"
FORMS: dict[str, tuple[Form, ...]] = {
    "sched_switch": (
        form(LEAVES + b" ==> " + COMES, switch),
        form(rb".*:(\d{1,10}) " + PLAIN + rb" (\S+) ==> .*:(\d{1,10}) " + PLAIN, switch),
    ),
    "sched_wakeup": (
        form(rb"comm=.* pid=(\d{1,10})" + PRIORITY + rb"(?: success=\d+)? target_cpu=(\d{1,10})",
        numbers(Wakeup)),
        form(rb".*:(\d{1,10}) " + PLAIN + rb"(?: success=\d+)? CPU:(\d{1,10})", numbers(Wakeup)),
    ),
    "sched_wakeup_new": (
        form(rb"comm=.* pid=(\d{1,10})" + PRIORITY + rb"(?: success=\d+)? target_cpu=(\d{1,10})",
        numbers(FirstWakeup)),
        form(rb".*:(\d{1,10}) " + PLAIN + rb"(?: success=\d+)? CPU:(\d{1,10})",
        numbers(FirstWakeup)),
    ),
    "sched_migrate_task": (form(rb"comm=.* pid=(\d{1,10})" + PRIORITY + rb" orig_cpu=(\d{1,10}) "
                                                                        rb"dest_cpu=(\d{1,10})",
                                                                        numbers(Migration)),),
    "sched_process_exec": (form(rb"filename=.* pid=(\d{1,10}) old_pid=(\d{1,10})", numbers(Exec)),),
    "sched_stat_iowait": (form(rb"comm=.* pid=(\d{1,10}) delay=\d+ \[ns\]", numbers(WaitEnds)),),
    "task_newtask": (form(rb"pid=(\d{1,10}) comm=.* clone_flags=([0-9a-f]+) "
                          rb"oom_score_adj=-?\d+", new_task),),
    "cgroup_attach_task": (form(rb"dst_root=(\d{1,10}) dst_id=\d+ dst_level=\d+ dst_path=(.*) "
                                rb"pid=(\d{1,10}) comm=.*", attach),),
    "cgroup_mkdir": (form(rb"root=(\d{1,10}) id=\d+ level=\d+ path=(.*)", group(GroupMade)),),
    "cgroup_rmdir": (form(rb"root=(\d{1,10}) id=\d+ level=\d+ path=(.*)", group(GroupRemoved)),),
    "mark_victim": (form(rb"pid=(\d{1,10})(?: .*)?", numbers(Victim)),),
    "tracing_mark_write": (form(rb"(.*)", marker),),
    "print": (form(rb"tracing_mark_write: (.*)", marker),),
}  # fmt: skip

# The forms of probe lines. A probe can have any name, but its fields begin with the name of the
# probed function.
PROBES = {
    b"(psi_memstall_enter": form(rb"\(\S+\)", numbers(StallBegins)),
    b"(psi_memstall_leave": form(rb"\(\S+\)(?: .*)? flags=0x([0-9a-f]+)(?: .*)?", stall_ends),
    b"(psi_task_switch": form(
        rb"\(\S+\) pid=(\d{1,10}) io=(\d{1,10})(?: .*)?", numbers(SwitchProbe)
    ),
    b"(cgroup_attach_task": form(
        rb"\(\S+\) pid=(\d{1,10}) all=(\d{1,10})(?: .*)?", numbers(AttachProbe)
    ),
}


def forms_of(line: Line) -> tuple[Form, ...]:
    """Returns the forms that this line's fields may have. Returns an empty tuple if the event isn't
    needed.
    """
    forms = FORMS.get(line.kind, ())
    if not forms and line.fields.startswith((b"(psi_", b"(cgroup_")):
        forms = tuple(
            it for start, it in PROBES.items() if re.match(re.escape(start) + rb"[+)]", line.fields)
        )
    return forms


def event_of(line: Line, forms: tuple[Form, ...]) -> Event | None:
    """Returns the event of a line. Returns None if its fields match none of the forms."""
    for one in forms:
        found = one.pattern.fullmatch(line.fields)
        if found:
            return one.make(line, found.groups())
    return None
