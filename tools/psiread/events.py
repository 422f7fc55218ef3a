"""Defines the events of a recording. A recording as ring-buffer pages and a recording as ftrace
text give the same events.

`time_ns` is the time (ns of the recording's clock). `processor` is the processor on which the event
was written, and `current` the task that ran there (0: the idle task). A task is a thread,
identified by its number in the initial PID namespace. The names of the kernel's events are those of
`include/trace/events/{sched,task,cgroup,oom}.h`.
"""
from __future__ import annotations

from typing import NamedTuple, Union


class Switch(NamedTuple):
    """`sched_switch`: `previous` leaves the processor and `next` gets it. `state` is the letter
    of the kernel's print format for `previous` (`R`: the task remains ready).
    """

    time_ns: int
    processor: int
    current: int
    previous: int
    state: str
    next: int


class Wakeup(NamedTuple):
    """`sched_wakeup`: the task is ready on the processor `target`."""

    time_ns: int
    processor: int
    current: int
    task: int
    target: int


class FirstWakeup(NamedTuple):
    """`sched_wakeup_new`: a new task is ready for the first time. `current` is its parent."""

    time_ns: int
    processor: int
    current: int
    task: int
    target: int


class Migration(NamedTuple):
    """`sched_migrate_task`: a task moves from the processor `origin` to `target`. The task is
    ready, or is about to be woken.
    """

    time_ns: int
    processor: int
    current: int
    task: int
    origin: int
    target: int


class NewTask(NamedTuple):
    """`task_newtask`: a task was created. `current` is its parent, and `flags` are the flags of
    clone(2).
    """

    time_ns: int
    processor: int
    current: int
    task: int
    flags: int


class Exec(NamedTuple):
    """`sched_process_exec`: a process executed a new program. If `old` differs from `task`, the
    thread `old` has taken over the number of its process's first thread.
    """

    time_ns: int
    processor: int
    current: int
    task: int
    old: int


class WaitEnds(NamedTuple):
    """`sched_stat_iowait`: a sleep of `task` that was a wait for IO ends now. This event precedes
    the wakeup.
    """

    time_ns: int
    processor: int
    current: int
    task: int


class SwitchProbe(NamedTuple):
    """A probe on `psi_task_switch`. It precedes the `sched_switch` of the same processor. `task`
    leaves the processor, and `waits` is 1 if psi counts it as waiting for IO, and 0 if not.
    """

    time_ns: int
    processor: int
    current: int
    task: int
    waits: int


class ShowProbe(NamedTuple):
    """A probe on `psi_show`: `current` reads a pressure file, which makes the kernel sample the
    group. `resource` is the kernel's number of the resource: 0 for IO, 1 for memory, 2 for CPU.
    `group` is the address of the group's `struct psi_group`.
    """

    time_ns: int
    processor: int
    current: int
    group: int
    resource: int


class AverageProbe(NamedTuple):
    """A probe on `psi_avgs_work`: the kernel's periodic work samples a group. `work` is the address
    of the work item, which is part of the group's `struct psi_group`.
    """

    time_ns: int
    processor: int
    current: int
    work: int


class ReadyProbe(NamedTuple):
    """A probe on `psi_task_change`: psi counts the task as ready. At a wakeup this event precedes
    the event of the wakeup.
    """

    time_ns: int
    processor: int
    current: int
    task: int


class StallBegins(NamedTuple):
    """A probe on `psi_memstall_enter`: `current` enters a memory stall, possibly a nested one."""

    time_ns: int
    processor: int
    current: int


class StallEnds(NamedTuple):
    """A probe on `psi_memstall_leave`. `flags` is 0 if `current` is in no other memory stall."""

    time_ns: int
    processor: int
    current: int
    flags: int


class Attach(NamedTuple):
    """`cgroup_attach_task`: a task moves to another group. If a process moves with all its threads,
    `task` is its first thread. `hierarchy` is 0 for the hierarchy of cgroup 2, and another number
    for a hierarchy of cgroup 1.
    """

    time_ns: int
    processor: int
    current: int
    hierarchy: int
    path: bytes
    task: int


class AttachProbe(NamedTuple):
    """A probe on the kernel's function `cgroup_attach_task`. `current` calls it right before the
    event of the same name. `whole` is 1 if the whole process moves, and 0 if a write to
    `cgroup.threads` moves only this task.
    """

    time_ns: int
    processor: int
    current: int
    task: int
    whole: int


class GroupMade(NamedTuple):
    """`cgroup_mkdir`: a group was created."""

    time_ns: int
    processor: int
    current: int
    hierarchy: int
    path: bytes


class GroupRemoved(NamedTuple):
    """`cgroup_rmdir`: a group was removed."""

    time_ns: int
    processor: int
    current: int
    hierarchy: int
    path: bytes


class Victim(NamedTuple):
    """`mark_victim`: the kernel's OOM killer chose the task."""

    time_ns: int
    processor: int
    current: int
    task: int


class Interrupts(NamedTuple):
    """A probe on `psi_account_irqtime`: interrupts took `delta` ns. A trace of version 1 can't
    contain this event.
    """

    time_ns: int
    processor: int
    current: int
    delta: int


class Marker(NamedTuple):
    """A marker: a text that was written to `trace_marker`."""

    time_ns: int
    processor: int
    current: int
    text: bytes


class Named(NamedTuple):
    """The name of a task, if it differs from the name in earlier events of the processor. It
    precedes the switch or the `sched_process_exec` that contains the name.
    """

    time_ns: int
    processor: int
    current: int
    task: int
    name: bytes


Event = Union[
    Switch, Wakeup, FirstWakeup, Migration, NewTask, Exec, WaitEnds, SwitchProbe, StallBegins,
    StallEnds, Attach, AttachProbe,
    GroupMade, GroupRemoved, Victim, Interrupts, ShowProbe, AverageProbe, ReadyProbe, Marker,
    Named,
]  # fmt: skip

# The name of each kind of event in counts and messages. It is the name of the kernel's event, or of
# the probed function.
NAMES: dict[type, str] = {
    Switch: "sched_switch", Wakeup: "sched_wakeup", FirstWakeup: "sched_wakeup_new",
    Migration: "sched_migrate_task",
    NewTask: "task_newtask", Exec: "sched_process_exec", WaitEnds: "sched_stat_iowait",
    SwitchProbe: "psi_task_switch",
    StallBegins: "psi_memstall_enter", StallEnds: "psi_memstall_leave",
    Attach: "cgroup_attach_task",
    AttachProbe: "cgroup_attach_task (probe)", GroupMade: "cgroup_mkdir",
    GroupRemoved: "cgroup_rmdir", Victim: "mark_victim",
    Interrupts: "psi_account_irqtime", ShowProbe: "psi_show", AverageProbe: "psi_avgs_work",
    ReadyProbe: "psi_task_change",
    Marker: "trace_marker",
}  # fmt: skip

# Flags of clone(2). CLONE_THREAD: the new task is a thread of its parent's process.
# CLONE_INTO_CGROUP: the caller chose the group of the new task.
CLONE_THREAD = 0x10000
CLONE_INTO_CGROUP = 0x2_0000_0000

# The state letters of a task that exits: dead and zombie.
EXITED = ("X", "Z")
# The end (ns) of a gap that extends to the end of the recording.
NEVER = 2**64


class Gap(NamedTuple):
    """A time span from `start` to `end` (ns) in which a processor lost events. `lost` is their
    number, 0 if unknown. If `start` is 0, the gap begins with the recording. If `end` is NEVER, it
    ends with the recording.
    """

    processor: int
    start: int
    end: int
    lost: int
