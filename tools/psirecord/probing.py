"""Selects the events and probes from which a trace is made, with alternatives for those that aren't
available.

A task waits for IO if it sleeps while its bit `in_iowait` is set. Tasks also sleep in state D
without that bit. On a journaling file system these are a third to a half of all sleeps in state D.
Three sources show the waits for IO. The best is a probe on `psi_task_switch` that reads the bit.
The second is the event `sched_stat_iowait`, which requires the sysctl kernel.sched_schedstats. The
last is state D.
"""
from __future__ import annotations

import enum
import os
from collections.abc import Callable
from dataclasses import dataclass, field

from psirec.layout import SET_READY, Key, Probe

from .kernel_types import KernelTypes
from .machine import SCHEDULER_STATISTICS, Machine, read_file, write_file
from .undoing import Undoing

# For each event, what a recording lacks without it. Without the events NEEDED, recording is
# impossible.
NEEDED = ("sched/sched_switch", "sched/sched_wakeup")
EVENTS = {
    "sched/sched_switch": "nothing can be said",
    "sched/sched_wakeup": "nothing can be said",
    "sched/sched_wakeup_new": "new tasks seem to be born when they first run",
    "sched/sched_migrate_task": (
        "a wait for IO that ends by a migration seems to last until the wakeup"
    ),
    "sched/sched_process_exec": "a thread that calls exec seems to be ready for ever",
    "task/task_newtask": "new tasks are taken to be in the root group",
    "cgroup/cgroup_attach_task": "moves of tasks between groups aren't seen",
    "cgroup/cgroup_mkdir": "new groups are seen by their first task only",
    "cgroup/cgroup_rmdir": "groups that were removed seem to stay",
    "oom/mark_victim": "the kernel's own kills aren't seen",
}
STATISTICS_EVENT = "sched/sched_stat_iowait"
NO_STALLS = "memory stalls aren't recorded, so memory pressure will be 0"
NO_WAKEUPS = (
    "no probe of wakeups: when psi counts them isn't recorded, only when their events are written"
)
# For each probe, what a recording lacks without it.
PROBES: dict[str, str] = {
    Probe.STALL_BEGINS: NO_STALLS,
    Probe.STALL_ENDS: NO_STALLS,
    Probe.INTERRUPT: "times of interrupts aren't recorded",
    Probe.ATTACH: "whether threads were moved alone is guessed",
    Probe.SHOW: "when the kernel samples isn't recorded, and tools/compare fits it",
    Probe.AVERAGE: "when the kernel samples isn't recorded, and tools/compare fits it",
    Probe.READY: NO_WAKEUPS,
}
BY_PROBE, BY_STATISTICS, BY_STATE = "the kernel's own flag", "sched_stat_iowait", "state D"
STATE_ALONE = (
    "waits for IO are told by state D alone: up to 3.5 times too many on journaling file systems"
)


def without(event: str) -> str:
    """Returns what a recording lacks without `event`, which may also be the event of a probe."""
    probe = PROBES.get(event.rpartition("/")[2], "nothing is known of what it tells")
    return EVENTS.get(event, probe)


# A function that writes a key and its value to `meta`.
Say = Callable[[str, str], None]
# A function that prints a line for the operator.
Tell = Callable[[str], None]


@dataclass
class Sources:
    """What a recording traces: the events as SYSTEM/EVENT, the filters of some events, and how
    waits for IO are detected.
    """

    events: list[str] = field(default_factory=list)
    filters: dict[str, str] = field(default_factory=dict)
    waits: str = BY_STATE


@dataclass(frozen=True)
class Plan:
    """A probe to add: the name of its event, the probed kernel function, the values to fetch, and
    the filter of its events.
    """

    name: str
    function: str
    fetched: str = ""
    wanted: str = ""

    def definition(self, group: str) -> str:
        """Returns the probe's definition for the file `kprobe_events`, in the probe group `group`.
        """
        return f"p:{group}/{self.name} {self.function} {self.fetched}".rstrip()


def stall_plans() -> list[Plan]:
    """Returns the probes on the functions with which a task enters and leaves a memory stall. Both
    functions run in the task itself. FLAGS is 0 if the task leaves the outermost of nested stalls.
    """
    return [
        Plan(Probe.STALL_BEGINS, "psi_memstall_enter"),
        Plan(Probe.STALL_ENDS, "psi_memstall_leave", f"{Probe.FLAGS}=+0($arg1):u64"),
    ]


def switch_plan(types: KernelTypes) -> Plan | None:
    """Returns the probe on psi_task_switch(prev, next, sleep), which runs right before the event of
    the context switch. Without the probe's filter, a third of all recorded events would come from
    this probe. Returns None if the kernel's types lack one of the two members of `task_struct`.
    """
    places = types.members("task_struct", ("pid", "in_iowait"))
    if not places:
        return None
    fetched = (
        f"{Probe.PID}={places['pid'].fetch(1, 's32')} "
        f"{Probe.IO}={places['in_iowait'].fetch(1, 'u32')}"
    )
    return Plan(Probe.SWITCH, "psi_task_switch", fetched, f"{Probe.IO} == 1")


def interrupt_plan(machine: Machine, types: KernelTypes) -> Plan | None:
    """Returns the probe on psi_account_irqtime(task, delta). Returns None if the kernel doesn't
    account the time of interrupts, or if the function has other parameters. Since Linux 6.10 none
    of its parameters is the time.
    """
    pressure = read_file(f"{machine.proc}/pressure/irq")
    if not pressure or types.parameters("psi_account_irqtime") != 2:
        return None
    return Plan(Probe.INTERRUPT, "psi_account_irqtime", f"{Probe.DELTA}=$arg2:u32")


def attach_plan(types: KernelTypes) -> Plan | None:
    """Returns the probe on cgroup_attach_task(group, task, whole), or None if it isn't available.
    The kernel's own event doesn't show whether a task moves alone or with its whole process.
    """
    places = types.members("task_struct", ("pid",))
    if not places or types.parameters("cgroup_attach_task") != 3:
        return None
    fetched = f"{Probe.PID}={places['pid'].fetch(2, 's32')} {Probe.ALL}=$arg3:u8"
    return Plan(Probe.ATTACH, "cgroup_attach_task", fetched)


def sample_plans(types: KernelTypes) -> list[Plan]:
    """Returns the probes on psi_show(file, group, resource) and psi_avgs_work(work), in which the
    kernel samples a group's stall times. They cause a few events per second. The list is empty
    unless both functions are available, since one function alone shows only some of the sampling
    times.
    """
    if types.parameters("psi_show") != 3 or types.parameters("psi_avgs_work") != 1:
        return []
    shows = f"{Probe.GROUP}=$arg2:x64 {Probe.RES}=$arg3:u32"
    return [
        Plan(Probe.SHOW, "psi_show", shows),
        Plan(Probe.AVERAGE, "psi_avgs_work", f"{Probe.WORK}=$arg1:x64"),
    ]


def ready_plan(types: KernelTypes) -> Plan | None:
    """Returns the probe on psi_task_change(task, clear, set), or None if it isn't available. It
    causes an event for each wakeup, and for each task that moves to another processor or group.
    """
    places = types.members("task_struct", ("pid",))
    if not places or types.parameters("psi_task_change") != 3:
        return None
    fetched = f"{Probe.PID}={places['pid'].fetch(1, 's32')} {Probe.SET}=$arg3:u32"
    return Plan(Probe.READY, "psi_task_change", fetched, f"{Probe.SET} & {SET_READY}")


def add_probes(
    machine: Machine, group: str, undoing: Undoing, say: Say, has_wakeups: bool
) -> Sources:
    """Adds the available probes, and returns the events to record. The probe of wakeups is added
    only if `has_wakeups`. Reports each probe that isn't available, and why.
    """
    types = KernelTypes(read_file(machine.types))
    switch, attach, samples = switch_plan(types), attach_plan(types), sample_plans(types)
    if not switch:
        say(Key.NO_PROBE,
            f"psi_task_switch: {machine.types} has no task_struct with pid and in_iowait")
    if not attach:
        say(Key.NO_PROBE,
            f"cgroup_attach_task: {machine.types} has no such function of three parameters, or "
            "no pid of tasks")
    if not samples:
        say(Key.NO_PROBE,
            f"psi_show, psi_avgs_work: {machine.types} has not both, or with other parameters")
    ready = ready_plan(types) if has_wakeups else None
    if has_wakeups and not ready:
        say(Key.NO_PROBE,
            f"psi_task_change: {machine.types} has no such function of three parameters, or no "
            "pid of tasks")
    sources, single = Sources(), (switch, interrupt_plan(machine, types), attach, ready)
    for plan in [*stall_plans(), *(it for it in single if it), *samples]:
        definition, name = plan.definition(group), f"{group}/{plan.name}"
        try:
            undoing.note(f"the probe {name}", probe_remover(machine, name))
            machine.add_probe(definition)
        except OSError as error:
            undoing.steps.pop()
            say(Key.NO_PROBE, f"{definition}: {error.strerror}")
            continue
        sources.events.append(name)
        if plan.wanted:
            sources.filters[name] = plan.wanted
        if plan.name == Probe.SWITCH:
            sources.waits = BY_PROBE
    return sources


def probe_remover(machine: Machine, name: str) -> Callable[[], None]:
    """Returns a function that removes the probe `name`, as an undo step."""
    return lambda: machine.remove_probe(name)


class Statistics(enum.Enum):
    """The state of the kernel's scheduler statistics, which the event `sched_stat_iowait` requires.
    ABSENT means that the kernel has no such sysctl.
    """

    ON = "on"
    OFF = "off"
    ABSENT = "absent"


def statistics_of(machine: Machine) -> Statistics:
    """Returns the state of the scheduler statistics, as the sysctl kernel.sched_schedstats shows
    it.
    """
    if not os.path.exists(f"{machine.proc}/{SCHEDULER_STATISTICS}"):
        return Statistics.ABSENT
    is_on = read_file(f"{machine.proc}/{SCHEDULER_STATISTICS}").strip() == b"1"
    return Statistics.ON if is_on else Statistics.OFF


def switch_statistics_on(machine: Machine, undoing: Undoing) -> None:
    """Switches the scheduler statistics on, and registers the undo step. Raises OSError if that
    isn't permitted.
    """
    path = f"{machine.proc}/{SCHEDULER_STATISTICS}"
    undoing.note("the sysctl kernel.sched_schedstats, which was 0", lambda: write_file(path, "0"))
    try:
        write_file(path, "1")
    except OSError:
        undoing.steps.pop()
        raise
