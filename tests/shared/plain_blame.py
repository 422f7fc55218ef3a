"""Computes who ran while a group waited, and which groups stalled at the same time. This is the
reference implementation for tools/blame, without optimizations.

It follows docs/TRACES.md: after each event it examines all tasks of tests/shared/machine.py, on
each processor, for each group.
"""
from __future__ import annotations

import collections
from typing import NamedTuple, Optional

from shared.machine import Machine

WAITS_FOR_IO, IN_A_STALL, WAITS = 0, 2, 4
# Times (ns) by two groups: the waiting group, and the group that ran or was in the same state.
# Groups are numbered in order of creation. None means that no task ran.
Pairs = collections.Counter[tuple[int, Optional[int]]]


class Plain(NamedTuple):
    """The sums of time (ns) for an interval. `ran` has the time for which tasks of a group or below
    it ran. `times` is by group, processor and state. `while_ran` has the time for which a
    group waited while another ran. `beside` has, by state, the time for which the first group was
    in it, summed over the processors, while the second was in it on any processor. `while_victim`
    is the time for which a group waited while the victim ran, and `less` the time by which the
    group would have waited less without the victim.
    """

    ran: collections.Counter[int]
    times: collections.Counter[tuple[int, int, int]]
    while_ran: Pairs
    beside: dict[int, Pairs]
    less: collections.Counter[int]
    while_victim: collections.Counter[int]


def runner_of(machine: Machine, cpu: int) -> Optional[int]:
    """Returns the group of the task that runs on the processor."""
    running = machine.running(cpu)
    return machine.tasks[running[0]].group if running else None


def would_wait(machine: Machine, cpu: int, victims: set[int]) -> bool:
    """Returns whether a task would still wait on the processor if the tasks of the groups `victims`
    didn't exist. A task of these groups runs there now. Without it, a ready task would run in its
    place, and a second ready task would wait.
    """
    ready = [
        task
        for task in machine.tasks.values()
        if task.cpu == cpu and task.at == "ready" and task.group not in victims
    ]
    return len(ready) > 1


def add_stretch(plain: Plain, machine: Machine, victims: set[int], length: int) -> None:
    """Adds `length` ns to each sum for which the machine's present state counts."""
    groups, cpus = range(len(machine.parents)), range(machine.cpus)
    holds = {(group, cpu): machine.holds(cpu, group) for group in groups for cpu in cpus}
    for cpu in cpus:
        runner = runner_of(machine, cpu)
        for group in groups:
            plain.ran[group] += length * (runner is not None and machine.is_under(runner, group))
            for state in (WAITS_FOR_IO, IN_A_STALL, WAITS):
                plain.times[group, cpu, state] += length * holds[group, cpu][state]
            if not holds[group, cpu][WAITS]:
                continue
            plain.while_ran[group, runner] += length
            if runner in victims:
                plain.while_victim[group] += length
                plain.less[group] += length * (not would_wait(machine, cpu, victims))
    for state, pairs in plain.beside.items():
        for group in groups:
            many = sum(holds[group, cpu][state] for cpu in cpus)
            for other in groups:
                pairs[group, other] += length * many * any(holds[other, cpu][state] for cpu in cpus)


def walk(trace: str, start: int, to: int, victim: str) -> Plain:
    """Returns the sums for the interval from `start` to `to` (ns). The victim consists of all
    groups that ever have the path `victim`, and of their descendants.
    """
    header, *lines = trace.splitlines()
    machine = Machine(int(header.partition("cpus=")[2]))
    plain = Plain(
        collections.Counter(), collections.Counter(), Pairs(),
        {WAITS_FOR_IO: Pairs(), IN_A_STALL: Pairs()},
        collections.Counter(), collections.Counter(),
    )  # fmt: skip
    victims = {0} if victim == "/" else set[int]()
    last = 0
    for line in lines:
        time_ns, verb, *fields = line.split(" ")
        length = min(int(time_ns), to) - max(last, start)
        if length > 0:
            add_stretch(plain, machine, victims, length)
        last = int(time_ns)
        machine.take(verb, *fields)
        if verb == "group":
            group = machine.live[fields[0]]
            if fields[0] == victim or machine.parents[group] in victims:
                victims.add(group)
    return plain
