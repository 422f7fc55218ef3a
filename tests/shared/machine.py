"""Computes the tasks, groups and states after each event of a trace. The states are derived from
the tasks by the rules of docs/PRESSURE.md.
"""
from __future__ import annotations

import collections
import dataclasses


@dataclasses.dataclass
class Task:
    """A task: its group, its processor, and its state `at`, which is "ready", "running", "sleep" or
    "iowait".
    """

    group: int
    cpu: int
    at: str = "ready"
    is_stalled: bool = False


class Machine:
    """The state of the machine after some events of a valid trace. Groups are numbered in the order
    of their creation. Group 0 is the root.

    `off` has the groups whose pressure accounting is off. `interrupts` has the time (ns) of
    interrupts by processor and group. It counts interrupts while a task of the group ran on the
    processor and the group's accounting was on.
    """

    def __init__(self, cpus: int) -> None:
        self.cpus = cpus
        self.parents: list[int | None] = [None]
        self.live = {"/": 0}
        self.tasks: dict[str, Task] = {}
        self.off: set[int] = set()
        self.interrupts = collections.Counter[tuple[int, int]]()

    def is_under(self, group: int | None, top: int) -> bool:
        """Returns whether `group` is `top` or below it."""
        while group is not None and group != top:
            group = self.parents[group]
        return group == top

    def running(self, cpu: int) -> list[str]:
        """Returns a list with the number of the task that runs on the processor, or an empty list
        if it is idle.
        """
        return [pid for pid, task in self.tasks.items() if task.cpu == cpu and task.at == "running"]

    def holds(self, cpu: int, group: int) -> list[bool]:
        """Returns for each of the seven states whether it holds for the group on the processor. If
        the group's pressure accounting is off, no state holds.
        """
        if group in self.off:
            return [False] * 7
        tasks = [
            task
            for task in self.tasks.values()
            if task.cpu == cpu and self.is_under(task.group, group)
        ]
        waits = any(task.at == "iowait" for task in tasks)
        stalled = any(task.is_stalled for task in tasks)
        ready = [task for task in tasks if task.at == "ready"]
        running = [task for task in tasks if task.at == "running"]
        active = ready + running
        is_memory_full = all(task.is_stalled for task in active) or any(
            task.is_stalled for task in running
        )
        return [
            waits,
            waits and not active,
            stalled,
            stalled and is_memory_full,
            bool(ready),
            bool(ready) and not running,
            waits or stalled or bool(active),
        ]

    def take(self, verb: str, *fields: str) -> set[int]:
        """Applies an event. Returns the processors for which the event counts as a change."""
        changed: set[int] = getattr(self, f"take_{verb}")(*fields)
        return changed

    def take_group(self, path: str) -> set[int]:
        self.parents.append(self.live[parent_of(path)])
        self.live[path] = len(self.parents) - 1
        return set()

    def take_rmgroup(self, path: str) -> set[int]:
        del self.live[path]
        return set()

    def take_fork(self, pid: str, path: str, cpu: str) -> set[int]:
        self.tasks[pid] = Task(self.live[path], int(cpu))
        return {int(cpu)}

    def take_switch(self, cpu: str, next_pid: str, how: str) -> set[int]:
        for pid in self.running(int(cpu)):
            self.tasks[pid].at = "ready" if how == "preempt" else how
            if how == "exit":
                del self.tasks[pid]
        if next_pid != "0":
            self.tasks[next_pid].at = "running"
        return {int(cpu)}

    def take_wake(self, pid: str, cpu: str) -> set[int]:
        task = self.tasks[pid]
        changed = {task.cpu, int(cpu)}
        task.cpu, task.at = int(cpu), "ready"
        return changed

    take_migrate = take_wake

    def take_stall(self, pid: str) -> set[int]:
        self.tasks[pid].is_stalled = True
        return {self.tasks[pid].cpu}

    def take_unstall(self, pid: str) -> set[int]:
        self.tasks[pid].is_stalled = False
        return {self.tasks[pid].cpu}

    def take_move(self, pid: str, path: str) -> set[int]:
        self.tasks[pid].group = self.live[path]
        return {self.tasks[pid].cpu}

    def take_irq(self, cpu: str, length: str) -> set[int]:
        """Adds `length` ns of interrupts to the running task's group and to its ancestors, except
        those whose accounting is off. The event counts as a change of the processor even if nothing
        runs.
        """
        for pid in self.running(int(cpu)):
            group: int | None = self.tasks[pid].group
            while group is not None:
                if group not in self.off:
                    self.interrupts[int(cpu), group] += int(length)
                group = self.parents[group]
        return {int(cpu)}

    def take_pressure(self, path: str, switched: str) -> set[int]:
        """Switches the pressure accounting of a group on or off. This counts as a change of every
        processor.
        """
        (self.off.discard if switched == "on" else self.off.add)(self.live[path])
        return set(range(self.cpus))

    def take_other(self, *_: str) -> set[int]:
        """Ignores an event that changes no processor."""
        return set()

    take_prefer = take_mem = take_host = take_trigger = take_end = take_other


def parent_of(path: str) -> str:
    """Returns the path of the parent group."""
    return path.rpartition("/")[0] or "/"
