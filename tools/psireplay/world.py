"""Tracks the state of a trace's tasks and groups, event by event.

This module interprets the verbs of docs/TRACES.md for all tools that need this state. The trace
must be valid, as `psi_oomd check` says. A tool overrides `leave` and `enter`, which are called
before and after each change of a task, to add up what it needs.

Two other modules interpret verbs too, both on purpose. psifold/world.py must reject events that it
can't fold. psifold/check.py checks folded traces independently, so that an error here can't hide an
error there.
"""
from __future__ import annotations

from collections.abc import Callable
from typing import Generic, TypeVar

from psireplay.groups import Group, Groups

# The states of a task: ready, running, sleeping, and waiting for IO.
READY, RUNNING, ASLEEP, IOWAIT = range(4)
# The state of a task after it left the processor, keyed by the word in the trace.
AFTER = {"preempt": READY, "sleep": ASLEEP, "iowait": IOWAIT}
NO_TASK = "0"


class Task:
    """A task: its pid in the trace, its group, the processor on which it was last ready, its
    state, and whether it is in a memory stall.
    """

    __slots__ = ("pid", "group", "cpu", "state", "is_stalled")

    def __init__(self, pid: str, group: Group, cpu: int) -> None:
        self.pid, self.group, self.cpu = pid, group, cpu
        self.state, self.is_stalled = READY, False


T = TypeVar("T", bound=Task)


class World(Groups, Generic[T]):
    """The groups and the tasks of a trace, and the running task of each processor. `create` creates
    a task from its pid, its group and its processor.
    """

    def __init__(self, create: Callable[[str, Group, int], T]) -> None:
        super().__init__()
        self.create = create
        self.tasks: dict[str, T] = {}
        self.running: dict[int, T] = {}
        self.plays |= {
            "fork": self.play_fork, "switch": self.play_switch, "wake": self.play_wake,
            "migrate": self.play_wake, "stall": self.play_stall, "unstall": self.play_unstall,
            "move": self.play_move,
        }  # fmt: skip

    def leave(self, task: T) -> None:
        """Called before the task changes or exits, while it still has its old state."""

    def enter(self, task: T) -> None:
        """Called after the task was created or changed, when it has its new state."""

    # ------------------------------------------------------------ the verbs of events

    def play_fork(self, pid: str, path: str, cpu: str) -> None:
        task = self.tasks[pid] = self.create(pid, self.live[path], int(cpu))
        task.group.tasks += 1
        self.enter(task)

    def play_switch(self, cpu: str, following: str, how: str) -> None:
        number = int(cpu)
        task = self.running.pop(number, None)
        if task:
            self.leave(task)
            if how == "exit":
                del self.tasks[task.pid]
                task.group.tasks -= 1
            else:
                task.state = AFTER[how]
                self.enter(task)
        if following != NO_TASK:
            task = self.tasks[following]
            self.leave(task)
            task.state = RUNNING
            self.running[number] = task
            self.enter(task)

    def play_wake(self, pid: str, cpu: str) -> None:
        """Makes a blocked task ready on a processor, or moves a ready task to it."""
        task = self.tasks[pid]
        self.leave(task)
        task.cpu, task.state = int(cpu), READY
        self.enter(task)

    def play_stall(self, pid: str) -> None:
        task = self.tasks[pid]
        self.leave(task)
        task.is_stalled = True
        self.enter(task)

    def play_unstall(self, pid: str) -> None:
        task = self.tasks[pid]
        self.leave(task)
        task.is_stalled = False
        self.enter(task)

    def play_move(self, pid: str, path: str) -> None:
        task = self.tasks[pid]
        self.leave(task)
        task.group.tasks -= 1
        task.group = self.live[path]
        task.group.tasks += 1
        self.enter(task)

    def play_pressure(self, path: str, word: str) -> None:
        """Turns a group's accounting on or off. This changes how the tasks of the group and of its
        descendants count.
        """
        group = self.live[path]
        if group.is_accounted == (word == "on"):
            return
        below = [task for task in self.tasks.values() if task.group.is_below(group)]
        for task in below:
            self.leave(task)
        super().play_pressure(path, word)
        for task in below:
            self.enter(task)
