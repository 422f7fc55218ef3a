"""Measures, for one processor, how long each group waited while each runner ran. A runner is a
group, or a process within its group. Also measures how long groups waited for IO or were in a
memory stall.
"""
from __future__ import annotations

import collections
from collections.abc import Iterable
from typing import Optional

from psinames.lives import Life
from psireplay import world
from psireplay.groups import Group

from .overlap import Overlap

# The runner's number while no task runs.
NOBODY = -1
# The key in a row for the run time (ns) of the row's runner.
LENGTH = -1
# An offset that is added to a runner's number. It marks times in which, without the victim, no task
# would have waited.
ALONE = 1 << 40
Row = collections.defaultdict[int, int]


class Task(world.Task):
    """A task with its runner. `life` is the process or thread to which the task's time is
    attributed, or None if it is unknown. `runner` is the number of the runner that consists of the
    task's group and `life`.
    """

    __slots__ = ("life", "runner")

    def __init__(
        self, pid: str, group: Group, cpu: int, life: Optional[Life], runner: int
    ) -> None:
        super().__init__(pid, group, cpu)
        self.life, self.runner = life, runner


class GroupTimes:
    """Measures how long (ns) each group had a task in a certain state on a processor: waiting for
    IO, or in a memory stall. `overlap` is notified when a group enters or leaves the state.
    """

    __slots__ = ("counts", "since", "sums", "overlap")

    def __init__(self, overlap: Optional[Overlap]) -> None:
        self.counts: dict[int, int] = {}
        self.since: dict[int, int] = {}
        self.sums = Row(int)
        self.overlap = overlap

    def enter(self, chain: Iterable[int], now: int) -> None:
        """Counts a task that enters the state. `chain` contains the task's group and all ancestors.
        """
        counts = self.counts
        for group in chain:
            if group in counts:
                counts[group] += 1
            else:
                counts[group] = 1
                self.since[group] = now
                if self.overlap:
                    self.overlap.begin(group, now)

    def leave(self, chain: Iterable[int], now: int) -> None:
        """Counts a task that leaves the state. `chain` contains the task's group and all ancestors.
        """
        counts = self.counts
        for group in chain:
            if counts[group] > 1:
                counts[group] -= 1
            else:
                del counts[group]
                self.sums[group] += now - self.since.pop(group)
                if self.overlap:
                    self.overlap.end(group, now)

    def taken(self, now: int) -> Row:
        """Returns the times (ns) of all groups up to `now` (ns), and resets them to 0."""
        sums = self.sums
        for group, since in self.since.items():
            sums[group] += now - since
            self.since[group] = now
        self.sums = Row(int)
        return sums


class Rows(dict[int, Row]):
    """Rows, keyed by the number of a runner. A row has, for each group's number, how long (ns) the
    group waited while the runner ran. The row's entry LENGTH is the time (ns) for which the runner
    ran.
    """

    def __missing__(self, runner: int) -> Row:
        row = self[runner] = Row(int)
        return row


class Processor:
    """The state of a processor between two events: the running task, and the number of ready tasks
    of each group. Groups without ready tasks are absent. `rows` contains the times up to the last
    event.
    """

    __slots__ = ("number", "task", "ready", "rows", "row", "last", "io", "memory")

    def __init__(self, number: int, io: Optional[Overlap], memory: Optional[Overlap]) -> None:
        self.number = number
        self.task: Optional[Task] = None
        self.ready: dict[int, int] = {}
        self.rows = Rows()
        self.row = self.rows[NOBODY]
        self.last = 0
        self.io, self.memory = GroupTimes(io), GroupTimes(memory)

    def pass_time(self, now: int) -> None:
        """Adds the time up to `now` (ns) to the current row. Must be called before the state
        changes.
        """
        length = now - self.last
        if length:
            self.last = now
            row = self.row
            row[LENGTH] += length
            for group in self.ready:
                row[group] += length

    def add(self, task: Task) -> None:
        """Counts a task that becomes ready on this processor."""
        ready = self.ready
        for group in task.group.counted:
            ready[group] = ready.get(group, 0) + 1

    def remove(self, task: Task) -> None:
        """Stops counting a task that was ready on this processor."""
        ready = self.ready
        for group in task.group.counted:
            if ready[group] > 1:
                ready[group] -= 1
            else:
                del ready[group]

    def run(self, task: Optional[Task]) -> None:
        """Sets the running task, or None if no task runs."""
        self.task = task
        self.row = self.rows[task.runner if task else NOBODY]

    def taken(self, now: int) -> Rows:
        """Returns the rows up to `now` (ns), and starts new rows."""
        self.pass_time(now)
        rows, self.rows = self.rows, Rows()
        self.run(self.task)
        return rows


class WatchedProcessor(Processor):
    """A processor that also measures how much shorter waits would have been without a victim.
    `others` is the number of ready tasks that don't belong to the victim. While the victim runs and
    `others` is at most 1, no task would wait if the victim didn't run.
    """

    __slots__ = ("victims", "others")

    def __init__(
        self, number: int, io: Optional[Overlap], memory: Optional[Overlap], victims: set[int]
    ) -> None:
        self.victims, self.others = victims, 0
        super().__init__(number, io, memory)

    def add(self, task: Task) -> None:
        super().add(task)
        if task.group.number not in self.victims:
            self.others += 1
            self.run(self.task)

    def remove(self, task: Task) -> None:
        super().remove(task)
        if task.group.number not in self.victims:
            self.others -= 1
            self.run(self.task)

    def run(self, task: Optional[Task]) -> None:
        self.task = task
        runner = task.runner if task else NOBODY
        is_alone = task is not None and task.group.number in self.victims and self.others <= 1
        self.row = self.rows[runner + ALONE if is_alone else runner]
