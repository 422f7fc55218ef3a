"""Replays the events of a trace, and adds up how long groups ran, waited and stalled."""
from __future__ import annotations

from typing import Optional

from psireplay.groups import Group
from psireplay.world import IOWAIT, READY, RUNNING, World

from .memory import Samples
from .overlap import Overlap
from .processor import Processor, Task, WatchedProcessor
from .runners import Runners
from .sums import Stretches


class Named:
    """Selects the groups that arguments name, by path or as PATH#N. `numbers` contains the numbers
    of the groups that matched so far. If `with_below`, descendants of these groups match too.
    """

    def __init__(self, words: list[str], with_below: bool) -> None:
        self.words, self.with_below = set(words), with_below
        self.numbers: set[int] = set()

    def takes(self, group: Group) -> bool:
        """Returns whether the arguments name a new group, and stores the group's number if so."""
        is_named = group.path in self.words or f"{group.path}#{group.life}" in self.words
        is_below = (
            self.with_below and group.parent is not None and group.parent.number in self.numbers
        )
        if is_named or is_below:
            self.numbers.add(group.number)
        return is_named or is_below


class Walk(World[Task]):
    """Replays a trace, and adds up the times of its groups in `stretches`, for three time spans.
    `asked` selects the requested groups, and `victims` the victim.
    """

    def __init__(
        self, cpus: int, stretches: Stretches, asked: Named, victims: Named, runners: Runners
    ) -> None:
        super().__init__(self.new_task)
        self.plays["end"] = self.play_end
        self.stretches, self.asked, self.victims, self.runners = stretches, asked, victims, runners
        self.io, self.memory, self.growth = Overlap(), Overlap(), Samples()
        overlaps = (self.io, self.memory) if asked.words else (None, None)
        self.processors = [self.processor(number, *overlaps) for number in range(cpus)]
        self.next_cut = stretches.next_cut()
        self.made(self.all[0])

    def processor(self, number: int, io: Optional[Overlap], memory: Optional[Overlap]) -> Processor:
        """Returns a processor in its initial state."""
        if self.victims.words:
            return WatchedProcessor(number, io, memory, self.victims.numbers)
        return Processor(number, io, memory)

    def new_task(self, pid: str, group: Group, cpu: int) -> Task:
        """Creates a task for a `fork` line."""
        life = self.runners.life(pid, self.now)
        return Task(pid, group, cpu, life, self.runners.number(group, life))

    def made(self, group: Group) -> None:
        """Records whether a new group is requested, and whether it belongs to the victim."""
        self.victims.takes(group)
        if self.asked.takes(group):
            self.io.ask(group.number)
            self.memory.ask(group.number)

    # ------------------------------------------------------------ time spans

    def pass_to(self, time_ns: int) -> None:
        """Ends each time span whose end is before `time_ns`."""
        while time_ns > self.next_cut:
            self.cut(int(self.next_cut))

    def cut(self, now: int) -> None:
        """Ends the current time span at `now` (ns). Events at `now` belong to this time span."""
        ended = self.stretches.end(self.processors, now)
        ended.io_beside, ended.memory_beside = self.io.taken(now), self.memory.taken(now)
        ended.growth = self.growth.taken()
        self.next_cut = self.stretches.next_cut()

    def play_end(self) -> None:
        """Ends the remaining time spans at the end of the trace."""
        for cut in self.stretches.cuts:
            self.cut(cut)
        self.cut(self.now)

    def entries(self) -> int:
        """Returns the number of entries in the rows of all processors."""
        return sum(len(row) for processor in self.processors for row in processor.rows.values())

    def fold(self) -> None:
        """Adds the rows of all processors to the sums and clears the rows, so that they stay small.
        """
        self.stretches.fold(self.processors, max(it.last for it in self.processors))

    # ------------------------------------------------------------ changes of tasks

    def leave(self, task: Task) -> None:
        """Removes a task from its processor before its state, group or processor changes."""
        processor, now, state = self.processors[task.cpu], self.now, task.state
        if now != processor.last:
            processor.pass_time(now)
        if state == READY:
            processor.remove(task)
        elif state == RUNNING:
            processor.run(None)
        elif state == IOWAIT:
            processor.io.leave(task.group.counted, now)
        if task.is_stalled:
            processor.memory.leave(task.group.counted, now)

    def enter(self, task: Task) -> None:
        """Adds a task to its processor after its state, group or processor changed."""
        processor, now, state = self.processors[task.cpu], self.now, task.state
        if now != processor.last:
            processor.pass_time(now)
        if state == READY:
            processor.add(task)
        elif state == RUNNING:
            processor.run(task)
        elif state == IOWAIT:
            processor.io.enter(task.group.counted, now)
        if task.is_stalled:
            processor.memory.enter(task.group.counted, now)

    def play_move(self, pid: str, path: str) -> None:
        task = self.tasks[pid]
        task.runner = self.runners.number(self.live[path], task.life)
        super().play_move(pid, path)

    def play_mem(self, path: str, memory: str, swap: str, scanned: str) -> None:
        super().play_mem(path, memory, swap, scanned)
        self.growth.take(self.live[path].number, int(memory), int(scanned))
