"""Numbers the runners of a trace. A runner is a group, or a process within its group if the trace's
companion file names the tasks.
"""
from __future__ import annotations

from typing import NamedTuple, Optional

from psinames.lives import Life
from psinames.tasks import Tasks
from psireplay.groups import Group


class Runner(NamedTuple):
    """A runner: a group, and a process or thread in the group. `life` is None if tasks have no
    names.
    """

    group: Group
    life: Optional[Life]


class Runners:
    """All runners so far. A runner's number is its index in `all`."""

    def __init__(self, tasks: Tasks) -> None:
        self.tasks = tasks
        self.all: list[Runner] = []
        self.numbers: dict[Runner, int] = {}

    def life(self, pid: str, now: int) -> Optional[Life]:
        """Returns the process or thread to which the time of a new task is attributed. The task is
        created at `now` (ns). Returns None if the process is unknown.
        """
        return self.tasks.runner(int(pid), now)

    def number(self, group: Group, life: Optional[Life]) -> int:
        """Returns the number of a runner. A runner without a number gets the next one."""
        runner = Runner(group, life)
        if runner not in self.numbers:
            self.numbers[runner] = len(self.all)
            self.all.append(runner)
        return self.numbers[runner]
