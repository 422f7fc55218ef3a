"""The lifetimes of a trace's tasks, and the names that they had."""
from __future__ import annotations

from typing import Optional


class Life:
    """The lifetime of a task, from its `fork` line to its exit (`first` and `last`, ns since the
    trace's start): its label in the trace, its tid, its pid, and its names. Each name has the time
    (ns) from which it applies. `leader` is the first thread of the process, and the leader's name
    is also the name of the process. If it isn't known, `leader` is the task itself.
    """

    __slots__ = ("label", "first", "last", "task", "process", "leader", "names")

    def __init__(
        self, label: int, first: int, task: int, process: int, leader: Optional[Life] = None
    ) -> None:
        self.label, self.first, self.task, self.process = label, first, task, process
        self.last: Optional[int] = None
        self.leader = leader or self
        self.names: tuple[tuple[int, str], ...] = ()

    @property
    def name(self) -> str:
        """Returns the task's last name, escaped. The text is empty if no name is known."""
        return self.names[-1][1] if self.names else ""

    def rename(self, now: int, name: str) -> None:
        """Records that the task has this name at and after `now` (ns). The first known name applies
        from the task's start.
        """
        if not self.names:
            self.names = ((self.first, name),)
        elif self.name != name:
            self.names = (*self.names, (now, name))

    def name_at(self, now: int) -> str:
        """Returns the task's name at `now` (ns). Before its first name, returns the first name."""
        found = self.names[0][1] if self.names else ""
        for since, name in self.names:
            if since > now:
                break
            found = name
        return found

    def renumber(self, number: int) -> None:
        """Records that the task's tid became `number`. A thread that calls exec gets the tid of its
        process's first thread.
        """
        self.task = number
        if number == self.process:
            self.leader = self
