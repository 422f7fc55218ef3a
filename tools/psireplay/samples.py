"""Reads the memory samples of certain groups from a trace."""
from __future__ import annotations

import contextlib
from typing import NamedTuple, Optional

from psicli.fault import Fault

from .groups import Group, Groups
from .program import CheckedTrace
from .trace import event_in


class Sample(NamedTuple):
    """A `mem` line of a group: its time (ns), and the memory and swap in use (bytes)."""

    time_ns: int
    memory: int
    swap: int


class Life:
    """The samples of a group from its creation to its removal. `end` is the time of the removal
    (ns), or None if the group was never removed.
    """

    def __init__(self) -> None:
        self.samples: list[Sample] = []
        self.end: Optional[int] = None


class Samples(Groups):
    """The memory samples of certain groups. `lives` has a path's groups in order of time, since a
    group can be removed and created again.
    """

    def __init__(self, name: str, groups: list[str], end: int) -> None:
        """Reads a trace. Raises a Fault if its end isn't `end` (ns)."""
        super().__init__()
        self.lives: dict[str, list[Life]] = {path: [Life()] for path in groups}
        trace = CheckedTrace(name)
        for line in trace.lines():
            # A malformed line is ignored here. The program rejects the line, which raises a Fault
            # at the end of the trace.
            with contextlib.suppress(LookupError, TypeError, ValueError):
                self.take(*event_in(line.decode("latin-1")))
        if trace.end != end:
            raise Fault(
                f"{name} ends at {trace.end} ns, and the replay at {end} ns: give the trace of this"
                " replay"
            )

    def play_mem(self, path: str, memory: str, swap: str, scanned: str) -> None:
        super().play_mem(path, memory, swap, scanned)
        if path in self.lives:
            self.lives[path][-1].samples.append(Sample(self.now, int(memory), int(swap)))

    def removed(self, group: Group) -> None:
        if group.path in self.lives:
            self.lives[group.path][-1].end = self.now
            self.lives[group.path].append(Life())
