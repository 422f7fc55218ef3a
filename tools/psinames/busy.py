"""Finds the processes that ran most in each group, in consecutive windows of time. The companion
file stores them for folded traces, which don't name the recorded tasks, and for tools that don't
read the whole trace.
"""
from __future__ import annotations

from collections.abc import Iterator
from typing import NamedTuple, Optional

from .lives import Life

# The number of processes that are stored for each group and window.
MOST_PROCESSES = 3


class Process(NamedTuple):
    """A process in a window of time: its pid, its name, and the run time (ns) of its threads."""

    number: int
    name: str
    ran: int


class Busy(NamedTuple):
    """A group in a window of time: the window's number from 0, the group's path, the run time (ns)
    of its own tasks, and the processes that ran longest.
    """

    window: int
    path: str
    ran: int
    processes: tuple[Process, ...]


class Runner(NamedTuple):
    """A running task: its group's path, its lifetime, and the time (ns) up to which its run time
    has been added up already.
    """

    path: str
    life: Life
    since: int


class Clocks:
    """Adds up the run times of processes in windows of `length` ns. `done` contains the groups of
    all windows that have ended.
    """

    def __init__(self, length: int) -> None:
        self.length, self.number, self.end = length, 0, length
        self.runners: dict[int, Runner] = {}
        self.ran: dict[tuple[str, Life], int] = {}
        self.done: list[Busy] = []

    def run(self, processor: int, path: str, life: Optional[Life], now: int) -> None:
        """Records that `life` runs on `processor` at and after `now` (ns). If `life` is None, the
        processor is idle.
        """
        while now >= self.end:
            self.close()
        before = self.runners.get(processor)
        if before and now > before.since:
            key = before.path, before.life.leader
            self.ran[key] = self.ran.get(key, 0) + now - before.since
        if life:
            self.runners[processor] = Runner(path, life, now)
        elif before:
            del self.runners[processor]

    def close(self) -> None:
        """Ends the current window, and starts the next one."""
        for processor, (path, life, since) in self.runners.items():
            key = path, life.leader
            self.ran[key] = self.ran.get(key, 0) + self.end - since
            self.runners[processor] = Runner(path, life, self.end)
        self.done += busiest(self.number, self.ran)
        self.ran = {}
        self.number += 1
        self.end += self.length

    def finish(self, now: int) -> list[Busy]:
        """Ends the last window at `now` (ns), and returns the groups of all windows."""
        while now >= self.end:
            self.close()
        self.end = now
        self.close()
        return self.done


def busiest(window: int, ran: dict[tuple[str, Life], int]) -> Iterator[Busy]:
    """Yields each group of a window, with the processes that ran longest."""
    groups: dict[str, list[Process]] = {}
    for (path, leader), time in ran.items():
        if time:
            groups.setdefault(path, []).append(Process(leader.process, leader.name, time))
    for path, processes in sorted(groups.items()):
        processes.sort(key=lambda it: (-it.ran, it.number))
        yield Busy(window, path, sum(it.ran for it in processes), tuple(processes[:MOST_PROCESSES]))
