#!/usr/bin/env python3
"""Prints a valid random trace.

usage: make_trace.py EVENTS TASKS [CPUS [GROUPS [DEPTH [SEED]]]]     (1, 0, 1 and 1 if left out)

EVENTS is the number of lines after the header, including the `end` line. The trace creates GROUPS
groups, in chains of DEPTH groups below the root, and TASKS tasks in the deepest groups of the
chains, or in the root if GROUPS is 0. The other lines are random: a task runs, waits for IO, sleeps
or wakes, enters or leaves a memory stall, migrates, or moves to another group, or a group's memory
is sampled. Lines are up to 2 us apart, as on a busy machine.
"""
from __future__ import annotations

import random
import sys
from collections.abc import Iterator


def group_paths(groups: int, depth: int) -> tuple[list[str], list[str]]:
    """Returns the paths of all groups, parents before children, and the path of the deepest group
    of each chain.
    """
    paths: list[str] = []
    lowest: list[str] = []
    while len(paths) < groups:
        path = f"/g{len(lowest)}"
        for level in range(min(depth, groups - len(paths))):
            path = path if level == 0 else path + "/s"
            paths.append(path)
        lowest.append(path)
    return paths, lowest or ["/"]


class Machine:
    """The state of the processors and tasks after the lines generated so far. Most methods make a
    random change and return its trace line without the time.
    """

    def __init__(self, draw: random.Random, cpus: int, tasks: int, homes: list[str]) -> None:
        self.draw = draw
        self.cpus = cpus
        self.homes = homes
        self.ready: list[list[int]] = [[] for _ in range(cpus)]
        self.running: list[int | None] = [None] * cpus
        self.asleep: list[int] = []
        self.cpu_of = [0] * (tasks + 1)
        self.stalled = [False] * (tasks + 1)

    def fork(self, pid: int) -> str:
        cpu = (pid - 1) % self.cpus
        self.cpu_of[pid] = cpu
        self.ready[cpu].append(pid)
        return f"fork {pid} {self.homes[(pid - 1) % len(self.homes)]} {cpu}"

    def take(self, pids: list[int]) -> int:
        """Removes a random pid from the list, and returns it."""
        place = self.draw.randrange(len(pids))
        pids[place], pids[-1] = pids[-1], pids[place]
        return pids.pop()

    def wake(self) -> str:
        pid = self.take(self.asleep)
        if self.draw.randrange(4) == 0:
            self.cpu_of[pid] = self.draw.randrange(self.cpus)
        self.ready[self.cpu_of[pid]].append(pid)
        return f"wake {pid} {self.cpu_of[pid]}"

    def migrate(self, cpu: int) -> str:
        pid = self.take(self.ready[cpu])
        self.cpu_of[pid] = self.draw.randrange(self.cpus)
        self.ready[self.cpu_of[pid]].append(pid)
        return f"migrate {pid} {self.cpu_of[pid]}"

    def stall(self, pid: int) -> str:
        self.stalled[pid] = not self.stalled[pid]
        return f"stall {pid}" if self.stalled[pid] else f"unstall {pid}"

    def switch(self, cpu: int) -> str:
        running, ready = self.running[cpu], self.ready[cpu]
        how = "idle" if running is None else self.draw.choice(
            ["preempt", "sleep", "iowait", "iowait"]
        )
        following = self.take(ready) if ready and (
            running is None or self.draw.randrange(4)
        ) else None
        if running is not None:
            (ready if how == "preempt" else self.asleep).append(running)
        self.running[cpu] = following
        return f"switch {cpu} {following or 0} {how}"

    def rare(self, cpu: int, tasks: int) -> str | None:
        """Returns a random line of a rare kind, without its time: a memory stall begins or ends, a
        task migrates or moves, or memory is sampled. Returns None if the kind isn't possible now.
        """
        kind = self.draw.randrange(8)
        running = self.running[cpu]
        if kind < 4 and running is not None:
            return self.stall(running)
        if kind < 6 and self.cpus > 1 and self.ready[cpu]:
            return self.migrate(cpu)
        if kind == 6 and self.homes != ["/"]:
            return f"move {self.draw.randrange(tasks) + 1} {self.draw.choice(self.homes)}"
        if kind == 7:
            return (
                f"mem {self.draw.choice(self.homes)} {self.draw.randrange(1 << 30)} 0 "
                f"{self.draw.randrange(1 << 20)}"
            )
        return None

    def line(self, tasks: int) -> str:
        """Returns a random line about a random processor, without its time."""
        cpu = self.draw.randrange(self.cpus)
        line = self.rare(cpu, tasks) if self.draw.randrange(8) == 0 else None
        if line is not None:
            return line
        sleeps = self.asleep and (not self.ready[cpu] or self.draw.randrange(2))
        return self.wake() if sleeps else self.switch(cpu)


def lines(events: int, tasks: int, cpus: int, groups: int, depth: int, seed: int) -> Iterator[str]:
    """Yields the lines of a trace, without their newlines."""
    draw = random.Random(seed)
    paths, homes = group_paths(groups, depth)
    machine = Machine(draw, cpus, tasks, homes)
    yield f"psitrace 1 cpus={cpus}"
    for path in paths:
        yield f"0 group {path}"
    for pid in range(1, tasks + 1):
        yield f"0 {machine.fork(pid)}"
    at = 0
    for _ in range(events - tasks - len(paths) - 1):
        at += draw.randrange(2000)
        yield f"{at} {machine.line(tasks)}"
    yield f"{at} end"


def main() -> None:
    numbers = [int(word) for word in sys.argv[1:]]
    numbers += [1, 0, 1, 1][len(numbers) - 2 :]
    out = []
    for line in lines(*numbers):
        out.append(line)
        if len(out) == 65536:
            sys.stdout.write("\n".join(out) + "\n")
            out.clear()
    sys.stdout.write("\n".join(out) + "\n")


if __name__ == "__main__":
    main()
