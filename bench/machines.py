#!/usr/bin/env python3
"""Simulates a machine whose services compute, wait for IO and thrash in episodes, and prints the
trace of its scheduler events.

usage: bench/machines.py SEED SECONDS [--processors N] [--slices N] [--services N] [--busy N]
    > TRACE

Each processor has a run queue, and a time slice is 10 ms. A task that wakes chooses the shorter
queue of two random processors. Each second the memory, the swap and the scanned pages of all groups
are sampled.
"""
from __future__ import annotations

import argparse
import heapq
import random
import sys
from collections import deque
from collections.abc import Iterator

SECOND = 10**9
MS = 10**6
SLICE = 10 * MS
GB = 2**30
HOST, SWAP = 16 * GB, 4 * GB


class Service:
    """A group without children. It has a memory size and a swap size (bytes), a number of scanned
    pages, and load episodes: each has a start and an end (ns), a kind and an intensity.
    """

    def __init__(self, path: str, rng: random.Random, seconds: int, is_busy: bool) -> None:
        self.path, self.rng, self.is_busy = path, rng, is_busy
        self.memory, self.swap, self.scans = rng.randrange(GB // 16, 2 * GB), 0, 0
        self.episodes: list[tuple[int, int, str, float]] = []
        at = rng.randrange(5, 60)
        while at < seconds and is_busy:
            length = rng.randrange(3, 80)
            kind = rng.choice(("io", "thrash", "thrash", "cpu"))
            self.episodes.append(
                (at * SECOND, (at + length) * SECOND, kind, 1 - rng.random() ** 2 / 2)
            )
            at += length + rng.randrange(5, 90)

    def episode(self, time: int) -> tuple[str, float]:
        """Returns the kind of the load at `time` (ns), and its intensity from 0 to 1."""
        return next(
            ((kind, force) for begin, end, kind, force in self.episodes if begin <= time < end),
            ("calm", 0.1),
        )

    def sample(self, time: int) -> None:
        """Advances the memory (bytes), the swap (bytes) and the number of scanned pages by one
        second, according to the load at `time` (ns).
        """
        kind, force = self.episode(time)
        if kind == "thrash":
            self.memory = min(6 * GB, int(self.memory * (1 + 0.04 * force)))
            self.swap = min(GB, self.swap + int(20e6 * force))
            self.scans += int(5000 * force)
        else:
            self.memory = max(GB // 16, int(self.memory * self.rng.uniform(0.97, 1.03)))
            self.swap = int(self.swap * 0.98)


class Task:
    """A task. It runs for `burst` ns and then sleeps for `sleep` ns. `leaves` says why it stops
    running: it sleeps, waits for IO ("iowait") or stalls for memory ("thrash").
    """

    def __init__(self, number: int, service: Service) -> None:
        self.number, self.service = number, service
        self.cpu, self.burst, self.leaves, self.sleep = 0, 0, "sleep", 0
        self.is_stalled = self.ends_stall = False

    def plan(self, time: int) -> None:
        """Chooses the task's next burst and sleep according to its service's load at `time` (ns).
        """
        rng = self.service.rng
        kind, force = self.service.episode(time)
        self.ends_stall, self.leaves = self.is_stalled, "sleep"
        if kind == "thrash" and rng.random() < force:
            self.burst, self.leaves, self.sleep = (
                rng.randrange(1, 5) * MS, "thrash", rng.randrange(20, 400) * MS,
            )
        elif kind == "io" and rng.random() < force:
            self.burst, self.leaves, self.sleep = (
                rng.randrange(1, 4) * MS, "iowait", rng.randrange(10, 250) * MS,
            )
        elif kind == "cpu" and rng.random() < force:
            self.burst, self.sleep = rng.randrange(50, 400) * MS, rng.randrange(1, 50) * MS
        else:
            self.burst, self.sleep = rng.randrange(1, 10) * MS, rng.randrange(20, 2000) * MS


class Machine:
    """The simulated machine. Its methods yield the lines of the trace."""

    def __init__(
        self, seed: int, seconds: int, processors: int, paths: list[str], busy: int
    ) -> None:
        self.rng, self.end, self.processors = random.Random(seed), seconds * SECOND, processors
        leaves = [it for it in paths if not any(other.startswith(it + "/") for other in paths)]
        chosen = set(self.rng.sample(leaves, min(busy, len(leaves))))
        self.paths = paths
        self.services = [
            Service(it, random.Random(f"{seed} {it}"), seconds, it in chosen) for it in leaves
        ]
        self.queues: list[deque[Task]] = [deque() for _ in range(processors)]
        self.runs: list[Task | None] = [None] * processors
        self.slices = [0] * processors
        self.events: list[tuple[int, int, str, int | Task]] = []
        self.count = 0

    def push(self, time: int, kind: str, what: int | Task) -> None:
        self.count += 1
        heapq.heappush(self.events, (time, self.count, kind, what))

    def lines(self) -> Iterator[str]:
        """Yields the whole trace."""
        yield f"psitrace 1 cpus={self.processors}"
        yield from (f"0 group {it}" for it in self.paths)
        number = 1
        for service in self.services:
            for _ in range(service.rng.randrange(2, 5) if service.is_busy else 1):
                task = Task(number, service)
                number += 1
                task.cpu = self.rng.randrange(self.processors)
                yield f"0 fork {task.number} {service.path} {task.cpu}"
                task.plan(0)
                yield from self.ready(0, task)
        self.push(0, "sample", 0)
        while self.events and self.events[0][0] <= self.end:
            time, _, kind, what = heapq.heappop(self.events)
            yield from self.happen(time, kind, what)
        yield f"{self.end} end"

    def happen(self, time: int, kind: str, what: int | Task) -> Iterator[str]:
        """Executes a scheduled event at `time` (ns): a task wakes, memory is sampled, or a time
        slice ends. Yields the trace lines.
        """
        if isinstance(what, Task):
            first, second = self.rng.randrange(self.processors), self.rng.randrange(self.processors)
            what.cpu = min(first, second,
                           key=lambda it: len(self.queues[it]) + (self.runs[it] is not None))
            yield f"{time} wake {what.number} {what.cpu}"
            what.plan(time)
            yield from self.ready(time, what)
        elif kind == "sample":
            yield from self.sample(time)
        elif self.slices[what] == time and self.runs[what]:
            yield from self.stop(time, what)

    def ready(self, time: int, task: Task) -> Iterator[str]:
        """Adds a task to the run queue of its processor. The task runs at once if the processor is
        idle.
        """
        self.queues[task.cpu].append(task)
        if self.runs[task.cpu] is None:
            yield from self.start(time, task.cpu, "idle")

    def start(self, time: int, cpu: int, how: str) -> Iterator[str]:
        """Switches a processor to the next task of its queue, or to the idle task if the queue is
        empty. `how` is the last word of the `switch` line. It says why the previous task stopped,
        and is "idle" if no task ran.
        """
        if not self.queues[cpu]:
            self.runs[cpu] = None
            if how != "idle":
                yield f"{time} switch {cpu} 0 {how}"
            return
        task = self.queues[cpu].popleft()
        self.runs[cpu] = task
        yield f"{time} switch {cpu} {task.number} {how}"
        if task.ends_stall:
            task.is_stalled = task.ends_stall = False
            yield f"{time} unstall {task.number}"
        self.slices[cpu] = time + min(SLICE, task.burst)
        self.push(self.slices[cpu], "slice", cpu)

    def stop(self, time: int, cpu: int) -> Iterator[str]:
        """Ends the time slice of a processor's running task. If the task's burst is over, the
        processor switches to another task.
        """
        task = self.runs[cpu]
        assert task
        task.burst -= min(SLICE, task.burst)
        if task.burst > 0 and not self.queues[cpu]:
            self.slices[cpu] = time + min(SLICE, task.burst)
            self.push(self.slices[cpu], "slice", cpu)
        elif task.burst > 0:
            self.queues[cpu].append(task)
            yield from self.start(time, cpu, "preempt")
        else:
            if task.leaves == "thrash":
                task.is_stalled = True
                yield f"{time} stall {task.number}"
            self.push(time + task.sleep, "wake", task)
            waits = task.leaves == "iowait" or task.leaves == "thrash" and task.number % 2
            yield from self.start(time, cpu, "iowait" if waits else "sleep")

    def sample(self, time: int) -> Iterator[str]:
        """Yields the lines of a memory sample at `time` (ns): one for the host and one for each
        group.
        """
        for service in self.services:
            service.sample(time)
        used = sum(it.swap for it in self.services)
        yield f"{time} host {HOST} {SWAP} {max(0, SWAP - used)}"
        for path in self.paths:
            below = [
                it for it in self.services if it.path == path or it.path.startswith(path + "/")
            ]
            yield (
                f"{time} mem {path} {sum(it.memory for it in below)} "
                f"{sum(it.swap for it in below)} {sum(it.scans for it in below)}"
            )
        self.push(time + SECOND, "sample", 0)


def small_tree(services: int) -> list[str]:
    """Returns the paths of three slices, and of `services` services that are distributed over the
    slices.
    """
    slices = ("/system.slice", "/batch.slice", "/user.slice")
    return [*slices, *(f"{slices[number % 3]}/s{number}.service" for number in range(services))]


def big_tree(slices: int, services: int) -> list[str]:
    """Returns the paths of `slices` slices, each with `services` services."""
    return [
        path for one in range(slices) for path in (
            f"/s{one}.slice", *(f"/s{one}.slice/u{it}" for it in range(services))
        )
    ]


def main() -> int:
    parser = argparse.ArgumentParser(description=__doc__)
    parser.add_argument("seed", type=int)
    parser.add_argument("seconds", type=int)
    parser.add_argument("--processors", type=int, default=4)
    parser.add_argument("--slices", type=int, default=0, help="so many slices, else three")
    parser.add_argument("--services", type=int, default=7,
                        help="services, in each slice if --slices says how many there are")
    parser.add_argument("--busy", type=int, default=1000)
    options = parser.parse_args()
    slices, services = options.slices, options.services
    tree = big_tree(slices, services) if slices else small_tree(services)
    machine = Machine(options.seed, options.seconds, options.processors, tree, options.busy)
    sys.stdout.writelines(it + "\n" for it in machine.lines())
    return 0


if __name__ == "__main__":
    sys.exit(main())
