#!/usr/bin/env python3
"""Prints examples/runaway.trace: five minutes of a machine with two processors, on which an import
of data outgrows the memory.

A web server runs on processor 0. On processor 1 a task maintains an index. From 60 s on an import
runs there and needs more and more memory. It spends an increasing share of its time on reclaiming
pages, and the index loses its own pages and waits for the disk. At 220 s an administrator ends the
import, its group is removed, and the pressure falls.
"""
from __future__ import annotations

import heapq
import itertools
import random
from collections.abc import Callable, Generator

MS = 10**6
SECOND = 1000 * MS
GROUPS = ("/web", "/batch", "/batch/import", "/batch/index")
BEGIN, MOST, STOP, END = (second * SECOND for second in (60, 150, 220, 300))

# A step of a task: its kind and its length (ns). The kinds `stall` and `unstall` take no time. A
# plan is a generator of a task's steps. Before each step after the first, it is sent the time (ns)
# at which the step begins.
Step = tuple[str, int]
Plan = Generator[Step, int, None]

draw = random.Random(5)


def about(ms: float) -> int:
    """Returns a random time (ns) within 30 percent of `ms` milliseconds."""
    return max(1, round(ms * (0.7 + 0.6 * draw.random()))) * MS


def need(now: int) -> float:
    """Returns how short memory is because of the import at the time `now` (ns), from 0 to 1."""
    return min(1, max(0, (now - BEGIN) / (MOST - BEGIN))) if now < STOP else 0


def web() -> Plan:
    """The plan of a server. It waits for the disk longer as memory gets short."""
    while True:
        now = yield "sleep", about(1500)
        now = yield "run", about(250)
        now = yield "iowait", about(60 + 500 * need(now))
        yield "run", about(250)


def index() -> Plan:
    """The plan of a task that maintains an index. As memory gets short, it loses pages of the index
    and waits for the disk.
    """
    while True:
        now = yield "sleep", about(1200)
        yield "run", about(300)
        now = yield "iowait", about(150 + 900 * need(now))
        if need(now) > 0.3:
            yield "stall", 0
            now = yield "iowait", about(900 * need(now))
            yield "unstall", 0
        yield "run", about(200)


def loader() -> Plan:
    """The plan of the import. It begins at BEGIN, needs more and more memory, and is ended at STOP
    (ns).
    """
    now = yield "sleep", BEGIN
    while now < STOP:
        now = yield "run", about(500 - 250 * need(now))
        if need(now) > 0.05:
            yield "stall", 0
            now = yield "run", about(500 * need(now))
            now = yield "iowait", about(1100 * need(now))
            yield "unstall", 0
        now = yield "sleep", about(900 - 800 * need(now))
    yield "exit", 0


class Machine:
    """Two processors. Each runs a task until the task waits, sleeps or exits."""

    def __init__(self) -> None:
        self.running: list[int | None] = [None, None]
        self.ready: list[list[int]] = [[], []]
        self.due: list[tuple[int, int, Callable[..., None], tuple[int, ...]]] = []
        self.order = itertools.count()
        self.plans: dict[int, tuple[int, Plan]] = {}
        self.first: dict[int, Step] = {}
        self.groups = set(GROUPS)

    def at(self, time_ns: int, call: Callable[..., None], *arguments: int) -> None:
        """Schedules a call of `call` at `time_ns`. The arguments of the call are `time_ns` and
        `arguments`.
        """
        heapq.heappush(self.due, (time_ns, next(self.order), call, arguments))

    def fork(self, pid: int, group: str, cpu: int, plan: Plan) -> None:
        """Creates a task at time 0. It runs at once if its processor is idle."""
        print(f"0 fork {pid} {group} {cpu}")
        self.plans[pid] = cpu, plan
        self.first[pid] = next(plan)
        self.ready[cpu].append(pid)
        if not self.running[cpu]:
            self.switch(0, cpu, "idle")

    def switch(self, now: int, cpu: int, how: str) -> None:
        """Switches a processor to its next ready task, or to the idle task if none is ready."""
        pid = self.running[cpu] = self.ready[cpu].pop(0) if self.ready[cpu] else None
        print(f"{now} switch {cpu} {pid or 0} {how}")
        if pid:
            self.go_on(now, pid, self.first.pop(pid, None))

    def go_on(self, now: int, pid: int, first: Step | None = None) -> None:
        """Executes the running task's steps, from `first` or the next step of its plan, up to a
        step that takes time.
        """
        cpu, plan = self.plans[pid]
        kind, length = first or plan.send(now)
        while kind in ("stall", "unstall"):
            print(f"{now} {kind} {pid}")
            kind, length = plan.send(now)
        if kind == "run":
            self.at(now + length, self.go_on, pid)
            return
        self.switch(now, cpu, kind)
        if kind == "exit":
            print(f"{now} rmgroup /batch/import")
            self.groups.remove("/batch/import")
        else:
            self.at(now + length, self.wake, pid)

    def wake(self, now: int, pid: int) -> None:
        """Wakes a task on its processor. It runs at once if the processor is idle."""
        cpu, _ = self.plans[pid]
        print(f"{now} wake {pid} {cpu}")
        self.ready[cpu].append(pid)
        if not self.running[cpu]:
            self.switch(now, cpu, "idle")

    def sample(self, now: int) -> None:
        """Prints a sample of each group: its memory (bytes) and its number of scanned pages. The
        import grows while it runs, and the other groups shrink.
        """
        grown = need(now)
        scanned = round(max(0, min(now, STOP) - BEGIN) / SECOND) * 4000
        sizes = (
            ("/web", 300 - 60 * grown, scanned // 8),
            ("/batch/import", (80 + 1100 * grown) if BEGIN <= now < STOP else 0, scanned),
            ("/batch/index", 400 - 150 * grown, scanned // 2),
        )
        for group, size, pages in sizes:
            if group in self.groups:
                print(f"{now} mem {group} {round(size) << 20} 0 {pages}")
        self.at(now + 10 * SECOND, self.sample)

    def run(self) -> None:
        """Executes all scheduled calls before END (ns), in the order of time."""
        self.at(0, self.sample)
        while self.due[0][0] < END:
            now, _, call, arguments = heapq.heappop(self.due)
            call(now, *arguments)


def main() -> None:
    """Prints the whole trace."""
    print("psitrace 1 cpus=2")
    print(f"0 host {2 << 30} 0 0")
    for group in GROUPS:
        print(f"0 group {group}")
    print("0 trigger /batch memory some 1500000 2000000")
    print("0 trigger /batch memory full 6000000 10000000")
    print("0 trigger /batch io full 4000000 10000000")
    machine = Machine()
    machine.fork(1, "/web", 0, web())
    machine.fork(2, "/batch/index", 1, index())
    machine.fork(3, "/batch/import", 1, loader())
    machine.run()
    print(f"{END} end")


if __name__ == "__main__":
    main()
