#!/usr/bin/env python3
"""Measures how fast traces are folded: lines of the folded trace per second, processor time per
event (us), and peak memory.

usage: bench/fold.py [SECONDS [CPUS [SERVICES [LEAST_US MOST_US]]]]     (4, 4, 12, 20 and 200 if
    left out)
       bench/fold.py --trace SECONDS CPUS SERVICES LEAST_US MOST_US     (prints the trace and folds
                                                                        nothing)

The trace has services that call each other, like those of a web server: each service has a group
with six threads, and there are 0.75 tokens per service. A thread that gets a token computes for
LEAST_US to MOST_US, sometimes waits for IO or stalls, and passes the token to a random service.
Processor time includes child processes.
"""
from __future__ import annotations

import heapq
import os
import random
import resource
import sys
import time
from collections import deque
from collections.abc import Iterator

sys.dont_write_bytecode = True
sys.path.insert(0,
                os.path.join(os.path.dirname(os.path.dirname(os.path.abspath(__file__))), "tools"))

from psifold.fold import Fold  # noqa: E402

THREADS = 6
SLICES = ("/system.slice", "/user.slice", "/batch.slice")
# The longest time for which a thread runs without a break, and the shortest and the longest wait
# for IO (ns).
TURN, LEAST_IO, MOST_IO = 3_000_000, 200_000, 3_000_000
Line = tuple[int, str]


class Services:
    """The simulated machine. A thread computes for `least` to `most` us per token. `remaining` is
    the time (ns) that each thread must still compute before it passes its token on. `due` has the
    scheduled events by time (ns).
    """

    def __init__(self, cpus: int, services: int, least: int, most: int) -> None:
        self.draw, self.cpus, self.services = random.Random(1), cpus, services
        self.least, self.most = least, most
        self.home = [number % cpus for number in range(services * THREADS + 1)]
        self.idle = [
            deque(range(one * THREADS + 1, (one + 1) * THREADS + 1)) for one in range(services)
        ]
        self.queue = [0] * services
        self.ready: list[deque[int]] = [deque() for _ in range(cpus)]
        self.running = [0] * cpus
        self.remaining: dict[int, int] = {}
        self.waited: set[int] = set()
        self.due: list[tuple[int, int, str, int]] = []
        self.count = 0

    def begin(self) -> Iterator[str]:
        """Yields the lines that create the groups and the tasks, which all sleep."""
        yield from (f"group {path}" for path in SLICES)
        for service in range(self.services):
            path = f"{SLICES[service % 3]}/svc{service}.service"
            yield f"group {path}"
            for number in range(service * THREADS + 1, (service + 1) * THREADS + 1):
                cpu = self.home[number]
                yield from (f"fork {number} {path} {cpu}", f"switch {cpu} {number} idle",
                            f"switch {cpu} 0 sleep")

    def lines(self, end: int) -> Iterator[Line]:
        """Yields the lines of the trace, which ends at `end` (ns)."""
        yield from ((0, words) for words in self.begin())
        for token in range(self.services * 3 // 4):
            yield from self.call(token % self.services, 0)
        while self.due and self.due[0][0] < end:
            time_ns, _, what, about = heapq.heappop(self.due)
            yield from getattr(self, what)(about, time_ns)
        yield end, "end"

    def later(self, time_ns: int, what: str, about: int) -> None:
        """Schedules a call of the method `what`, with the argument `about`, at `time_ns`."""
        self.count += 1
        heapq.heappush(self.due, (time_ns, self.count, what, about))

    def call(self, service: int, time_ns: int) -> Iterator[Line]:
        """Passes a token to a service, one of whose threads must process it."""
        if self.idle[service]:
            yield from self.wake(self.idle[service].popleft(), time_ns)
        else:
            self.queue[service] += 1

    def wake(self, number: int, time_ns: int) -> Iterator[Line]:
        """Wakes a thread on its last processor or, if that is busy, on an idle processor. If none
        is idle, the thread moves to a random processor in 30 percent of the cases.
        """
        cpu = self.home[number]
        if self.running[cpu] or self.ready[cpu]:
            idle = [it for it in range(self.cpus) if not self.running[it] and not self.ready[it]]
            cpu = idle[0] if idle else self.draw.randrange(
                self.cpus
            ) if self.draw.random() < 0.3 else cpu
        self.home[number] = cpu
        yield time_ns, f"wake {number} {cpu}"
        self.ready[cpu].append(number)
        if not self.running[cpu]:
            self.later(time_ns + self.draw.randrange(1000, 6000), "schedule", cpu)

    def schedule(self, cpu: int, time_ns: int) -> Iterator[Line]:
        """Yields the lines with which an idle processor starts a ready thread."""
        if not self.running[cpu] and self.ready[cpu]:
            number = self.ready[cpu].popleft()
            yield time_ns, f"switch {cpu} {number} idle"
            self.start(number, cpu, time_ns)

    def start(self, number: int, cpu: int, time_ns: int) -> None:
        """Starts a thread on a processor. The thread runs for at most TURN (ns)."""
        self.running[cpu] = number
        remaining = self.remaining[number] = (
            self.remaining.get(number) or self.draw.randrange(self.least, self.most) * 1000
        )
        self.later(time_ns + min(remaining, TURN), "done", cpu)

    def leave(self, cpu: int, time_ns: int, how: str) -> Iterator[Line]:
        """Yields the switch from the running thread to the next ready thread, or to none."""
        following = self.ready[cpu].popleft() if self.ready[cpu] else 0
        yield time_ns, f"switch {cpu} {following} {how}"
        self.running[cpu] = 0
        if following:
            self.start(following, cpu, time_ns)

    def done(self, cpu: int, time_ns: int) -> Iterator[Line]:
        """Handles the end of a running thread's turn. The thread runs on, is preempted, waits for
        IO, or passes its token on.
        """
        number = self.running[cpu]
        self.remaining[number] -= min(self.remaining[number], TURN)
        service = (number - 1) // THREADS
        if self.remaining[number]:
            if self.ready[cpu]:
                self.ready[cpu].append(number)
                yield from self.leave(cpu, time_ns, "preempt")
            else:
                self.start(number, cpu, time_ns)
        elif service < 3 and number not in self.waited and self.draw.random() < 0.03:
            self.waited.add(number)
            self.remaining[number] = 5000
            yield from self.leave(cpu, time_ns, "iowait")
            self.later(time_ns + self.draw.randrange(LEAST_IO, MOST_IO), "wake", number)
        else:
            yield from self.hand_on(cpu, number, service, time_ns)

    def hand_on(self, cpu: int, number: int, service: int, time_ns: int) -> Iterator[Line]:
        """Passes the token of the thread `number` on to a random service. The thread then takes the
        next waiting token of its own service, or sleeps if there is none.
        """
        self.waited.discard(number)
        if service == 5 and self.draw.random() < 0.02:
            yield from ((time_ns, f"stall {number}"), (time_ns, f"unstall {number}"))
        yield from self.call(self.draw.randrange(self.services), time_ns)
        if self.queue[service]:
            self.queue[service] -= 1
            self.start(number, cpu, time_ns)
        else:
            self.idle[service].append(number)
            yield from self.leave(cpu, time_ns, "sleep")


def lines_of(seconds: float, cpus: int, services: int, least: int, most: int) -> Iterator[str]:
    """Yields the lines of a trace, after its header."""
    for time_ns, words in Services(cpus, services, least, most).lines(round(seconds * 10**9)):
        yield f"{time_ns} {words}"


def processor_seconds() -> float:
    """Returns the processor time (s) of this process and of its children that have ended."""
    used = [resource.getrusage(who) for who in (resource.RUSAGE_SELF, resource.RUSAGE_CHILDREN)]
    return sum(it.ru_utime + it.ru_stime for it in used)


def measure(lines: list[str], cpus: int, window: float, seconds: float) -> str:
    """Folds these lines into windows of `window` s. Returns a table row with the measured values.
    The trace is `seconds` s long.
    """
    start, begun = processor_seconds(), time.monotonic()
    fold = Fold(cpus, round(window * 10**9), lambda _: None)
    fold.take(lines)
    took, lasted = processor_seconds() - start, time.monotonic() - begun
    peak = max(
        resource.getrusage(who).ru_maxrss
        for who in (resource.RUSAGE_SELF, resource.RUSAGE_CHILDREN)
    ) / 1024
    off = max((abs(it) for it in fold.check.shortfalls.values()), default=0)
    each = (
        f"{len(lines) / seconds:.0f} | {fold.counts.written / seconds:.0f} | "
        f"{1e6 * took / len(lines):.1f}"
    )
    return (
        f"| {window:g} | {each} | {lasted:.1f} | {peak:.0f} | {fold.counts.states_before} | "
        f"{fold.counts.states_after} | {off} |"
    )


def main(arguments: list[str]) -> None:
    is_trace = arguments[:1] == ["--trace"]
    numbers = [float(word) for word in arguments[is_trace:]]
    numbers += [4, 4, 12, 20, 200][len(numbers) :]
    seconds, (cpus, services, least, most) = numbers[0], map(int, numbers[1:])
    lines = lines_of(seconds, cpus, services, least, most)
    if is_trace:
        print(f"psitrace 1 cpus={cpus}")
        for line in lines:
            print(line)
        return
    listed = list(lines)
    print(
        "| window s | lines a second | folded | us a line | s | MB | joint states | kept | ns off |"
    )
    print("|--:|--:|--:|--:|--:|--:|--:|--:|--:|")
    for window in (1, 2):
        print(measure(listed, cpus, window, seconds))


if __name__ == "__main__":
    main(sys.argv[1:])
