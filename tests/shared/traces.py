"""Provides fixed and random traces with replay options, for checks that compute the expected
output.
"""
from __future__ import annotations

import dataclasses
import os
import random
from collections.abc import Iterable, Iterator
from typing import TypeVar

from shared.fixed_traces import (
    AT_TICKS, BELOW, BETWEEN, COMES_AND_GOES, IDLE, INTERRUPTS, MANY, NOTHING_DIFFERS, NO_TICK,
    STALLS, STALLS_ASLEEP, SWITCHED,
)
from shared.machine import Machine, parent_of

TOP = os.path.dirname(os.path.dirname(os.path.dirname(os.path.abspath(__file__))))
MS = 10**6
RANDOM_TRACES = 40
RANDOM_TRACES_WITH_INTERRUPTS = 10
# An event without its time: its verb and its fields.
Event = tuple[str, ...]
Thing = TypeVar("Thing")

RUNAWAY = ("--rules", "examples/runaway.json")


@dataclasses.dataclass(frozen=True)
class Run:
    """A trace with an observed path, and the options of its replay: the length of ticks (ms), the
    period of reports (s) and further arguments.
    """

    name: str
    trace: str
    path: str
    tick_ms: int
    report_s: int
    words: tuple[str, ...] = ()


def text_of(name: str) -> str:
    """Returns the text of a trace in examples/."""
    with open(os.path.join(TOP, "examples", name), encoding="ascii") as file:
        return file.read()


def fixed_runs() -> list[Run]:
    """Returns the traces of fixed_traces.py and some of the examples. Each has the path of a group
    that exists at the end, that existed earlier, or that never existed.
    """
    return [
        Run("one-wait", text_of("one-wait.trace"), "/", 2000, 10),
        Run("one-wait-in-ticks", text_of("one-wait.trace"), "/", 300, 1),
        Run("between", BETWEEN, "/", 2000, 10),
        Run("between-in-ticks", BETWEEN, "/", 250, 0),
        Run("two-processors", text_of("two-processors.trace"), "/", 2000, 10),
        Run("two-processors-in-ticks", text_of("two-processors.trace"), "/", 100, 1),
        Run("never-live", COMES_AND_GOES, "/nope", 1000, 1),
        Run("below-none", BELOW, "/a/b/c/d", 1000, 1),
        Run("comes-and-goes", COMES_AND_GOES, "/a", 1000, 1),
        Run("comes-and-goes-in-a-tick", COMES_AND_GOES, "/a", 4400, 1),
        Run("comes-and-goes-between", COMES_AND_GOES, "/a", 100, 0),
        Run("root-while-others-go", COMES_AND_GOES, "/", 700, 1),
        Run("at-ticks", AT_TICKS, "/a", 1000, 2),
        Run("at-each-other-tick", AT_TICKS, "/a", 2000, 10),
        Run("below", BELOW, "/a", 1000, 1),
        Run("far-below", BELOW, "/a/b", 500, 3),
        Run("beside", BELOW, "/ab", 500, 3600),
        Run("stalls-asleep", STALLS_ASLEEP, "/", 500, 1),
        Run("stalls", STALLS, "/a", 100, 1),
        Run("nothing-differs", NOTHING_DIFFERS, "/", 1000, 10),
        Run("idle", IDLE, "/", 2000, 10),
        Run("interrupts", INTERRUPTS, "/", 1000, 1),
        Run("interrupts-of-a-group", INTERRUPTS, "/a", 250, 0),
        Run("switched", SWITCHED, "/a", 1000, 1),
        Run("switched-below", SWITCHED, "/a/b", 500, 1),
        Run("switched-of-the-root", SWITCHED, "/", 700, 0),
        Run("no-tick", NO_TICK, "/", 1000, 1),
        Run("many-processors", MANY, "/", 200, 1),
        Run("signals-and-kills", text_of("runaway.trace"), "/batch", 2000, 4, RUNAWAY),
        Run("a-real-machine", text_of("real/debian-2cpu.trace"), "/", 200, 10),
    ]


# ---------------------------------------------------------------- random traces


class Maker:
    """Makes a valid random trace. In each turn, a random possible event happens, and time may
    advance.
    """

    PATHS: tuple[str, ...] = ("/a", "/a/b", "/a/b/c", "/d", "/d/e")
    # The smallest and the largest number of turns in a trace.
    TURNS = (30, 120)
    # The weight of each verb in the random choice, by the trace's version.
    FIRST = dict(fork=2, switch=8, wake=4, stall=2, unstall=2, migrate=2, move=3, group=4,
                 rmgroup=2, side=1)
    OFTEN = {1: FIRST, 2: {**FIRST, "irq": 8, "pressure": 5}}

    def __init__(self, seed: int, version: int) -> None:
        self.draw, self.often = random.Random(seed), self.OFTEN[version]
        self.machine = Machine(self.draw.randint(1, 8))
        self.tick = self.draw.choice((40, 100, 333, 1000, 2000)) * MS
        self.lines, self.now = [f"psitrace {version} cpus={self.machine.cpus}"], 0
        self.last_interrupts = [0] * self.machine.cpus

    def trace(self) -> str:
        """Returns the complete trace, including its end."""
        for _ in range(self.draw.randint(*self.TURNS)):
            verb = self.draw.choices(list(self.often), list(self.often.values()))[0]
            for event in getattr(self, f"some_{verb}")():
                self.machine.take(*event)
                self.lines.append(f"{self.now} {' '.join(event)}")
            self.pass_time()
        return "\n".join([*self.lines, f"{self.now} end\n"])

    def pass_time(self) -> None:
        """Advances the time by a random length. Half of the turns take no time, some turns end
        exactly at a tick, and some contain ticks without events.
        """
        way = self.draw.random()
        if way > 0.95:
            self.now += self.draw.randrange(4 * self.tick)
        elif way > 0.85:
            self.now += self.tick - self.now % self.tick
        elif way > 0.5:
            self.now += self.draw.randrange(self.tick // 2)

    def path(self) -> str:
        """Returns the root, or a path that a group has or once had."""
        return self.draw.choice(
            [
                "/",
                *(
                    path for path in self.PATHS if any(
                        line.endswith(f" group {path}") for line in self.lines
                    )
                ),
            ]
        )

    def cpu(self) -> str:
        return str(self.draw.randrange(self.machine.cpus))

    def some(self, them: Iterable[Thing]) -> list[Thing]:
        """Returns a list with a random item, or an empty list if there are no items."""
        listed = list(them)
        return [self.draw.choice(listed)] if listed else []

    def task(self, *at: str) -> list[str]:
        """Returns a list with the number of a random task whose state is in `at`, or an empty list
        if there is no such task.
        """
        return self.some(pid for pid, task in self.machine.tasks.items() if task.at in at)

    def some_fork(self) -> list[Event]:
        pids = (str(pid) for pid in range(1, 3 * self.machine.cpus + 2))
        free = self.some(pid for pid in pids if pid not in self.machine.tasks)
        return [("fork", pid, self.some(self.machine.live)[0], self.cpu()) for pid in free]

    def some_switch(self) -> list[Event]:
        cpu = self.cpu()
        here = {pid: task for pid, task in self.machine.tasks.items() if task.cpu == int(cpu)}
        then = self.some(["0", *(pid for pid, task in here.items() if task.at == "ready")])[0]
        runs = [task for task in here.values() if task.at == "running"]
        ways = ["idle"] if not runs else ["preempt", "sleep", "iowait", "iowait"]
        ways += ["exit"] if runs and not runs[0].is_stalled else []
        return [("switch", cpu, then, self.some(ways)[0])]

    def some_wake(self) -> list[Event]:
        return [("wake", pid, self.cpu()) for pid in self.task("sleep", "iowait")]

    def some_migrate(self) -> list[Event]:
        return [("migrate", pid, self.cpu()) for pid in self.task("ready")]

    def some_move(self) -> list[Event]:
        return [
            ("move", pid, self.some(self.machine.live)[0])
            for pid in self.task("ready", "running", "sleep", "iowait")
        ]

    def some_stall(self) -> list[Event]:
        return [
            ("stall", pid) for pid in self.task("running") if not self.machine.tasks[pid].is_stalled
        ]

    def some_unstall(self) -> list[Event]:
        stalled = (
            pid
            for pid, task in self.machine.tasks.items()
            if task.at == "running" and task.is_stalled
        )
        return [("unstall", pid) for pid in self.some(stalled)]

    def some_group(self) -> list[Event]:
        live = self.machine.live
        return [
            ("group", path) for path in self.some(
                it for it in self.PATHS if it not in live and parent_of(it) in live
            )
        ]

    def some_rmgroup(self) -> list[Event]:
        """Removes a random group without children, after it moves the group's tasks to the parent.
        Sometimes creates the group again at once. Returns the events.
        """
        live = self.machine.live
        parents = {parent_of(path) for path in live if path != "/"}
        for path in self.some(it for it in live if it != "/" and it not in parents):
            tasks = [pid for pid, task in self.machine.tasks.items() if task.group == live[path]]
            again = [("group", path)] if self.draw.random() < 0.3 else []
            return [*(("move", pid, parent_of(path)) for pid in tasks), ("rmgroup", path), *again]
        return []

    def some_irq(self) -> list[Event]:
        """Returns an `irq` event. The length of the interrupts is none, some or all of the time
        since the processor's previous `irq` line, but at most a second.
        """
        busy = [cpu for cpu in range(self.machine.cpus) if self.machine.running(cpu)]
        cpu = self.draw.choice(
            busy if busy and self.draw.random() < 0.8 else range(self.machine.cpus)
        )
        most = min(self.now - self.last_interrupts[cpu], 1000 * MS)
        self.last_interrupts[cpu] = self.now
        return [("irq", str(cpu), str(self.draw.choice((0, most, self.draw.randint(0, most)))))]

    def some_pressure(self) -> list[Event]:
        """Switches the pressure accounting of a random group on or off, and sometimes back at once.
        The group may already be in this state. Returns the events.
        """
        switches = self.draw.choice((("on",), ("off",), ("off",), ("off", "on"), ("on", "off")))
        return [
            ("pressure", path, to) for path in self.some(
                it for it in self.machine.live if it != "/"
            ) for to in switches
        ]

    def some_side(self) -> list[Event]:
        """Returns a list with an event that changes no processor and no group."""
        (path,) = self.some(self.machine.live)
        resource, level = (
            self.draw.choice(("io", "memory", "cpu")), self.draw.choice(("some", "full")),
        )
        sides: list[Event] = [
            ("mem", path, "4096", "0", "7"), ("prefer", path, "avoid"), ("host", "4096", "0", "0")
        ]
        return self.some([*sides, ("trigger", path, resource, level, "50000", "500000")])


def random_run(number: int, version: int = 1, kind: type[Maker] = Maker) -> Run:
    """Returns a random trace of this version, made by a Maker of this class. The number determines
    the trace.
    """
    maker = kind(number, version)
    trace = maker.trace()
    # The replay mostly has the tick length for which the trace was made, but sometimes half of it
    # or 3.5 times as much.
    tick_ms = maker.tick // MS * maker.draw.choice((2, 2, 2, 1, 7)) // 2
    return Run(f"random-{number}" + "-with-interrupts" * (version - 1), trace, maker.path(),
               tick_ms, maker.draw.choice((0, 1, 10)))


def all_runs() -> Iterator[Run]:
    """Yields all fixed traces, and random traces of both versions."""
    yield from fixed_runs()
    yield from (random_run(number) for number in range(RANDOM_TRACES))
    yield from (random_run(number, 2) for number in range(RANDOM_TRACES_WITH_INTERRUPTS))
