"""Computes the expected output of `replay` and `stall` for a trace with the formulas in
docs/PRESSURE.md.

The states of tasks and groups, and the tasks that interrupts delay, come from
tests/shared/machine.py, which follows only the rules of the documentation.
"""
from __future__ import annotations

import dataclasses
import pathlib
import re
import subprocess
from collections.abc import Iterator
from typing import Any

from shared.machine import Machine

PAGE = pathlib.Path(__file__).resolve().parents[2] / "docs" / "PRESSURE.md"
RESOURCES = ("io", "memory", "cpu")
LEVELS = ("some", "full")
# Indices of a group's times on a processor: six pressure states, then the time that isn't idle,
# then the time of interrupts.
PRESSURES, NONIDLE, INTERRUPTS, TIMES = 6, 6, 7, 8


def formulas_of(page: str) -> dict[str, Any]:
    """Executes the Python code blocks of the page. Returns their definitions by name."""
    names: dict[str, Any] = {}
    for block in re.findall(r"^```python\n(.*?)^```$", page, re.DOTALL | re.MULTILINE):
        exec(compile(block, str(PAGE), "exec"), names)
    return names


PRESSURE = formulas_of(PAGE.read_text(encoding="utf-8"))


@dataclasses.dataclass
class Run:
    """A replay: its name, its trace, the length of a tick (ns), the period of reports (ns) and
    further arguments.
    """

    name: str
    trace: str
    tick: int
    period: int
    words: list[str] = dataclasses.field(default_factory=list)


class Group:
    """A group: its times (ns) on each processor, and its totals and averages by the page's
    formulas. Each list or dictionary has an item for each index of the times.
    """

    def __init__(self, number: int, path: str, cpus: int, created_ns: int) -> None:
        self.number, self.path = number, path
        self.times = [[0] * TIMES for _ in range(cpus)]
        self.sampled = [[0] * TIMES for _ in range(cpus)]
        self.totals = {place: 0 for place in (*range(PRESSURES), INTERRUPTS)}
        self.averages = {place: PRESSURE["Averages"](created_ns) for place in self.totals}

    def sample(self, now: int) -> None:
        """Updates the totals and averages at the tick `now` (ns) from the growth of the times since
        the last tick.
        """
        growths = [
            [time - before for time, before in zip(*them)] for them in zip(self.times, self.sampled)
        ]
        self.sampled = [list(times) for times in self.times]
        weights = [PRESSURE["weight"](growth[NONIDLE]) for growth in growths]
        for place, averages in self.averages.items():
            self.totals[place] += PRESSURE["share"]([growth[place] for growth in growths], weights)
            averages.tick(now, self.totals[place])

    def file_line(self, place: int, level: str) -> str:
        """Returns the line `level` ("some" or "full") of a pressure file. `place` is the index of
        the state or of interrupts. The root's line `full` of cpu is always 0.
        """
        is_zero = self.path == "/" and place == PRESSURES - 1
        averages = [0] * 3 if is_zero else self.averages[place].averages.values()
        texts = [PRESSURE["percent_text"](average) for average in averages]
        shares = " ".join(
            f"avg{seconds}={text}" for seconds, text in zip(PRESSURE["FACTORS"], texts)
        )
        return f"{level} {shares} total={0 if is_zero else self.totals[place] // 1000}"

    def report(self, now: int, version: int) -> Iterator[str]:
        for resource, name in enumerate(RESOURCES):
            yield f"report {now} {self.path} {name}"
            for level, word in enumerate(LEVELS):
                yield self.file_line(2 * resource + level, word)
        if version == 2:
            yield f"report {now} {self.path} irq"
            yield self.file_line(INTERRUPTS, "full")


@dataclasses.dataclass
class Watch:
    """A trigger of the trace: the fields of its line, the group, the index of the state, and the
    trigger object of the page's formulas.
    """

    fields: list[str]
    group: Group
    state: int
    trigger: Any


class Replay:
    """Replays a trace with the formulas of the page."""

    def __init__(self, run: Run) -> None:
        header, *lines = run.trace.splitlines()
        self.run, self.lines = run, [line.split(" ") for line in lines]
        self.version, self.end = int(header.split(" ")[1]), int(self.lines[-1][0])
        self.machine = Machine(int(header.partition("cpus=")[2]))
        self.live = {"/": Group(0, "/", self.machine.cpus, 0)}
        self.watches: list[Watch] = []
        self.states: dict[tuple[int, int], list[bool]] = {}
        self.now, self.ticks, self.signals = 0, 0, 0

    def output(self) -> Iterator[str]:
        """Yields the lines that `replay` must print, without kills."""
        for time_ns, verb, *fields in self.lines:
            yield from self.go_to(int(time_ns), False)
            self.take(verb, fields)
        yield from self.go_to(self.end, True)
        yield f"end {self.end} ticks={self.ticks} events={self.signals}"

    def stall(self) -> Iterator[str]:
        """Yields the lines that `stall` must print. The caller must first have read all lines of
        `output`.
        """
        shown = TIMES if self.version == 2 else INTERRUPTS
        for cpu in range(self.machine.cpus):
            for path in sorted(self.live):
                yield (
                    f"stall cpu={cpu} {path} "
                    f"{' '.join(map(str, self.live[path].times[cpu][:shown]))}"
                )

    def go_to(self, time_ns: int, is_end: bool) -> Iterator[str]:
        """Advances the time to `time_ns`, and yields the lines of each tick. A tick at exactly
        `time_ns` comes after all events at that time, so it is included only if `is_end`.
        """
        while (self.ticks + 1) * self.run.tick < time_ns + is_end:
            self.ticks += 1
            self.pass_to(self.ticks * self.run.tick)
            yield from self.tick()
        self.pass_to(time_ns)

    def pass_to(self, time_ns: int) -> None:
        length = time_ns - self.now
        for group in self.live.values() if length else ():
            for cpu, times in enumerate(group.times):
                for state, holds in enumerate(self.states.get((cpu, group.number), ())):
                    times[state] += length if holds else 0
        self.now = time_ns

    def take(self, verb: str, fields: list[str]) -> None:
        changed = self.machine.take(verb, *fields)
        if verb == "group":
            self.live[fields[0]] = Group(
                self.machine.live[fields[0]], fields[0], self.machine.cpus, self.now
            )
        elif verb == "rmgroup":
            del self.live[fields[0]]
        elif verb == "trigger":
            self.watch(fields)
        for cpu in changed:
            for group in self.live.values():
                self.states[cpu, group.number] = self.machine.holds(cpu, group.number)
                group.times[cpu][INTERRUPTS] = self.machine.interrupts[cpu, group.number]

    def watch(self, fields: list[str]) -> None:
        path, resource, level, threshold, window = fields
        group, state = self.live[path], 2 * RESOURCES.index(resource) + LEVELS.index(level)
        trigger = PRESSURE["Trigger"](
            self.now, group.totals[state], int(threshold) * 1000, int(window) * 1000
        )
        self.watches.append(Watch(fields, group, state, trigger))

    def tick(self) -> Iterator[str]:
        for group in self.live.values():
            group.sample(self.now)
        for number, watch in enumerate(self.watches):
            is_live = self.live.get(watch.group.path) is watch.group
            if is_live and watch.trigger.tick(self.now, watch.group.totals[watch.state]):
                self.signals += 1
                yield f"event {self.now} trigger={number} {' '.join(watch.fields)}"
        if self.is_report():
            for path in sorted(self.live):
                yield from self.live[path].report(self.now, self.version)

    def is_report(self) -> bool:
        period, before = self.run.period, self.now - self.run.tick
        return self.now + self.run.tick > self.end or bool(
            period
        ) and self.now // period > before // period


# ---------------------------------------------------------------- comparison with the program


def difference(run: Run, words: list[str], wanted: list[str]) -> str:
    """Returns the first difference between the program's output for the trace and the wanted lines,
    or '' if they are equal.
    """
    done = subprocess.run(words, input=run.trace, capture_output=True, encoding="utf-8")
    if done.returncode != 0:
        return f"the status of {words[1]} is {done.returncode}: {done.stderr}"
    printed = done.stdout.replace(" kills=0", "").splitlines()
    for number, (found, line) in enumerate(zip(printed, wanted), 1):
        if found != line:
            return f"line {number} of {words[1]} is {found}, and by the page {line}"
    return "" if len(printed) == len(
        wanted
    ) else f"{words[1]} prints {len(printed)} lines, and by the page {len(wanted)}"


def fault_of(run: Run, program: str) -> str:
    """Compares the program's output of `replay` and `stall` with the page's formulas. Returns the
    first difference, or '' if there is none.
    """
    replay = Replay(run)
    wanted = list(replay.output())
    words = [
        program, "replay", "-", f"--tick-ms={run.tick // 10**6}",
        f"--report-s={run.period // 10**9}",
    ]
    return difference(run, words, wanted) or difference(
        run, [program, "stall", "-"], list(replay.stall())
    )
