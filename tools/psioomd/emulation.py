"""Emulates oomd on a trace. A replay by psi_oomd provides the pressure at each of oomd's
evaluations.
"""
from __future__ import annotations

import itertools
import tempfile
from collections.abc import Iterable, Iterator
from dataclasses import dataclass
from typing import IO

from psicli.fault import Fault
from psicli.times import SECOND
from psioomd.configuration import Configuration, configuration
from psioomd.engine import Engine, engine
from psioomd.machine import NO_HOST, Averages, Extras, Machine, Pressure
from psireplay.groups import Groups, Host
from psireplay.world import World, Task
from psireplay.trace import Event, Events, events_of
from psireplay.lines import Report, read
from psirules.program import Program, Refusal
from psirules.rules_file import bytes_of
from psirules.sampling import must_have_scans

TICK_MS = 1000
"""The tick of the replay (ms). It divides every interval, so that each evaluation by oomd is at a
tick.
"""
RESOURCES = {b"io\n", b"memory\n"}
UPTIME = 10**6 * SECOND
"""The default uptime (ns) of the machine at the start of the trace."""


@dataclass(frozen=True)
class Run:
    """The input of an emulation: the trace, the configuration, the names of its drop-in files, and
    the interval between evaluations (s). `extras` contains values that a trace lacks. `warm` is the
    time (s) for which oomd runs before the trace, and `uptime` the machine's uptime (ns).
    """

    trace: str
    config: str
    drop_ins: tuple[str, ...] = ()
    interval: int = 5
    extras: Extras = Extras()
    warm: int = 0
    uptime: int = UPTIME

    def configurations(self) -> tuple[Configuration, list[Configuration]]:
        """Reads the configuration and its drop-in files. The drop-in files are sorted by name, the
        order in which oomd adds them.
        """
        parts = sorted(self.drop_ins, key=lambda it: it.rpartition("/")[2])
        return read_configuration(self.config), [read_configuration(it) for it in parts]


@dataclass(frozen=True)
class Tick:
    """An evaluation by oomd: its time (ns), and the pressure of each group, keyed by path."""

    time_ns: int
    reports: dict[str, Pressure]


def read_configuration(name: str) -> Configuration:
    return configuration(name, bytes_of(name))


def needed_lines(printed: Iterable[bytes]) -> Iterator[bytes]:
    """Yields the lines of a replay, without the reports on resources that oomd doesn't read."""
    is_kept = True
    for line in printed:
        if line[:5] not in (b"some ", b"full "):
            words = line.split(b" ")
            is_kept = words[0] != b"report" or words[3] in RESOURCES
        if is_kept:
            yield line


def ticks_of(printed: Iterable[bytes], interval: int) -> Iterator[Tick]:
    """Yields an evaluation for each tick of a replay that is a multiple of the interval (s)."""
    reports = (it for it in read(needed_lines(printed)) if isinstance(it, Report))
    for time_ns, tick_reports in itertools.groupby(reports, key=lambda it: it.time_ns):
        found: dict[str, Pressure] = {}
        for it in tick_reports:
            averages = Averages(it.full.avg10, it.full.avg60, it.full.avg300)
            found.setdefault(it.path, {})[it.resource] = averages
        if time_ns % (interval * SECOND) == 0:
            yield Tick(time_ns, found)


def first_host(trace: str) -> Host:
    """Returns the trace's first sample of the host, which is also used for earlier times."""
    groups = Groups()
    for event in events_of(trace):
        groups.take(*event)
        if groups.host:
            return groups.host
    return NO_HOST


def first_samples(trace: str) -> Iterator[Event]:
    """Yields the first memory sample of each group that exists at the start, as a `mem` event at
    time 0.
    """
    live, seen = {"/"}, set()
    for time_ns, verb, fields in events_of(trace):
        if verb == "group" and time_ns == 0:
            live.add(fields[0])
        elif verb == "mem" and fields[0] in live and fields[0] not in seen:
            seen.add(fields[0])
            yield 0, verb, fields


def warm_up(it: Engine, run: Run, world: World[Task]) -> None:
    """Runs oomd's evaluations before the start of the trace. During these evaluations the machine
    has the first samples of the trace.
    """
    for event in first_samples(run.trace):
        world.take(*event)
    count = run.warm // run.interval
    for number in range(1, count + 1):
        it.look((number - count) * run.interval * SECOND)


def decide(it: Engine, run: Run, ticks: Iterator[Tick]) -> None:
    """Passes the trace's events, and the evaluations, to the engine in order of time."""
    world, events = it.machine.world, Events(run.trace)
    for event in events.until(0):
        world.take(*event)
    if run.warm:
        warm_up(it, run, world)
    for tick in ticks:
        for event in events.until(tick.time_ns):
            world.take(*event)
        it.machine.take_pressure(tick.reports)
        it.look(tick.time_ns)


def prepare_engine(run: Run) -> Engine:
    """Returns the engine before its first evaluation. Raises a Fault if oomd rejects the
    configuration, or if the trace lacks data that a plugin needs.
    """
    base, parts = run.configurations()
    for it in (base, *parts):
        must_have_scans(run.trace, it.plugins(), it.name)
    return engine(base, parts, Machine(run.extras, first_host(run.trace)), run.uptime)


def replay_words(run: Run, threads: int) -> list[str]:
    """Returns the arguments with which psi_oomd prints the pressure at each evaluation by oomd."""
    pace = [f"--tick-ms={TICK_MS}", f"--report-s={run.interval}"]
    return ["replay", *pace, f"--workers={min(threads, 64)}", "--", run.trace]


def check_trace(program: Program, trace: str) -> None:
    """Raises a Fault with psi_oomd's own message if psi_oomd rejects the trace."""
    with tempfile.TemporaryFile() as said:
        with program.started(["check", f"--tick-ms={TICK_MS}", "--", trace], said) as child:
            assert child.stdout is not None
            child.stdout.read()
        raise_refusal(child.returncode, trace, said)


def raise_refusal(status: int | None, trace: str, said: IO[bytes]) -> None:
    if status:
        said.seek(0)
        raise Refusal(trace, said.read(4096).decode("utf-8", "replace").strip(), status)


def emulate(program: Program, run: Run, threads: int) -> Engine:
    """Emulates oomd on a trace. Returns the engine, which contains the kills."""
    check_trace(program, run.trace)
    it = prepare_engine(run)
    with tempfile.TemporaryFile() as said:
        with program.started(replay_words(run, threads), said) as child:
            assert child.stdout is not None
            first = child.stdout.readline()
            if first:
                decide(it, run, ticks_of(itertools.chain([first], child.stdout), run.interval))
        raise_refusal(child.returncode, run.trace, said)
        if not first:
            raise Fault(f"{program.path} printed no replay: let the variable PSI_OOMD name it")
    return it
