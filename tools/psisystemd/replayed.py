"""Applies systemd-oomd's rules to a trace. The pressure is that of a replay by psi_oomd, with a
report every second.
"""
from __future__ import annotations

import contextlib
import itertools
import math
import shutil
import sys
import tempfile
from collections.abc import Iterable, Iterator
from dataclasses import dataclass

from psicli.fault import Fault
from psicli.wording import listed
from psireplay.lines import Report, read
from psireplay.trace import Events
from psirules.program import Kill, Program, Refusal
from psisystemd.engine import Engine
from psisystemd.settings import Settings
from psisystemd.told import MEMORY_PRESSURE, SWAP, Decision
from psiworld.groups import ROOT

LOOK_MS = 1000
BY = (MEMORY_PRESSURE, SWAP)
"""The names of systemd-oomd's rules. In kills, their indices are used as numbers of rulesets."""


@contextlib.contextmanager
def kept_trace(name: str) -> Iterator[str]:
    """Yields the path of a trace that can be read twice. A trace on standard input is copied to a
    temporary file.
    """
    if name != "-":
        yield name
        return
    with tempfile.NamedTemporaryFile(prefix="psisystemd-", suffix=".trace") as file:
        shutil.copyfileobj(sys.stdin.buffer, file)
        file.flush()
        yield file.name


@dataclass(frozen=True)
class Second:
    """The input of a check: its time (ns), and the full memory pressure over 10 s of the watched
    groups and the root (hundredths of a percent).
    """

    time_ns: int
    averages: dict[str, int]


def needed_lines(printed: Iterable[bytes], settings: Settings) -> Iterator[bytes]:
    """Yields the lines of a replay that the checks need: reports of memory for watched groups and
    the root, and all lines that aren't reports. The root's reports mark each second.
    """
    is_kept = True
    for line in printed:
        if line[:5] not in (b"some ", b"full "):
            words = line.split(b" ")
            is_kept = (
                words[0] != b"report"
                or words[3] == b"memory\n"
                and is_needed(words[2].decode("latin-1"), settings)
            )
        if is_kept:
            yield line


def is_needed(path: str, settings: Settings) -> bool:
    return path == ROOT or settings.watched(path).pressure


def seconds_of(printed: Iterable[bytes], settings: Settings) -> Iterator[Second]:
    """Yields the input of each check, from the reports of a replay."""
    reports = (it for it in read(needed_lines(printed, settings)) if isinstance(it, Report))
    for time_ns, of_moment in itertools.groupby(reports, key=lambda it: it.time_ns):
        yield Second(time_ns, {it.path: it.full.avg10 for it in of_moment})


def decide(engine: Engine, trace: str, seconds: Iterator[Second]) -> None:
    """Feeds the events of the trace and the checks to `engine`, in order of time."""
    events = Events(trace)
    for second in seconds:
        for event in events.until(second.time_ns):
            engine.take(*event)
        engine.look_at_pressure(second.time_ns, second.averages)
    for event in events.until(math.inf):
        engine.take(*event)


def replayed(program: Program, trace: str, settings: Settings, threads: int) -> Engine:
    """Applies the settings to a trace, and returns the engine with its decisions. Raises a Refusal
    if psi_oomd rejects the trace.
    """
    words = [
        "replay",
        f"--tick-ms={LOOK_MS}",
        "--report-s=1",
        f"--workers={min(threads, 64)}",
        "--",
        trace,
    ]
    engine = Engine(settings)
    with tempfile.TemporaryFile() as said:
        with program.started(words, said) as child:
            assert child.stdout is not None
            first = child.stdout.readline()
            if first:
                decide(engine, trace, seconds_of(itertools.chain([first], child.stdout), settings))
        if child.returncode:
            said.seek(0)
            raise Refusal(
                trace, said.read(4096).decode("utf-8", "replace").strip(), child.returncode
            )
        if not first:
            raise Fault(
                f"{program.path} printed no replay: let the variable PSI_OOMD name a psi_oomd"
            )
    return engine


def kills_of(decisions: Iterable[Decision]) -> list[Kill]:
    """Converts decisions to kills as in a replay. The index of systemd-oomd's rule is used as the
    number of the ruleset.
    """
    return [
        Kill(it.time_ns, BY.index(it.by), 0, it.victim) for it in decisions if it.victim is not None
    ]


def warnings(engine: Engine, settings: Settings) -> list[str]:
    """Returns a warning for each known cause of missing kills: a watched group without memory
    samples, no watched group at all, a watched root, or unknown use of swap.
    """
    found = []
    pressure, swap = engine.pressure, engine.swap
    unread = sorted(pressure.unread - set(pressure.courses))
    if unread:
        found.append(
            f"the trace has no sample of the memory of {listed(unread)}: what is watched there"
            " isn't known"
        )
    elif not (pressure.courses or swap.was_watched):
        found.append(
            "no group of the trace is watched: no unit of the settings with `kill` is one of its"
            " groups"
        )
    if ROOT in pressure.courses:
        found.append(
            "/ is watched for memory pressure, by which systemd-oomd never kills: it doesn't look"
            " at the root's scans"
        )
    if swap.was_watched and swap.most[0] < 0 and not swap.is_absent:
        found.append("swap can't be judged: the trace has no `host` line, or no `mem` line of /")
    return found
