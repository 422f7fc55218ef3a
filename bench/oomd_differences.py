#!/usr/bin/env python3
"""Counts how often psi_oomd and oomd 0.5.0 kill the same groups with the same rules file, and finds
the causes of differences. The table in docs/RULES.md has these figures.

usage: bench/oomd_differences.py [CASES [DEFAULT_CASES]]     (400 and 200 if left out; PSI_OOMD
    names the program)
       bench/oomd_differences.py --binary [CASES]            (compares the emulation with oomd
                                                             itself in each case, 100 if left out)

The first cases are the 58 experiments of tests/oomd, with kills by oomd itself. Generated incidents
with typical rules follow. With ticks of one second, both programs evaluate at the same times; with
psi_oomd's default ticks of two seconds, they don't. For these incidents, the kills of oomd come
from the emulation tools/oomd. If the first kills differ, the cause is the smallest set of oomd's
rules that leads to psi_oomd's first kill when psi_oomd's rules replace them.
"""
from __future__ import annotations

import collections
import contextlib
import itertools
import os
import sys
import tempfile
from collections.abc import Callable, Iterator
from dataclasses import dataclass
from typing import Any
from unittest import mock

sys.dont_write_bytecode = True
TOP = os.path.dirname(os.path.dirname(os.path.abspath(__file__)))
sys.path[:0] = [os.path.join(TOP, "tools"), os.path.join(TOP, "tests")]

from oomd.experiments import FOUND  # noqa: E402
from oomd_incidents import incident, usual_rules  # noqa: E402
from psicli.times import SECOND  # noqa: E402
from psioomd import binary  # noqa: E402
from psioomd.detectors import Above, Reclaim, Rising  # noqa: E402
from psioomd.engine import Engine  # noqa: E402
from psioomd.killers import ByPressure, ByScans, BySize, Killer, Ranked  # noqa: E402
from psioomd.machine import NO_PRESSURE, Averages  # noqa: E402
from psioomd.plugin import Look, Result, result  # noqa: E402
from psioomd.emulation import Run, emulate  # noqa: E402
from psioomd.outcome import Candidate  # noqa: E402
from psirules.program import Kill, Pace, Program, RulesAt  # noqa: E402

TICK_MS, CASES, DEFAULT_CASES, BINARY_CASES, WORKERS, PAST = 1000, 400, 200, 100, 1, 4
INTERVALS = (1, 5)
Patch = tuple[type, str, object]


# ---------------------------------------------------------------- rules of psi_oomd in place of
# oomd's


def scan_ranks(self: ByScans, look: Look, paths: list[str]) -> Ranked:
    """Ranks only groups whose number of scanned pages rose since the previous evaluation."""
    return {path: it for path, it in OWN_SCANS(self, look, paths).items() if it[0][0] > 0}


def pressure_ranks(self: ByPressure, look: Look, paths: list[str]) -> Ranked:
    """Ranks groups by the exact sum of avg10 and avg60, and leaves out groups whose sum is 0."""
    found = {path: look.machine.pressure(path, self.args["resource"]) for path in paths}
    sums = {path: it.avg10 + it.avg60 for path, it in found.items()}
    return {path: ((it,), "") for path, it in sums.items() if it > 0}


def read_greatest(self: Above, look: Look) -> None:
    """Stores the greatest value among the groups for each of the averages."""
    found = [
        look.machine.pressure(it, self.resource) for it in look.machine.among(self.args["cgroup"])
    ]
    both = [(it.avg10, it.avg60) for it in [*found, NO_PRESSURE]]
    self.best = Averages(max(it[0] for it in both), max(it[1] for it in both))


def reclaim_run(self: Reclaim, look: Look) -> Result:
    """Returns whether pages were scanned recently, counting only groups that existed at the
    previous evaluation.
    """
    machine = look.machine
    paths = machine.among(self.args["cgroup"])
    if any(
        machine.scanned(it) > look.scanned.get(machine.group(it), machine.scanned(it))
        for it in paths
    ):
        self.pages, self.last = 1, look.now
    quiet = look.now - self.last
    return result(self.pages > 0 and quiet // SECOND <= self.args["duration"])


def size_ranks(self: BySize, look: Look, paths: list[str]) -> Ranked:
    """Ranks groups that contain a task by their growth relative to the mean of their last four
    sizes.
    """
    live = [it for it in paths if look.machine.is_populated(it)]
    past = {look.machine.group(it): HISTORY.get(look.machine.group(it), [])[-PAST:] for it in live}
    averages: Any = {group: sum(it) / len(it) if it else 0 for group, it in past.items()}
    look.average = averages
    return OWN_SIZES(self, look, live)


def at_last(
    self: Killer, look: Look, path: str, candidates: list[Candidate]
) -> list[tuple[str, list[Candidate]]]:
    """Returns the possible victims: descendants of the group at `path` if the action is recursive,
    or the group itself if no descendant is possible.
    """
    if not look.machine.is_populated(path):
        return []
    below = look.machine.children(path) if self.is_recursive else []
    found = (
        self.victims(look, [it for it in below if look.machine.is_populated(it)]) if below else []
    )
    return found or [(path, candidates)]


def remembered(self: Engine, now: int) -> None:
    """Evaluates the rules once, and then stores the current size of each group."""
    OWN_LOOK(self, now)
    for path, group in self.machine.world.live.items():
        HISTORY.setdefault(group, []).append(self.machine.current(path))


OWN_SCANS, OWN_SIZES, OWN_LOOK = ByScans.ranks, BySize.ranks, Engine.look
HISTORY: dict[object, list[int]] = {}
SWITCHES: dict[str, list[Patch]] = {
    "kill_by_pg_scan waits a look, and kills without scans": [
        (ByScans, "run", Killer.run), (ByScans, "ranks", scan_ranks)
    ],
    "kill_by_pressure compares whole percents, and kills at 0": [
        (ByPressure, "ranks", pressure_ranks)
    ],
    "one weighted group counts": [(Above, "read", read_greatest)],
    "memory_reclaim counts the sum, from 0": [(Reclaim, "run", reclaim_run)],
    "growth is measured by a decaying average, from 0": [(BySize, "ranks", size_ranks)],
    "recursive never kills a group with children": [(Killer, "at", at_last)],
}
FIRST_LOOK = "pressure_rising_beyond begins at 100"


@contextlib.contextmanager
def switched(names: tuple[str, ...]) -> Iterator[None]:
    """Replaces the named rules of oomd with those of psi_oomd in the body of the `with` statement.
    """
    HISTORY.clear()
    with contextlib.ExitStack() as stack:
        stack.enter_context(mock.patch.object(Engine, "look", remembered))
        for owner, attribute, value in itertools.chain(*(SWITCHES.get(it, []) for it in names)):
            stack.enter_context(mock.patch.object(owner, attribute, value))
        if FIRST_LOOK in names:
            stack.enter_context(mock.patch.object(Rising, "run", run_from_zero))
        yield


def run_from_zero(self: Rising, look: Look) -> Result:
    self.before = 0 if look.number == 1 else self.before
    return OWN_RISING(self, look)


OWN_RISING = Rising.run


# ---------------------------------------------------------------- comparing kills case by case


@dataclass
class Case:
    """A trace with rules, and the kills of psi_oomd and of oomd."""

    run: Run
    rules: list[Kill]
    oomd: list[Kill]
    plugins: str

    def is_first_same(self) -> bool:
        return self.rules[:1] == self.oomd[:1]

    def cause(self) -> str:
        """Returns why the first kills differ: the names of one or two differing rules that explain
        it, or a general reason if none do.
        """
        names = [*SWITCHES, FIRST_LOOK]
        for count in (1, 2):
            for some in itertools.combinations(names, count):
                with switched(some):
                    if kills_of(self.run)[:1] == self.rules[:1]:
                        return " and ".join(some)
        return "another rule, such as two digits of an average, or several"


def kills_of(run: Run) -> list[Kill]:
    return [it.kill() for it in emulate(Program(), run, WORKERS).decisions]


def case(folder: str, seed: int, tick_ms: int | None, interval: int) -> Case:
    """Generates an incident and rules with this seed, replays them with both programs, and returns
    the kills.
    """
    names = [os.path.join(folder, it) for it in ("t.trace", "r.json")]
    plugins = usual_rules(seed)
    for name, text in zip(names, (incident(seed // 2), plugins)):
        with open(name, "w", encoding="utf-8") as file:
            file.write(text)
    run = Run(names[0], names[1], interval=interval)
    rules = Program().replay(
        names[0], RulesAt(names[1], names[1]), Pace(tick_ms, interval), WORKERS
    )
    return Case(run, rules, kills_of(run), plugins)


def share(count: int, total: int) -> str:
    return f"{count} of {total} ({100 * count / total:.0f} %)" if total else "none"


def tell(title: str, cases: list[Case]) -> None:
    """Prints the percentages of cases in which the kills of both programs agree, by several
    measures.
    """
    found = [it for it in cases if it.rules or it.oomd]
    print(f"{title}: {len(cases)} cases, {len(found)} with kills")
    rows: dict[str, Callable[[Case], bool]] = {
        "all kills the same": lambda it: it.rules == it.oomd,
        "first kill the same": Case.is_first_same,
        "first victim the same": lambda it: [
            k.path for k in it.rules[:1]
        ] == [k.path for k in it.oomd[:1]],
    }
    for name, holds in rows.items():
        print(f"  {name}: {share(sum(map(holds, found)), len(found))}")
    others = [it for it in found if "kill_by_pg_scan" not in it.plugins]
    print(
        "  first kill the same, without kill_by_pg_scan: "
        f"{share(sum(map(Case.is_first_same, others)), len(others))}"
    )


def tell_causes(cases: list[Case]) -> None:
    counts = collections.Counter(it.cause() for it in cases if not it.is_first_same())
    print(f"  causes of {counts.total()} first kills that differ:")
    for cause, count in counts.most_common():
        print(f"    {count:4} {cause}")


def tell_experiments() -> None:
    differ = [it for it in FOUND if it.oomd != it.rules]
    print(
        f"experiments: {len(FOUND)}, of which {len(differ)} differ and {len(FOUND) - len(differ)} "
        "don't"
    )
    for it in differ:
        print(f"  {it.name}: oomd {it.oomd}; psi_oomd {it.rules}")


def by_binary(count: int) -> int:
    """Compares the emulation of oomd with oomd itself in `count` cases. Returns 1 if a kill
    differs, and 0 if none does. Groups of equal rank count as the same victim.
    """
    kills = wrong = 0
    with tempfile.TemporaryDirectory() as folder:
        for seed in range(count):
            it = case(folder, seed, TICK_MS, INTERVALS[seed % 2])
            own, found = emulate(Program(), it.run, WORKERS), binary.run_binary(
                Program(), it.run, "oomd"
            ).kills
            same = [
                k.time_ns == o.time_ns and o.may_kill(k.path) for k, o in zip(found, own.decisions)
            ]
            kills += len(found)
            wrong += len(found) != len(own.decisions) or not all(same)
    print(
        f"{count} cases, {kills} kills by oomd itself, {wrong} cases in which the emulation differs"
    )
    return 1 if wrong else 0


def main() -> int:
    words = sys.argv[1:]
    if words[:1] == ["--binary"]:
        return by_binary(int(words[1]) if words[1:] else BINARY_CASES)
    counts = [int(it) for it in words] or [CASES]
    with tempfile.TemporaryDirectory() as folder:
        same = [case(folder, seed, TICK_MS, INTERVALS[seed % 2]) for seed in range(counts[0])]
        tell_experiments()
        tell("incidents, ticks of a second, interval 1 or 5 s", same)
        # All cases share the same file names, so each case's files must be written again before its
        # cause is searched.
        tell_causes(
            [remade(folder, seed, it) for seed, it in enumerate(same) if not it.is_first_same()]
        )
        seeds = range(counts[1] if counts[1:] else DEFAULT_CASES)
        tell("incidents, default ticks of 2 s and interval of 5 s",
             [case(folder, it, None, 5) for it in seeds])
    return 0


def remade(folder: str, seed: int, it: Case) -> Case:
    """Returns a copy of a case, whose files are written again into a folder of its own."""
    own = os.path.join(folder, str(seed))
    os.mkdir(own)
    return case(own, seed, TICK_MS, it.run.interval)


if __name__ == "__main__":
    sys.exit(main())
