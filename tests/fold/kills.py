"""Compares the kills in replays of folded traces with the kills in replays of the originals, for
random traces and recordings with random rules.
"""
from __future__ import annotations

import json
import os
import random
import re
import sys
import tempfile
from collections.abc import Callable, Iterator
from importlib.machinery import SourceFileLoader
from importlib.util import module_from_spec, spec_from_loader
from types import ModuleType
from typing import Any, NamedTuple

from fold.common import Settled, folded, printed, window_of
from harness import must, must_be
from shared.program import TOP
from shared.stored import tool
from shared.traces import MS, Maker

from .replays import FOLDERS, TEXTS, both_of, both_of_folder, names_of

# The number of random traces in the merge gate, and the number of random rules files for each of
# them.
TRACES, RULES = 40, 3
# The largest number of rulesets in a rules file. Rulesets are independent of each other, so one
# replay compares this many rulesets.
MOST_RULESETS = 64
SECOND = 1000 * MS
KILL = re.compile("kill [0-9]+ ruleset=([0-9]+) ")


class Found(NamedTuple):
    """The result of a comparison: the numbers of random rulesets, of compared replays and of kill
    lines, and a message for each replay that differs.
    """

    rulesets: int
    replays: int
    kills: int
    differing: list[str]


def whatif() -> ModuleType:
    """Returns the module tests/whatif/test, which makes random rules."""
    if "whatif" not in sys.modules:
        loader = SourceFileLoader("whatif", os.path.join(TOP, "tests", "whatif", "test"))
        spec = spec_from_loader("whatif", loader)
        assert spec
        sys.modules["whatif"] = module_from_spec(spec)
        loader.exec_module(sys.modules["whatif"])
    return sys.modules["whatif"]


def kills_of(program: str, trace: str, rules: str, tick: int) -> list[str]:
    """Returns the kill lines of a replay with ticks of `tick` ns."""
    words = ("replay", f"--rules={rules}", f"--tick-ms={tick // MS}", "--report-s=0",
             "--interval-s=1")
    return [
        line
        for line in printed(program, trace, *words).decode().splitlines()
        if line.startswith("kill ")
    ]


def packed(rules: list[list[Any]]) -> Iterator[list[Any]]:
    """Yields the rulesets of all rules files, in lists of at most MOST_RULESETS."""
    rulesets = [ruleset for one in rules for ruleset in one]
    for start in range(0, len(rulesets), MOST_RULESETS):
        yield rulesets[start : start + MOST_RULESETS]


def difference(rules: list[Any], wanted: list[str], found: list[str]) -> str:
    """Returns the first kill line (in alphabetical order) that is only in `wanted` or only in
    `found`, with its ruleset. Returns a message if only the order of the lines differs.
    """
    lines = sorted({*wanted} ^ {*found})
    kill = KILL.match(lines[0]) if lines else None
    return f"{lines[0]}; ruleset {json.dumps(rules[int(kill[1])])}" if kill else "in another order"


def compare(
    program: str, what: str, traces: tuple[str, str], rules: list[list[Any]], ticks: list[int]
) -> Found:
    """Compares the kills of a trace with the kills of the folded trace, for these rules and these
    lengths of ticks (ns).
    """
    replays, kills, differing = 0, 0, []
    for rulesets in packed(rules):
        with tempfile.NamedTemporaryFile("w", suffix=".json") as file:
            json.dump({"rulesets": rulesets}, file)
            file.flush()
            for tick in ticks:
                wanted, found = (kills_of(program, trace, file.name, tick) for trace in traces)
                replays, kills = replays + 1, kills + len(wanted)
                if wanted != found:
                    differing.append(
                        f"{what}, tick {tick // MS} ms: {difference(rulesets, wanted, found)}"
                    )
    return Found(sum(map(len, rules)), replays, kills, differing)


def total(parts: Iterator[Found]) -> Found:
    """Adds up the results of all parts."""
    found = list(parts)
    rulesets, replays = sum(it.rulesets for it in found), sum(it.replays for it in found)
    differing = [line for it in found for line in it.differing]
    return Found(rulesets, replays, sum(it.kills for it in found), differing)


def random_traces(program: str, numbers: range, count: int) -> Iterator[Found]:
    """Compares the random traces with these numbers. Each is replayed with `count` random rules
    files, with ticks of one and of two windows.
    """
    makers: tuple[Callable[[int, int], Maker], ...] = (whatif().Load, Maker, Settled)
    for number in numbers:
        draw = random.Random(number)
        maker = makers[number % 3](number, 1 + draw.randrange(2))
        trace, window = maker.trace(), window_of(maker, number)
        other, _ = folded(trace, window)
        rules = [whatif().some_rules(draw) for _ in range(count)]
        ticks = [tick for tick in (window, 2 * window) if tick <= 60 * SECOND]
        yield compare(program, f"random trace {number}", (trace, other), rules, ticks)


# ---------------------------------------------------------------- recordings


def patterns_of(trace: str, draw: random.Random) -> str:
    """Returns a random `cgroup` argument, whose patterns match some of the trace's groups."""
    groups = [line.split(" ")[2] for line in trace.splitlines() if " group " in line] or ["/"]
    some = draw.sample(groups, min(len(groups), draw.randint(1, 3)))
    return draw.choice(
        ("*", "*/*", "*,*/*", "*/*,*/*/*", ",".join(some),
         some[0].rpartition("/")[0].lstrip("/") + "/*" if "/" in some[0][1:] else "*")
    )


def rules_of(trace: str, draw: random.Random) -> list[Any]:
    """Returns random rules about the groups of a recording's trace."""
    rules = whatif().some_rules(draw)
    for ruleset in rules:
        for group in ruleset["detectors"]:
            for detector in group[1:]:
                if "cgroup" in detector["args"]:
                    detector["args"]["cgroup"] = patterns_of(trace, draw)
                if "threshold" in detector["args"]:
                    detector["args"]["threshold"] = str(draw.choice((0, 0, 1, 5)))
        for action in ruleset["actions"]:
            action["args"]["cgroup"] = patterns_of(trace, draw)
    return list(rules)


def pair_of(name: str) -> tuple[bytes, bytes]:
    """Returns a trace, and the same trace folded into windows of one second. `name` is a stored
    recording, the folder of a recording, or a trace file.
    """
    if os.path.isdir(name):
        return both_of_folder(name)
    if not os.path.exists(name):
        return both_of(name)
    with open(name, "rb") as file:
        plain = file.read()
    return plain, tool("fold", "-", "--window=1", stdin=plain).output


def recordings(
    program: str, names: list[str], count: int, windows: tuple[int, ...] = (1,)
) -> Iterator[Found]:
    """Compares recordings that are folded into windows of these lengths (s). Each is replayed with
    `count` random rules files, with ticks of one and of two windows. A name is a stored recording,
    a folder or a file.
    """
    for name in names:
        plain, folded_trace = pair_of(name)
        rules, draw = [], random.Random(name)
        for _ in range(count):
            rules.append(rules_of(plain.decode(), draw))
        for window in windows:
            if window > 1:
                folded_trace = tool("fold", "-", f"--window={window}", stdin=plain).output
            ticks = [window * SECOND, 2 * window * SECOND]
            what = f"{name}, windows of {window} s"
            yield compare(program, what, (plain.decode(), folded_trace.decode()), rules, ticks)


def stored() -> list[str]:
    """Returns the names of all stored recordings, including stored ftrace texts."""
    return [*names_of(FOLDERS), *names_of(TEXTS)]


# ---------------------------------------------------------------- checks for the merge gate


def check_kills_by_random_rules(program: str) -> None:
    """Random rules kill the same groups at the same ticks in a trace and in the folded trace. The
    traces are random ones and a recording whose groups are created and removed.
    """
    found = total(random_traces(program, range(TRACES), RULES))
    must_be("kill lines that differ", found.differing, [])
    must(found.kills > TRACES, f"there are kills: {found.kills}")
    found = total(recordings(program, ["cg-2"], 5))
    must_be("kill lines that differ, in cg-2", found.differing, [])
    must(found.kills > 5, f"there are kills of cg-2: {found.kills}")
