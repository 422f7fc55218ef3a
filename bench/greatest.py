"""Generates an hour-long trace with the largest allowed number of processors, groups, tasks and
triggers, and rules that take the most work to evaluate.
"""
from __future__ import annotations

import json
import random
from collections.abc import Iterator

from make_trace import Machine, group_paths

HOUR = 3600 * 10**9
# A detector or an action of a rules file: its name and its arguments.
Plugin = dict[str, "str | dict[str, str]"]


def patterns() -> str:
    """Returns a `cgroup` argument with the largest allowed number of patterns. They match the
    groups of each depth from 1 to 16.
    """
    return ",".join("/".join(["*"] * depth) for depth in range(1, 17))


def greatest_rules() -> str:
    """Returns a rules file with 64 rulesets of 16 detectors and 16 actions each. Each evaluation
    runs all of them. One action of each ruleset has 16 patterns.
    """
    detectors: list[Plugin] = [
        {
            "name": "pressure_above",
            "args": {"cgroup": "*,*/*", "resource": "io", "threshold": "10", "duration": "10"},
        },
        {"name": "memory_above", "args": {"cgroup": "*,*/*", "threshold": "1%", "duration": "10"}},
        {"name": "memory_reclaim", "args": {"cgroup": "*,*/*", "duration": "10"}},
        {"name": "exists", "args": {"cgroup": "*"}},
    ]
    kinds: list[tuple[str, dict[str, str]]] = [
        ("kill_by_memory_size_or_growth", {}),
        ("kill_by_swap_usage", {"threshold": "0"}),
        ("kill_by_pressure", {"resource": "io"}),
        ("kill_by_pg_scan", {}),
    ]
    shared = {
        "cgroup": "*", "recursive": "true", "always_continue": "true", "post_action_delay": "0"
    }
    actions: list[Plugin] = [{"name": name, "args": {**args, **shared}} for name, args in kinds * 4]
    actions[0] = {"name": kinds[0][0], "args": {**shared, "cgroup": patterns()}}
    groups: list[list[object]] = [[f"group {number}", *detectors] for number in range(3)]
    groups.append(["true", *[detectors[3]] * 4])
    ruleset = {"name": "all", "detectors": groups, "actions": actions}
    return json.dumps({"rulesets": [ruleset] * 64}, separators=(",", ":"))


def greatest_lines(events: int) -> Iterator[str]:
    """Yields the lines of a trace of an hour with 64 processors, 1,024 groups in up to 32 levels,
    65,536 tasks and 256 triggers. `events` is the number of lines after the initial state.
    """
    draw = random.Random(1)
    paths, homes = group_paths(1023, 32)
    machine = Machine(draw, 64, 65536, homes)
    yield "psitrace 1 cpus=64"
    yield f"0 host {1 << 40} {1 << 36} {1 << 34}"
    for path in paths:
        yield f"0 group {path}"
        yield f"0 mem {path} {draw.randrange(1 << 30)} {draw.randrange(1 << 20)} 0"
    for number in range(256):
        res, level = ["io", "memory", "cpu"][number % 3], ["some", "full"][number % 2]
        yield f"0 trigger {paths[4 * number - 1]} {res} {level} {100000 + number} 2000000"
    for pid in range(1, 65537):
        yield f"0 {machine.fork(pid)}"
    for number in range(events):
        yield f"{HOUR * number // events} {machine.line(65536)}"
    yield f"{HOUR} end"
