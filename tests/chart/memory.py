"""Checks of the chart's panel of memory in use, and of its thresholds."""
from __future__ import annotations

import json
import tempfile
from typing import Any

from chart.near import NEAR, must_be_near
from harness import must, must_be
from shared.outputs import run
from .drawn import LEFT, RIGHT, Drawn, drawn_of, scale_of

Steps = list[tuple[float, float]]

SECOND = 10**9
UNITS = {"bytes": 1, "KiB": 2**10, "MiB": 2**20, "GiB": 2**30, "TiB": 2**40}

# A trace of groups with and without memory samples. One group is removed, and is created again
# without a sample.
MEMORY_TRACE = """psitrace 1 cpus=1
0 host 8589934592 0 0
0 group /a
0 group /b
1000000000 mem /a 1073741824 0 0
4000000000 mem /a 3221225472 1048576 0
4000000000 mem /a 2147483648 536870912 0
8000000000 rmgroup /a
9000000000 group /a
9500000000 host 4294967296 0 0
12000000000 mem /a 1024 0 0
20000000000 end
"""


def memory(cgroup: str, threshold: str) -> dict[str, Any]:
    return {
        "name": "memory_above", "args": {"cgroup": cgroup, "threshold": threshold, "duration": "0"}
    }


def rules_of(*detectors: dict[str, Any], name: str = "R") -> dict[str, Any]:
    """Returns rules with one ruleset `name`. Each detector has a detector group of its own."""
    action = {"name": "kill_by_pressure", "args": {"cgroup": "*/*", "resource": "io"}}
    groups = [["group", {"name": "exists", "args": {"cgroup": "x"}}, it] for it in detectors]
    return {"rulesets": [{"name": name, "detectors": groups or [["none"]], "actions": [action]}]}


def drawn_memory(program: str, *words: str, trace: str = MEMORY_TRACE) -> Drawn:
    """Returns the chart of a replay of this trace, drawn with the panel of memory."""
    with tempfile.NamedTemporaryFile("w", suffix=".trace") as file:
        file.write(trace)
        file.flush()
        printed = run([program, "replay", file.name, "--report-s", "1"])
        return Drawn(drawn_of(printed, "--trace", file.name, *words))


def byte_marks(drawn: Drawn, number: int = 0) -> list[tuple[float, float]]:
    """Returns the sizes (bytes) at the axis of a group's memory panel, each with its vertical
    position.
    """
    numbers = [
        (text.partition(" "), place) for text, place in drawn.numbers(drawn.panel("use", number))
    ]
    return [(float(count) * UNITS[unit], place) for (count, _, unit), place in numbers]


def steps_of(drawn: Drawn, what: str, number: int = 0) -> list[Steps]:
    """Returns the points of a group's line for memory or swap, as seconds and GiB. The scales are
    computed from the axes.
    """
    panel = drawn.panel("use", number)
    scale = scale_of(byte_marks(drawn, number))
    place, size = scale(0), scale(1) - scale(0)
    second, left = drawn.x(SECOND) - drawn.x(0), drawn.x(0)
    lines = drawn.lines(panel, f"{what}-use")
    return [
        [((x - left) / second, (y - place) / size / UNITS["GiB"]) for x, y in line]
        for line in lines
    ]


def must_be_steps(what: str, found: list[Steps], wanted: list[Steps]) -> None:
    must_be(f"{what}, lines", len(found), len(wanted))
    for one, other in zip(found, wanted):
        must_be_near(what, one, other)


def check_memory_of_groups(program: str) -> None:
    drawn = drawn_memory(program, "--group=/a", "--group=/b")
    again: Steps = [(12, 0), (20, 0)]
    must_be_steps("memory", steps_of(drawn, "memory"),
                  [[(1, 1), (4, 1), (4, 3), (4, 2), (8, 2)], again])
    # A pixel column shows only its least and its greatest value. So the swap sample of 1 MiB at 4 s
    # isn't drawn.
    must_be_steps("swap", steps_of(drawn, "swap"), [[(1, 0), (4, 0), (4, 0.5), (8, 0.5)], again])
    must_be("a group without a sample", drawn.texts(drawn.panel("use", 1))[-1],
            "no sample of its memory in this time")
    must("swap" in drawn.texts(drawn.panel("use")), "the legend has swap where there is some")
    must("swap" not in drawn.texts(drawn.panel("use", 1)), "and hasn't where there is none")
    part = drawn_memory(program, "--group=/a", "--from=5", "--to=7")
    must_be_steps("memory of a part", steps_of(part, "memory"), [[(5, 2), (7, 2)]])
    gone = drawn_memory(program, "--group=/a", "--from=9", "--to=11")
    must_be_steps("memory between two lives", steps_of(gone, "memory"), [])


def check_thresholds_of_memory(program: str) -> None:
    """A threshold in percent refers to the machine's memory in the last host sample. A threshold in
    bytes is absolute.
    """
    detectors = (
        [memory("a", it) for it in ("1.5G", "50%", "0.5g", "4", "3000000K")] + [memory("b", "1G")]
    )
    with tempfile.NamedTemporaryFile("w", suffix=".json") as file:
        json.dump(rules_of(*detectors), file)
        file.flush()
        drawn = drawn_memory(program, "--group=/a", "--rules", file.name)
    panel = drawn.panel("use")
    marks = byte_marks(drawn)
    found = [(text, y) for _, y, text in drawn.rules(panel)]
    wanted = [
        ("3000000K", 3000000 * 1024), ("50%", 2**31), ("1.5G", 3 * 2**29), ("0.5g", 2**29), ("4", 4)
    ]
    must_be("thresholds", [text for text, _ in found],
            [f"memory above {text}: R" for text, _ in wanted])
    must_be_near("their heights", [(y,) for _, y in found],
                 [(scale_of(marks)(level),) for _, level in wanted])


def check_many_samples(program: str) -> None:
    """If a trace has a sample for each millisecond, its line has few points, but shows the least
    and the greatest value in each pixel column.
    """
    sizes = [(it * 7919) % 4096 * 2**20 for it in range(20000)]
    samples = "".join(f"{it * 10**6} mem / {size} 0 0\n" for it, size in enumerate(sizes))
    drawn = drawn_memory(program, trace=f"psitrace 1 cpus=1\n{samples}20000000000 end\n")
    (points,) = drawn.lines(drawn.panel("use"), "memory-use")
    must(len(points) <= 4 * (RIGHT - LEFT + 1),
         f"{len(points)} points are at most four in each column")
    top, bottom = min(y for _, y in points), max(y for _, y in points)
    marks = byte_marks(drawn)
    scale = scale_of(marks)
    must(abs(top - scale(max(sizes))) <= NEAR and abs(bottom - scale(min(sizes))) <= NEAR,
         "the most and the least are drawn")
    must_be_near("its end", [points[-1]], [(RIGHT, scale(sizes[-1]))])
