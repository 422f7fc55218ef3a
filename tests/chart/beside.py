"""Checks of charts that compare two runs: the recorded one, and a supposed one in which the killed
tasks are missing.
"""
from __future__ import annotations

import functools
import os
import tempfile

from chart.near import must_be_near
from harness import must, must_be
from shared.outputs import RUNAWAY, run, story
from shared.program import TOP
from shared.plain_whatif import kills_of, trace_of, without

from .drawn import RIGHT, SVG, Drawn, compare, drawn_of, number_at
from .faults import chart_fault, must_say
from shared.printed import AVERAGES, LEVELS, RESOURCES, Printed

KILL = 146 * 10**9
SHADED = "after the first kill: others as recorded"


@functools.lru_cache(maxsize=None)
def supposed(program: str) -> bytes:
    """Returns the output of a replay of the example trace without the tasks of its victim."""
    (kill,) = kills_of(story(program).decode())
    with open(os.path.join(TOP, "examples", "runaway.trace"), encoding="ascii") as file:
        remaining = without(trace_of(file.read()), kill)
    return run([program, "replay", "-", *RUNAWAY[2:]], remaining.text().encode())


def drawn_beside(printed: bytes, recorded: bytes, *words: str) -> Drawn:
    """Returns the chart of `printed`, compared with the recorded output."""
    with tempfile.NamedTemporaryFile() as file:
        file.write(recorded)
        file.flush()
        return Drawn(drawn_of(printed, "--beside", file.name, *words))


def compare_recorded(drawn: Drawn, printed: Printed, group: str, number: int) -> None:
    """Fails unless the thin lines in a group's panels show exactly the recorded reports. `number`
    is the group's index among the panels of a resource.
    """
    for resource in RESOURCES:
        panel, share = drawn.panel(resource, number), drawn.share_scale(resource, number)
        for level in LEVELS:
            for average in AVERAGES:
                points = [
                    point for line in drawn.lines(panel, f"{level} {average} was") for point in line
                ]
                wanted = [
                    (drawn.x(time_ns), share(it))
                    for time_ns, it in printed.shares[group, resource, level, average]
                ]
                must_be_near(f"{resource} {level} {average} of {group} as recorded", points, wanted)


def must_be_shaded(drawn: Drawn, time_ns: int) -> None:
    """Fails unless each panel is shaded exactly from this time (ns) to its right end."""
    shades = list(drawn.one("g", "shade").iter(f"{SVG}rect"))
    panels = drawn.panels()
    must_be("shades, how many", len(shades), len(panels))
    for shade, panel in zip(shades, panels):
        left, width, top, height = (
            number_at(shade, name) for name in ("x", "width", "y", "height")
        )
        numbers = [place for _, place in drawn.numbers(panel)]
        wanted = (drawn.x(time_ns), RIGHT, numbers[-1], numbers[0])
        must_be_near("a shade", [(left, left + width, top, top + height)], [wanted])


def check_beside_what_was(program: str) -> None:
    groups = ["/batch", "/web"]
    drawn = drawn_beside(supposed(program), story(program), *(f"--group={it}" for it in groups))
    compare(Printed(supposed(program)), drawn, groups)
    for number, group in enumerate(groups):
        compare_recorded(drawn, Printed(story(program)), group, number)
    must_be_shaded(drawn, KILL)
    texts = [
        text
        for legend in ("legend", "legend beside")
        for text in drawn.texts(drawn.one("g", legend))
    ]
    for text in (
        "thin: as recorded", "thick: without the tasks of who would be killed", SHADED,
        "would be killed",
    ):
        must_be(f"how often the legend has {text!r}", texts.count(text), 1)
    counts = {text for panel in drawn.panels() for text in drawn.texts(panel) if "event" in text}
    must_be("numbers of events", counts, {"13 events", "26 events, was 67", "no events"})


def check_scales_reach_up_to_both(program: str) -> None:
    """An axis reaches the highest value of both runs, the recorded and the supposed one."""
    for printed, recorded in (
        (supposed(program), story(program)), (story(program), supposed(program))
    ):
        drawn = drawn_beside(printed, recorded, "--group=/batch")
        for resource in RESOURCES:
            _, top = drawn.numbers(drawn.panel(resource))[-1]
            points = drawn.panel(resource).iter(f"{SVG}polyline")
            heights = [
                float(it.split(",")[1])
                for line in points
                for it in (line.get("points") or "").split(" ")
            ]
            must(min(heights) >= top - 0.01,
                 f"{resource}: {min(heights)} is below the top at {top}")


def check_a_part_beside_what_was(program: str) -> None:
    """The shaded area begins at the first kill, or at the chart's start if the kill is earlier. A
    chart that ends before the first kill has no shaded area.
    """
    words = ["--group=/batch", "--resource=memory"]
    later = drawn_beside(supposed(program), story(program), *words, "--from=200")
    must_be_shaded(later, 200 * 10**9)
    before = drawn_beside(supposed(program), story(program), *words, "--to=146")
    must_be("shades before the kill", before.all("g", "shade"), [])
    plain = Drawn(drawn_of(supposed(program), *words))
    for name in ("shade", "legend beside"):
        must_be(f"{name} of one replay alone", plain.all("g", name), [])
    must_be("thin lines of one replay alone",
            [it for it in plain.svg.iter() if (it.get("class") or "").endswith(" was")], [])


def check_no_kill_beside_what_was(program: str) -> None:
    printed = run([program, "replay", "examples/io-trigger.trace"])
    drawn = drawn_beside(printed, printed, "--group=/web")
    must_be("shades", drawn.all("g", "shade"), [])
    compare_recorded(drawn, Printed(printed), "/web", 0)


def check_the_example_beside_what_was(program: str) -> None:
    words = ["--group=/batch", "--resource=memory", "--rules=examples/runaway.json"]
    printed = run([program, "whatif", *RUNAWAY[1:]])
    must_be("what would have been", printed == supposed(program), True)
    with tempfile.NamedTemporaryFile() as file, open(
        f"{TOP}/examples/runaway-whatif.svg", "rb"
    ) as example:
        file.write(story(program))
        file.flush()
        must(example.read() == drawn_of(printed, "--beside", file.name, *words),
             "examples/runaway-whatif.svg is that chart")


def check_what_was_and_cannot_be_read(program: str) -> None:
    printed = supposed(program)
    must_be("no file", chart_fault(printed, "--beside=/nowhere"), "chart: no file: /nowhere\n")
    must_be("a folder", chart_fault(printed, "--beside=tests"), "chart: tests: Is a directory\n")
    said = chart_fault(printed, "--beside=examples/runaway.json")
    must_say(
        said,
        "examples/runaway.json: the input: it is JSON, like a rules file, not the output of replay",
    )
    must_say(chart_fault(printed, "--beside"), "usage: chart ")
    with tempfile.NamedTemporaryFile() as file:
        file.write(run([program, "replay", "examples/one-wait.trace"]))
        file.flush()
        other = f"{file.name} has 1 ticks up to 2 s, and the standard input 150 ticks up to 300 s"
        said = chart_fault(printed, "--beside", file.name)
        must_be("another trace", said,
                f"chart: {other}: give two of one trace and of one --tick-ms\n")
