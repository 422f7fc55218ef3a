"""Checks that charts show everything that was printed, at the right place."""
from __future__ import annotations

import collections
import random
import re
import tempfile

from chart.near import NEAR, must_be_near
from harness import must, must_be
from shared.outputs import RUNAWAY, run, story
from shared.program import TOP

from .drawn import SVG, Drawn, compare, compare_paths, drawn_of, inner, piped
from shared.printed import AVERAGES, LEVELS, RESOURCES, Printed

ODD = r"/-\x2d@a:b.c"
ODD_TRACE = rf"""psitrace 1 cpus=1
0 group {ODD}
0 fork 1 {ODD} 0
0 trigger {ODD} cpu some 500000 2000000
12000000000 end
"""
ODD_RULES = """{"rulesets":[{"name":"all","post_action_delay":"4",
"detectors":[["always",{"name":"exists","args":{"cgroup":"*"}}]],
"actions":[{"name":"kill_by_memory_size_or_growth","args":{"cgroup":"*"}}]}]}"""
COMES_AGAIN = """psitrace 1 cpus=1
0 group /a
9000000000 rmgroup /a
21000000000 group /a
30000000000 end
"""


def check_each_group_of_the_story(program: str) -> None:
    printed = Printed(story(program))
    must(len(printed.kills) == 1 and len(printed.events) == 3,
         "the story has a kill and three triggers that signal")
    for group in ("/", "/batch", "/batch/import"):
        drawn = Drawn(drawn_of(story(program), "--group", group))
        compare(printed, drawn, [group])
        must_be("the title", drawn.title, f"Pressure of {group}, 5 min, 1 would-be kill")
    must_be("the root is drawn if none is named", drawn_of(story(program)),
            drawn_of(story(program), "--group", "/"))


def check_the_example_is_what_comes(program: str) -> None:
    words = ["--group", "/batch", "--rules", "examples/runaway.json"]
    with open(f"{TOP}/examples/runaway.svg", "rb") as file:
        must(file.read() == drawn_of(story(program), *words),
             "examples/runaway.svg is the story's chart")
    with open(f"{TOP}/examples/runaway.trace", "rb") as file:
        must(file.read() == run([f"{TOP}/examples/make_runaway.py"]),
             "examples/make_runaway.py prints the story")


def check_a_part(program: str) -> None:
    printed = Printed(story(program))
    words = ["--group=/batch", "--resource=memory", "--from=100.5", "--to", "150"]
    drawn = Drawn(drawn_of(story(program), *words))
    compare(printed, drawn, ["/batch"], ["memory"], 100500000000, 150000000000)
    must_be("panels", [it.get("class") for it in drawn.panels()], ["panel memory"])
    must_be_near("its start and its end", [(drawn.x(100500000000),), (drawn.x(150000000000),)],
                 [(112,), (936,)])
    compare(printed, Drawn(drawn_of(story(program), "--to=999999")), ["/"])
    later = Drawn(drawn_of(story(program), "--from=200"))
    must_be("kills after the last", later.marks("kill"), [])
    must_be("the title of all the same", later.title, "Pressure of /, 5 min, 1 would-be kill")


def check_several_groups(program: str) -> None:
    printed = Printed(story(program))
    groups = ["/web", "/batch/index", "/"]
    drawn = Drawn(drawn_of(story(program), *(f"--group={it}" for it in (*groups, "/web"))))
    compare(printed, drawn, groups)
    must_be("the title", drawn.title,
            "Pressure of /web, /batch/index and /, 5 min, 1 would-be kill")
    named = [f"{what} pressure of {group}" for what in ("IO", "memory", "CPU") for group in groups]
    must_be("the names of panels", drawn.panel_names(), named)
    for resource in RESOURCES:
        scales = {
            tuple(text for text, _ in drawn.numbers(it))
            for it in drawn.all("g", f"panel {resource}")
        }
        # The axis of a panel without pressure ends at 1 %.
        must_be(f"scales of {resource}, how many", len(scales - {("0 %", "1 %")}), 1)
    four = Drawn(
        drawn_of(
            story(program), "--group=/", "--group=/web", "--group=/batch", "--group=/batch/index"
        )
    )
    must_be("the title of four groups", four.title, "Pressure of 4 groups, 5 min, 1 would-be kill")


def check_an_odd_path(program: str) -> None:
    with tempfile.NamedTemporaryFile("w", suffix=".json") as rules:
        rules.write(ODD_RULES)
        rules.flush()
        words = [program, "replay", "-", "--report-s", "1", "--rules", rules.name]
        printed = Printed(run(words, ODD_TRACE.encode()))
        drawn = Drawn(piped(words, ["--group", ODD], ODD_TRACE.encode()))
    must_be("kills", printed.kills, [(6 * 10**9, ODD), (10 * 10**9, ODD)])
    compare(printed, drawn, [ODD])
    must_be("the title", drawn.title, f"Pressure of {ODD}, 12 s, 2 would-be kills")


def check_a_group_that_ends_and_comes_again(program: str) -> None:
    words = [program, "replay", "-", "--report-s", "1"]
    printed = Printed(run(words, COMES_AGAIN.encode()))
    drawn = Drawn(piped(words, ["--group", "/a"], COMES_AGAIN.encode()))
    compare(printed, drawn, ["/a"])
    lives = [len(line) for line in drawn.lines(drawn.panel("io"), "some avg10")]
    must_be("reports of each life", lives, [4, 5])
    must_be_near("its end", [(it,) for it in drawn.places("gone")], [(drawn.x(10 * 10**9),)])
    must_be("what is told of its end", drawn.mark_texts("gone"), [["/a was gone by 10 s"]])
    whole = Drawn(piped(words, [], COMES_AGAIN.encode()))
    must_be("the root's reports",
            [len(line) for line in whole.lines(whole.panel("io"), "some avg10")], [15])
    must_be("ends of other groups", whole.marks("gone"), [])


def check_the_end_of_a_killed_group(program: str) -> None:
    drawn = Drawn(drawn_of(story(program), "--group", "/batch"))
    must_be_near("the end of the import", [(it,) for it in drawn.places("gone")],
                 [(drawn.x(222 * 10**9),)])
    must_be("what is told of it", drawn.hints("gone"), [["/batch/import was gone by 222 s"]])
    must_be("ends before it", Drawn(drawn_of(story(program), "--to", "221")).marks("gone"), [])


def check_what_would_be_killed(program: str) -> None:
    drawn = Drawn(drawn_of(story(program)))
    path = "/batch/import would be killed"
    must_be("what is told of a kill", drawn.hints("kill"),
            [[f"{path} at 146 s by ruleset 0, action 0"]])
    must_be("what stands beside it", drawn.mark_texts("kill"),
            [[f"{path} at 146 s by ruleset 0, action 0"]])
    must("would be killed" in drawn.texts(drawn.one("g", "legend")),
         "the legend says that a kill would be one")
    crowded = b"".join(
        b"kill %d ruleset=0 action=0 /a\n" % (second * 10**9) for second in range(100, 200)
    )
    printed = story(program).replace(
        b"kill 146000000000 ruleset=0 action=0 /batch/import\n", crowded
    )
    short = Drawn(drawn_of(printed))
    must_be("paths alone, where there is no room for more",
            {it[0] for it in short.mark_texts("kill") if it}, {"/a"})
    compare_paths(short)


def check_live_lines_are_passed_over(program: str) -> None:
    words = [program, *RUNAWAY, "--live=/batch", "--live-count=3"]
    lives = [line for line in run(words).splitlines() if line.startswith(b"live ")]
    must_be("lines of clocks", len(lives), 150 * 2 * 3)
    must_be("a chart beside them", piped(words, ["--group=/batch"]),
            drawn_of(story(program), "--group=/batch"))


def check_one_report(program: str) -> None:
    words = [program, "replay", "examples/one-wait.trace"]
    compare(Printed(run(words)), Drawn(piped(words)), ["/"])


def check_axes_say_of_what(program: str) -> None:
    words = ["--group=/batch/import", "--trace=examples/runaway.trace"]
    drawn = Drawn(drawn_of(story(program), *words))
    must_be("panels", drawn.panel_names(),
            ["IO pressure", "memory pressure", "CPU pressure", "memory in use"])
    turned = [
        [it.text for it in panel.iter(f"{SVG}text") if it.get("transform")]
        for panel in drawn.panels()
    ]
    must_be("what the axes say", turned, [["share of time"]] * 3 + [["bytes"]])


def day() -> bytes:
    """Returns output of the form that a replay of a whole day prints, with a report each ten
    seconds.
    """
    draw = random.Random(1)
    lines = []
    for time_ns in range(10**10, 864 * 10**11 + 1, 10**10):
        if draw.random() < 0.1:
            lines += [
                f"event {time_ns} trigger=0 / {draw.choice(RESOURCES)} {draw.choice(LEVELS)} 1 "
                "500000"
            ]
        if draw.random() < 0.01:
            lines += [
                f"kill {time_ns} ruleset=0 action=0 /"
                f"{draw.choice('abc') * draw.choice((1, 20, 200))}"
            ] * 2
        for resource in RESOURCES:
            lines += [f"report {time_ns} / {resource}"]
            for level in LEVELS:
                shares = " ".join(f"{average}={draw.random() * 100:.2f}" for average in AVERAGES)
                lines += [f"{level} {shares} total=0"]
    kills = sum(line.startswith("kill") for line in lines)
    return "\n".join([*lines, f"end {864 * 10**11} ticks=43200 events=0 kills={kills}\n"]).encode()


def columns_of(drawn: Drawn, times: list[int]) -> set[int]:
    return {int(round(drawn.x(time_ns), 2)) for time_ns in times}


def ends_of_columns(points: list[tuple[float, float]]) -> dict[int, tuple[float, float]]:
    """Returns the smallest and the largest vertical position of the points in each pixel column."""
    heights = collections.defaultdict(list)
    for x, y in points:
        heights[int(round(x, 2))].append(round(y, 2))
    return {column: (min(them), max(them)) for column, them in heights.items()}


def compare_columns(printed: Printed, drawn: Drawn, resource: str, classes: str) -> None:
    """Fails unless a line shows the least and the greatest share in each pixel column, with at most
    two points for each column.
    """
    level, average = classes.split(" ")
    share = drawn.share_scale(resource)
    reports = [
        (drawn.x(time_ns), share(it)) for time_ns, it in printed.shares["/", resource, level,
                                                                        average]
    ]
    (points,) = drawn.lines(drawn.panel(resource), classes)
    found, wanted = ends_of_columns(points), ends_of_columns(reports)
    must(points == sorted(points, key=lambda point: point[0]), "time goes to the right")
    must(len(points) <= 2 * len(wanted),
         f"{len(points)} points are at most two for each of {len(wanted)} columns")
    is_near = found.keys() == wanted.keys() and all(
        abs(a - b) <= NEAR for column in wanted for a, b in zip(found[column], wanted[column])
    )
    must(is_near, f"{resource} {classes}: each column has its least and its greatest share")


def check_a_day(_: str) -> None:
    text = day()
    drawn_bytes = drawn_of(text)
    must(len(drawn_bytes) < 10**6,
         f"the chart of a day has {len(drawn_bytes)} bytes, fewer than a million")
    printed, drawn = Printed(text), Drawn(drawn_bytes)
    for resource in RESOURCES:
        for level in LEVELS:
            for average in AVERAGES:
                compare_columns(printed, drawn, resource, f"{level} {average}")
            ticks = {int(x) for x, _ in drawn.ticks(drawn.panel(resource), level)}
            must_be("columns with events", ticks,
                    columns_of(drawn, printed.events["/", resource, level]))
    must_be("the title", drawn.title, f"Pressure of /, 1 d, {len(printed.kills)} would-be kills")
    columns = columns_of(drawn, [time_ns for time_ns, _ in printed.kills])
    must_be("columns with kills", {int(place) for place in drawn.places("kill")}, columns)
    named = sum(map(bool, drawn.mark_texts("kill")))
    must(0 < named < len(columns), "some kills have room for their paths, and not all")
    compare_paths(drawn)
    bare = [kill for kill in drawn.marks("kill") if not drawn.texts(kill)]
    # A tooltip lists kills that have no text in the chart: two kills, or four kills and the number
    # of others.
    hints = [(inner(kill, "title").text or "").split("\n") for kill in bare]
    unnamed = sum(4 + int(it[4].split(" ")[1]) if len(it) > 4 else len(it) for it in hints)
    must(f">{unnamed} upright lines without a path, " in drawn.text,
         f"it is told that {unnamed} kills have no path")


def check_it_stands_alone(program: str) -> None:
    words = [
        "--group=/batch/import", "--rules=examples/runaway.json", "--trace=examples/runaway.trace"
    ]
    for drawn in (Drawn(drawn_of(story(program))), Drawn(drawn_of(story(program), *words))):
        tags = {it.tag.replace(SVG, "") for it in drawn.svg.iter()}
        must_be("what it is made of", tags,
                {"svg", "title", "style", "rect", "g", "text", "line", "polyline", "path"})
        must(not re.search(r"url\(|@import|@font-face|href|<script|\son[a-z]+=", drawn.text),
             "it loads and runs nothing")
        must("@media (prefers-color-scheme: dark)" in drawn.text, "it has dark colours")
        legend = " ".join(drawn.texts(drawn.one("g", "legend")))
        for word in ("10 s", "60 s", "300 s", "some", "full", "killed"):
            must(word in legend, f"the legend has {word}")
        has_events = any(
            re.match("[0-9]+ event", text)
            for panel in drawn.panels()
            for text in drawn.texts(panel)
        )
        must_be("whether the legend has events", "trigger" in legend, has_events)


def check_what_takes_no_room(program: str) -> None:
    """A panel without pressure is low, and the legend leaves out what isn't drawn. Averages that
    only rise from 0 are drawn as thin lines, and a note says why. The trace of this check has a
    single wait for IO and no event or kill.
    """
    drawn = Drawn(
        drawn_of(
            run(
                [
                    program, "replay", "examples/one-wait.trace", "--tick-ms", "500", "--report-s",
                    "1",
                ]
            )
        )
    )
    heights = []
    for resource in RESOURCES:
        places = [place for _, place in drawn.numbers(drawn.panel(resource))]
        heights.append(max(places) - min(places))
    must(heights[0] > 4 * heights[1] and heights[1] == heights[2] > 0,
         f"the heights of io, memory, cpu: {heights}")
    legend = " ".join(drawn.texts(drawn.one("g", "legend")))
    must("trigger" not in legend and "killed" not in legend and "300 s" in legend, legend)
    said = "thin: avg10 and avg60 and avg300 only climb from 0, where the trace begins"
    must_be("panels that say so", [said in drawn.texts(drawn.panel(it)) for it in RESOURCES],
            [True, False, False])
    must_be("thin lines",
            len([it for it in drawn.svg.iter(f"{SVG}polyline") if it.get("class") == "climbing"]),
            6)
    must(
        "climbing"
        not in Drawn(drawn_of(story(program), "--group=/batch")).text.partition("</style>")[2],
        "none of the story is",
    )
