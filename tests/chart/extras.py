"""Checks of optional parts of a chart: names and thresholds of rules, memory of groups, and
interrupts.
"""
from __future__ import annotations

import json
import tempfile
from typing import Any, Sequence

from chart.near import NEAR, must_be_near
from harness import must, must_be
from chart.memory import SECOND, rules_of
from shared.outputs import run, story

from .boxes import must_fit
from .drawn import (
    LEFT, RIGHT, SVG, Drawn, Element, compare, compare_paths, drawn_of, inner, number_at,
)
from shared.printed import AVERAGES, Printed


NAME = "batch work is short of memory"


def pressure(cgroup: str, threshold: Any, **others: Any) -> dict[str, Any]:
    """Returns a pressure detector: pressure_rising_beyond if `rises` is true, and pressure_above if
    not. The other keyword arguments replace or add arguments of the detector.
    """
    name = "pressure_rising_beyond" if others.pop("rises", False) else "pressure_above"
    return {
        "name": name,
        "args": {
            "cgroup": cgroup, "resource": "memory", "threshold": threshold, "duration": 20, **others
        },
    }


def drawn_with(printed: bytes, rules: dict[str, Any], *words: str) -> Drawn:
    """Returns the chart of `printed`, drawn with a rules file that contains `rules`."""
    with tempfile.NamedTemporaryFile("w", suffix=".json") as file:
        json.dump(rules, file)
        file.flush()
        return Drawn(drawn_of(printed, "--rules", file.name, *words))


def without_kill(program: str) -> bytes:
    """Returns the output of the example's replay without its kill line. Charts with other rules
    need it, since those rules lack the ruleset that killed.
    """
    return b"".join(
        line for line in story(program).splitlines(keepends=True) if not line.startswith(b"kill")
    )


def must_have_rules(drawn: Drawn, number: int, wanted: Sequence[tuple[str, float, str]]) -> None:
    """Fails unless a group's memory panel has exactly these thresholds. Each has a class, a
    percentage and a text.
    """
    found = list(drawn.rules(drawn.panel("memory", number)))
    must_be("thresholds", [(look, text) for look, _, text in found],
            [(look, text) for look, _, text in wanted])
    share = drawn.share_scale("memory", number)
    must_be_near("their heights", [(y,) for _, y, _ in found],
                 [(share(percent),) for _, percent, _ in wanted])
    _, top = drawn.numbers(drawn.panel("memory", number))[-1]
    must(all(y >= top - NEAR for _, y, _ in found), "they stand within the panel")


def check_names_of_rulesets(program: str) -> None:
    drawn = Drawn(drawn_of(story(program), "--group=/batch", "--rules=examples/runaway.json"))
    compare(Printed(story(program)), drawn, ["/batch"])
    path = "/batch/import would be killed"
    who = f"ruleset 0 '{NAME}', action 0 kill_by_memory_size_or_growth"
    must_be("what is told of the kill", drawn.hints("kill"), [[f"{path} at 146 s by {who}"]])
    must_be("what stands beside it", drawn.mark_texts("kill"), [[f"{path} at 146 s"]])
    must_be("the title", drawn.title, f"Pressure of /batch, 5 min, 1 would-be kill by '{NAME}'")
    early = Drawn(
        drawn_of(story(program), "--group=/batch", "--rules=examples/runaway.json", "--from=140")
    )
    must_be("what stands beside it where there is room", early.mark_texts("kill"),
            [[f"{path} at 146 s by '{NAME}'"]])


def check_names_of_several_rulesets(program: str) -> None:
    """The title has the number of rulesets. Each kill is labelled with the name of its ruleset if
    there is room.
    """
    lines = [
        b"kill %d000000000 ruleset=%d action=0 /batch/import\n" % (100 + 50 * it, it)
        for it in range(2)
    ]
    printed = b"".join(lines) + without_kill(program).replace(b"kills=1", b"kills=2")
    rules = {"rulesets": rules_of(name="one")["rulesets"] + rules_of(name="other")["rulesets"]}
    drawn = drawn_with(printed, rules)
    must_be("the title", drawn.title, "Pressure of /, 5 min, 2 would-be kills by 2 rulesets")
    texts = [
        [f"/batch/import would be killed at {seconds} s by '{name}'"]
        for seconds, name in ((100, "one"), (150, "other"))
    ]
    must_be("what stands beside them", drawn.mark_texts("kill"), texts)


def check_names_that_a_picture_cannot_have(program: str) -> None:
    """A ruleset's name with control characters or XML markup is shown with replacement characters.
    Even if it is longer than the available room, it overlaps no other text.
    """
    name = 'a\x00b\x1b<&"\ufffe' + "long " * 60
    rules = rules_of(pressure("*", "40"), name=name)
    drawn = drawn_with(story(program), rules, "--group=/batch")
    shown = name.replace("\x00", "\ufffd").replace("\x1b", "\ufffd").replace("\ufffe", "\ufffd")
    must(shown in drawn.hints("kill")[0][0], f"{drawn.hints('kill')} has the name")
    must_have_rules(drawn, 0, [("avg10", 40, f"full over 10 s above 40 % for 20 s: {shown}")])
    compare_paths(drawn)


def check_thresholds(program: str) -> None:
    """A threshold is drawn in the panels of the groups and of the resource that its detector
    watches, and in no other panel.
    """
    detectors = (
        pressure("/web,batch/*", "90"), pressure("b*tch", 35, rises=True),
        pressure("b*x,b,batch/*m*rt", "7"),
        pressure("*/*", "50", resource="io"), pressure("/batch/import/x,/", "12", duration="0"),
    )  # fmt: skip
    groups = ("/", "/web", "/batch", "/batch/import")
    drawn = drawn_with(without_kill(program), rules_of(*detectors),
                       *(f"--group={it}" for it in groups))
    compare(Printed(without_kill(program)), drawn, groups)
    high = ("avg10", 90.0, "full over 10 s above 90 % for 20 s: R")
    must_have_rules(drawn, 0, [("avg10", 12, "full over 10 s above 12 %: R")])
    must_have_rules(drawn, 1, [high])
    must_have_rules(drawn, 2,
                    [("avg60", 35, "full over 60 s and over 10 s above 35 % for 20 s: R")])
    must_have_rules(drawn, 3, [high, ("avg10", 7, "full over 10 s above 7 % for 20 s: R")])
    of_io = [[text for _, _, text in drawn.rules(drawn.panel("io", it))] for it in range(4)]
    must_be("thresholds of IO", of_io, [[], [], [], ["full over 10 s above 50 % for 20 s: R"]])
    low = drawn_with(without_kill(program), rules_of(*detectors), "--group=/web")
    must_have_rules(low, 0, [high])
    must_be("thresholds of CPU", [list(drawn.rules(drawn.panel("cpu", it))) for it in range(4)],
            [[]] * 4)


def check_thresholds_that_are_near(program: str) -> None:
    """Equal thresholds share a label. Labels of thresholds that are close together don't overlap.
    """
    detectors = [pressure("batch", str(it)) for it in (40, 40, 41, 42, 43, 44)]
    rules = rules_of(*detectors)
    rules["rulesets"] += rules_of(pressure("batch", 40), name="S")["rulesets"]
    drawn = drawn_with(without_kill(program), rules, "--group=/batch")
    label = "full over 10 s above {} % for 20 s: R"
    both = f"{label.format(40)}; full over 10 s above 40 % for 20 s: S"
    must_have_rules(
        drawn, 0,
        [("avg10", it, label.format(it)) for it in (44, 43, 42, 41)] + [("avg10", 40, both)],
    )
    notes = drawn.all("text", "note", drawn.panel("memory"))
    places = [(it.get("text-anchor"), float(it.get("y") or 0)) for it in notes]
    must(0 < len(places) < 5, "some texts have room, and some haven't")
    for side in ("start", "end"):
        heights = sorted(y for anchor, y in places if anchor == side)
        must(all(b - a >= 11 for a, b in zip(heights, heights[1:])),
             f"texts at the {side} stand apart: {heights}")


def boxes_of(panel: Element) -> list[tuple[str, float, float, float, float]]:
    """Returns the text of each threshold label with its left, right, top and bottom edges (pixels).
    Letters in a font of 11 pixels are 6 pixels wide on average.
    """
    found = []
    for it in panel.iter(f"{SVG}text"):
        if it.get("class") == "note":
            text, x, y = it.text or "", number_at(it, "x"), number_at(it, "y")
            width = 6 * len(text)
            left = x - {
                "start": 0, "middle": width / 2, "end": width
            }[it.get("text-anchor") or "start"]
            found.append((text, left, left + width, y - 9, y + 2))
    return found


def check_labels_cover_nothing(program: str) -> None:
    """The label of a threshold is inside its panel, below the panel's title, and no curve crosses
    it.
    """
    shown = 0
    for limit in range(0, 101, 20):
        for group in ("/batch", "/batch/import", "/web"):
            rules = rules_of(pressure(group, str(limit)),
                             pressure(group, str(min(100, limit + 5)), rises=True),
                             name="a long name")
            panel = (
                drawn := drawn_with(
                    without_kill(program), rules, f"--group={group}", "--resource=memory"
                )
            ).panel("memory")
            (_, low), *_, (_, high) = drawn.numbers(panel)
            curves = [
                drawn.lines(panel, f"{level} {average}")
                for level in ("some", "full")
                for average in AVERAGES
            ]
            for text, left, right, top, bottom in boxes_of(panel):
                shown += 1
                must(LEFT <= left and right <= RIGHT and high <= top and bottom <= low,
                     f"{text} at {limit} % is in the panel")
                for (x, y), (end, level) in (
                    pair for lines in curves for line in lines for pair in zip(line, line[1:])
                ):
                    steps = [
                        (x + (end - x) * part / 16, y + (level - y) * part / 16)
                        for part in range(17)
                    ]
                    is_over = any(
                        left <= one <= right and top <= other <= bottom for one, other in steps
                    )
                    must(not is_over, f"a curve of {group} goes through {text} at {limit} %")
    must(shown > 15, f"there are labels: {shown}")


# Groups with long names that differ only in the last character, and a trace and rules for them.
CUSTOMER = "/customers.slice/a-long-name-of-a-customer-and-a-namespace.slice"
LONG_NAMES = (f"{CUSTOMER}/kubepods-burstable-pod4fd3c2b1.slice",
              f"{CUSTOMER}/kubepods-burstable-pod4fd3c2b2.slice")
LONG_TRACE = "\n".join([
    "psitrace 1 cpus=1", "0 host 1073741824 0 0", "0 group /customers.slice", f"0 group {CUSTOMER}",
    *(f"0 group {it}" for it in LONG_NAMES),
    *(f"0 fork {number} {it} 0" for number, it in enumerate(LONG_NAMES, 1)),
    *(f"0 trigger {it} memory some 100000 1000000" for it in LONG_NAMES), "0 switch 0 1 idle",
    "0 stall 1",
    *(f"1000000000 mem {it} 1073741824 1048576 0" for it in LONG_NAMES),
    "50000000000 switch 0 2 iowait", "50000000000 stall 2",
    "70000000000 end", "",
])  # fmt: skip


def check_texts_fit(program: str) -> None:
    """No text leaves the picture or covers another text, however long the names are."""
    rules = rules_of(name="a ruleset whose name says all that it does, when, and why")
    action = {"name": "kill_by_memory_size_or_growth", "args": {"cgroup": "*/*/*"}}
    rules["rulesets"][0].update(detectors=[["stalls", pressure("*/*/*", "20")]], actions=[action])
    with tempfile.TemporaryDirectory() as folder:
        trace, file = f"{folder}/long.trace", f"{folder}/rules.json"
        with open(trace, "w", encoding="ascii") as text, open(file, "w", encoding="ascii") as other:
            text.write(LONG_TRACE)
            json.dump(rules, other)
        printed = run([program, "replay", trace, "--rules", file, "--report-s", "2"])
        must(b"kill " in printed and b"event " in printed, "there are kills and events")
        for number in (1, 2, 3, 4):
            for words in ((), ("--start=2026-11-28T13:58:12Z",)):
                drawn = Drawn(
                    drawn_of(
                        printed, f"--top={number}", f"--trace={trace}", f"--rules={file}", *words
                    )
                )
                must_fit(f"--top={number} {words}", drawn.svg)
    must_fit("the story",
             Drawn(drawn_of(story(program), "--top=3", "--rules=examples/runaway.json")).svg)


def check_interrupts_of_a_replay(program: str) -> None:
    """The last panel shows the interrupts of each group, if the trace has version 2."""
    words = ["replay", "examples/kernel/42-v2-irq.trace", "--report-s=2"]
    printed = Printed(run([program, *words]))
    for group in ("/", "/a"):
        drawn = Drawn(drawn_of(run([program, *words]), "--group", group))
        must_be("panels", drawn.panel_names(),
                [f"{it} pressure" for it in ("IO", "memory", "CPU", "interrupt")])
        compare(printed, drawn, [group])
        share = drawn.share_scale("irq")
        for average in AVERAGES:
            shares = printed.shares[group, "irq", "full", average]
            must_be("reports of interrupts", [time_ns // SECOND for time_ns, _ in shares],
                    [2, 4, 6])
            (points,) = drawn.lines(drawn.panel("irq"), f"full {average}")
            must_be_near(f"interrupts {average}", points,
                         [(drawn.x(time_ns), share(it)) for time_ns, it in shares])


def check_interrupts(_: str) -> None:
    """If the replay's output has interrupt pressure of a drawn group, the chart has an additional
    panel. Its curves show only `full`.
    """
    file = "full avg10=9.05 avg60=1.63 avg300=0.34 total=1000000\n"
    none = "avg10=0.00 avg60=0.00 avg300=0.00 total=0\n"
    others = "".join(
        f"report 2000000000 / {it}\nsome {none}full {none}" for it in ("io", "memory", "cpu")
    )
    end = "end 2000000000 ticks=1 events=0 kills=0\n"
    text = f"{others}report 2000000000 / irq\n{file}{end}".encode()
    printed = Printed(text)
    for words, names in (
        ("", ["IO", "memory", "CPU", "interrupt"]), ("--resource=irq", ["interrupt"])
    ):
        drawn = Drawn(drawn_of(text, *words.split()))
        must_be("panels", drawn.panel_names(), [f"{it} pressure" for it in names])
        share = drawn.share_scale("irq")
        for average in AVERAGES:
            shares = printed.shares["/", "irq", "full", average]
            (points,) = drawn.lines(drawn.panel("irq"), f"full {average}")
            must_be_near(f"interrupts {average}", points,
                         [(drawn.x(time_ns), share(it)) for time_ns, it in shares])
            must_be("lines of some", drawn.lines(drawn.panel("irq"), f"some {average}"), [])
    plain = Drawn(drawn_of(f"{others}{end}".encode()))
    must_be("panels without them", plain.panel_names(),
            ["IO pressure", "memory pressure", "CPU pressure"])
    must_be("what is told of the panel", inner(plain.panel("io"), "text").text, "IO pressure")
