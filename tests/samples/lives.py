"""Checks of groups that are created, removed or created again, of gaps between samples, and of
memory samples.
"""
from __future__ import annotations

import json
import math
import re

from harness import must, must_be

from . import START, Row, csv, must_match, room_of, steady

TIMES = range(0, 121, 5)
EVENT = re.compile(r"^([0-9]+) (group|rmgroup) (/[^p].*)$", re.MULTILINE)


def events(trace: str) -> list[tuple[float, str, str]]:
    """Returns the time (s), the verb and the path of each line of a trace that creates or removes a
    group.
    """
    return [(int(at) / 1e9, verb, path) for at, verb, path in EVENT.findall(trace)]


def root() -> list[Row]:
    return steady("/", "io", TIMES, 0.1, 0.0) + steady("/", "memory", TIMES, 0.0, 0.0) + steady(
        "/", "cpu", TIMES, 0.2, 0.0
    )


def check_groups_come_and_go(program: str) -> None:
    """/new is created between 35 and 40 s, /old is removed after 60 s, and /stays exists during the
    whole trace.
    """
    new = steady("/new", "io", range(40, 121, 5), 0.5, 0.1, start=37.0)
    old, stays = steady("/old", "io", range(0, 61, 5), 0.3, 0.0), steady(
        "/stays", "io", TIMES, 0.4, 0.2, base=5000
    )
    with room_of(program) as room:
        room.file("samples", csv([*root(), *new, *old, *stays]))
        room.make("samples")
        found = [
            (at, verb, path) for at, verb, path in events(room.text("it.trace")) if path != "/stays"
        ]
        must_be("groups that come and go", [(verb, path) for _, verb, path in found],
                [("group", "/old"), ("group", "/new"), ("rmgroup", "/old")])
        times = [at for at, _, _ in found]
        must(times[0] == 0 and 34 <= times[1] < 40 and 60 <= times[2] < 62,
             f"when they do: {times}")
        totals = room.totals()
        must_match(totals, [*root(), *new, *old, *stays], creations={"/new": 37.0})
        must((64, "/old", "io") not in totals and (34, "/new", "io") not in totals,
             "they aren't there before and after")


def check_a_group_that_begins_anew(program: str) -> None:
    """If a group's total falls, or the group is missing from more than two readings, it counts as a
    new group.
    """
    first = steady("/again", "io", range(0, 41, 5), 0.5, 0.0, base=10_000_000)
    second = steady("/again", "io", range(45, 81, 5), 0.2, 0.0, start=42.0)
    third = steady("/again", "io", range(105, 121, 5), 0.3, 0.0, start=104.0)
    others = steady("/stays", "io", TIMES, 0.1, 0.0)
    with room_of(program) as room:
        room.file("samples", csv([*root(), *first, *second, *third, *others]))
        done = room.make("samples")
        verbs = [verb for _, verb, path in events(room.text("it.trace")) if path == "/again"]
        must_be("lives", verbs, ["group", "rmgroup", "group", "rmgroup", "group"])
        must("groups that were made again: 2" in done.said, f"it is said: {done.said}")
        totals = room.totals()
        must_match(totals, [*root(), *first])
        for part, start in ((second, 42.0), (third, 104.0)):
            must_match(totals, [it for it in part if it.at > start + 5],
                       creations={"/again": start})


def check_a_group_above_that_begins_anew(program: str) -> None:
    """If a parent group's total falls, its children continue as new groups."""
    above = steady("/s", "io", range(0, 61, 5), 0.3, 0.1) + steady(
        "/s", "io", range(65, 121, 5), 0.3, 0.1, start=62.0
    )
    below = steady("/s/t", "io", TIMES, 0.4, 0.2)
    with room_of(program) as room:
        room.file("samples", csv([*root(), *above, *below, *steady("/u", "io", TIMES, 0.1, 0.0)]))
        room.make("samples")
        found = [
            (verb, path) for _, verb, path in events(room.text("it.trace")) if path.startswith("/s")
        ]
        lives = [("group", "/s"), ("group", "/s/t")]
        must_be("lives", found, [*lives, ("rmgroup", "/s/t"), ("rmgroup", "/s"), *lives])
        after = [
            it._replace(
                some=it.some - 24_800_000, full=it.full - 12_400_000
            ) for it in below if it.at >= 70
        ]
        totals = room.totals()
        must_be("growth below it goes on",
                totals[120, "/s/t", "io"][0] - totals[70, "/s/t", "io"][0],
                after[-1].some - after[0].some)


def check_gaps(program: str) -> None:
    """During a gap of two minutes without samples, groups continue to exist, and their totals grow
    evenly. Even if the root's sampled totals fall, its totals in the trace don't.
    """
    times = [*range(0, 61, 5), *range(180, 241, 5)]
    found = [
        it for path in ("/", "/a") for resource in ("io", "memory", "cpu") for it in steady(
            path, resource, times, 0.25, 0.0
        )
    ]
    with room_of(program) as room:
        room.file("samples", csv(found))
        done = room.make("samples")
        must("the longest 120 s" in done.said, f"the gap is said: {done.said}")
        must_be("groups", [path for _, _, path in events(room.text("it.trace"))], ["/a"])
        totals = room.totals()
        must_match(totals, found)
        must(abs(totals[120, "/a", "io"][0] - 30_000_000) <= 2,
             f"in the gap: {totals[120, '/a', 'io']}")
        room.file(
            "samples",
            csv(
                [it for it in found if it.at <= 60]
                + [it._replace(some=it.some // 9) for it in found if it.at >= 180]
            ),
        )
        room.make("samples")
        must(room.totals()[240, "/", "io"][0] >= 15_000_000, "the root's total never falls")


def check_memory(program: str) -> None:
    """The trace has memory samples at their times. If memory changes much between two samples,
    further samples are interpolated. Rules use all of them.
    """
    sizes = [
        f"{START + at}.000,/a,mem,{100_000_000 + at * 10_000_000},0,{at * 100}" for at in TIMES
    ]
    hosts = [
        f"{START + at}.000,/,host,4000000000,1000000000,{1_000_000_000 - at * 5_000_000}"
        for at in TIMES
    ]
    rule = {
        "name": "pressure_above",
        "args": {"cgroup": "a", "resource": "io", "threshold": "10", "duration": "0"},
    }
    reclaim = {"name": "memory_reclaim", "args": {"cgroup": "a", "duration": "10"}}
    action = {"name": "kill_by_memory_size_or_growth", "args": {"cgroup": "*"}}
    ruleset = {"name": "it", "detectors": [["it", rule, reclaim]], "actions": [action]}
    groups = root() + steady("/a", "io", TIMES, 0.9, 0.8) + steady("/idle", "io", TIMES, 0, 0)
    with room_of(program) as room:
        room.file("rules.json", json.dumps({"rulesets": [ruleset]}))
        room.file("samples", csv(groups, [*sizes, *hosts]))
        room.make("samples")
        lines = [line.split() for line in room.text("it.trace").splitlines()]
        found = {
            int(it[0]) // 10**9: (int(it[3]), int(it[5]))
            for it in lines
            if it[1:3] == ["mem", "/a"]
        }
        for at in (0, 10, 60, 120):
            must_be(f"the memory at {at} s", found[at], (100_000_000 + at * 10_000_000, at * 100))
        must_be("the machine's at 60 s",
                next(it[3:] for it in lines if it[1] == "host" and it[0] == "60000000000"),
                ["1000000000", "700000000"])
        killed = room.run(
            "psi_oomd", "replay", "it.trace", "--rules=rules.json", "--report-s=0", status=0
        ).output
        must("/a\n" in killed and "kill " in killed, f"a rule on memory kills: {killed}")


def check_rules_see_idle_groups(program: str) -> None:
    """Even a group without pressure has a task, so that rules can select the group."""
    sizes = [
        f"{START + at}.000,{path},mem,{size},0,0" for at in TIMES for path, size in (
            ("/a", 1000), ("/idle", 900_000)
        )
    ]
    rule = {
        "name": "pressure_above",
        "args": {"cgroup": "a", "resource": "io", "threshold": "10", "duration": "0"},
    }
    action = {"name": "kill_by_memory_size_or_growth", "args": {"cgroup": "*"}}
    rules = str(
        {"rulesets": [{"name": "it", "detectors": [["it", rule]], "actions": [action]}]}
    ).replace("'", '"')
    with room_of(program) as room:
        room.file("rules.json", rules)
        room.file(
            "samples",
            csv(
                root() + steady("/a", "io", TIMES, 0.9, 0.8) + steady("/idle", "io", TIMES, 0, 0),
                sizes,
            ),
        )
        room.make("samples")
        killed = room.run(
            "psi_oomd", "replay", "it.trace", "--rules=rules.json", "--report-s=0", status=0
        ).output
        must(killed.splitlines()[0].endswith(" /idle"), f"the largest is killed: {killed}")


def check_a_past(program: str) -> None:
    """With --lead-in, averages begin with the averages in the samples."""
    lines = []
    for at in TIMES:
        for path in ("/", "/a"):
            for resource in ("io", "memory", "cpu"):
                total = round(at * 0.4e6) if resource == "io" else 0
                shares = "40.00,40.00,40.00" if resource == "io" else "0.00,0.00,0.00"
                lines.append(
                    f"{START + at}.000,{path},{resource},{total},0,{shares},0.00,0.00,0.00"
                )
    with room_of(program) as room:
        room.file("samples", csv([], lines))
        room.make("samples", "--lead-in", "12min")
        printed = room.run("psi_oomd", "replay", "it.trace", "--report-s=2", status=0).output
        found = re.search(
            r"report 720000000000 /a io\nsome avg10=([\d.]+) avg60=([\d.]+) avg300=([\d.]+) ",
            printed,
        )
        must(found and all(38 <= float(it) <= 42 for it in found.groups()),
             f"averages after the past: {found and found.groups()}")
        room.file("samples", csv(root()))
        done = room.make("samples", "--lead-in", "12min", status=2)
        must("--lead-in needs avg10" in done.said, f"without averages: {done.said}")


def check_averages_say_when_a_total_grew(program: str) -> None:
    """If the samples include avg10, the trace is more accurate. The stall in this check takes 10 s
    at the end of an interval of 30 s.
    """

    def total(at: float) -> float:
        return min(max(at - 80, 0), 10)

    def average(at: float) -> float:
        return 100 * (1 - math.exp(-total(at) / 10)) * math.exp(-max(0, at - 90) / 10)

    lines = [
        f"{START + at}.000,{path},{resource},{round(total(at) * 1e6) if resource == 'io' else 0},0,"
        f"{average(at) if resource == 'io' else 0:.2f},0.00,0.00,0.00,0.00,0.00"
        for at in range(0, 181, 30) for path in ("/", "/a") for resource in ("io", "memory", "cpu")
    ]  # fmt: skip
    highest = []
    with room_of(program) as room:
        room.file("samples", csv([], lines))
        for words in ((), ("--averages", "no"), ("--averages", "yes")):
            room.make("samples", *words)
            printed = room.run("psi_oomd", "replay", "it.trace", "--report-s=2", status=0).output
            highest.append(
                max(float(it) for it in re.findall(r"/a io\nsome avg10=([\d.]+)", printed))
            )
            must(abs(room.totals()[90, "/a", "io"][0] - 10_000_000) <= 2,
                 "the total at the sample is right")
    must_be("yes is the default from 14 s on", highest[0], highest[2])
    must(highest[1] < 35 and highest[2] > 50, f"the highest avg10, of 63 on the machine: {highest}")
