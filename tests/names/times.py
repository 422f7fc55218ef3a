"""Checks of times of day in the tools that report kills: which kills the options select, and how
times are printed.
"""
from __future__ import annotations

import json
import os
import re
from typing import Any

from harness import must, must_be
from names.companions import companion, with_companion
from shared.program import TOP
from shared.rooms import RUNAWAY, RUNAWAY_RULES, Done, Room

SECOND = 10**9
SETTINGS = os.path.join(TOP, "examples", "runaway-systemd")
# The start of the trace, as the companion file states it.
BEGAN, DAY_SECONDS = "2026-11-28T14:00:00+01:00", 14 * 3600
# A time in seconds, followed by the time of day.
PAIR = re.compile(r"\b([0-9]+) s \(([0-9]{2}):([0-9]{2}):([0-9]{2})\)")
ID = "4fd3" + "0" * 60


def named(room: Room) -> str:
    """Writes the example trace `runaway` with a companion file."""
    with open(RUNAWAY, encoding="ascii") as file:
        text = file.read()
    with_companion(room, "a.trace", text, companion(text, {}, begins=BEGAN))
    return "a.trace"


def done_of(room: Room, *words: str, status: int = 0, stdin: str = "") -> Done:
    done = room.run(*words, stdin=stdin)
    must_be(f"the status of {words}, which said {done.error}", done.status, status)
    return done


def kills_of(room: Room, *words: str) -> list[int]:
    """Returns the times (s) of the kills in a tool's JSON output."""
    found: Any = done_of(room, *words, "--json").json()
    rows = (
        found.get("decisions") or [it for trace in found.get("traces", []) for it in trace["kills"]]
    )
    for part in found.get("rulesets", []):
        rows += [it for it in part["firings"] if any(act["victim"] for act in it["actions"])]
    return [it["moment_ns"] // SECOND for it in rows]


def tools_of(trace: str) -> dict[str, tuple[str, ...]]:
    """Returns the command lines of the tools that report kills, by name."""
    return {
        "oomd": ("tools/oomd", trace, "--config", RUNAWAY_RULES),
        "systemd-oomd": ("tools/systemd-oomd", trace, "--settings", SETTINGS),
        "expect": ("tools/rules", "expect", "want", trace, "--rules", "often.json"),
        "explain": ("tools/rules", "explain", "often.json", trace),
        "explain by oomd": ("tools/rules", "explain", RUNAWAY_RULES, trace, "--by", "oomd"),
        "explain by systemd-oomd": (
            "tools/rules", "explain", SETTINGS, trace, "--by", "systemd-oomd"
        ),
    }


def prepare(room: Room) -> str:
    """Writes a trace, rules that kill several times, and a file with an expectation."""
    with open(RUNAWAY_RULES, encoding="utf-8") as file:
        rules = json.load(file)
    rules["rulesets"][0]["post_action_delay"] = "10"
    room.file("often.json", json.dumps(rules))
    room.file("want", "at most 100 kills\n")
    return named(room)


def check_a_part_selects_kills(room: Room) -> None:
    """All forms of the options for an interval, by seconds or by times of day, select exactly the
    kills in the interval. All forms are tested with one tool, and two of them with the other tools.
    """
    trace = prepare(room)
    for name, words in tools_of(trace).items():
        kills = kills_of(room, *words)
        must(kills, f"{name}: there are kills")
        first = kills[0]
        start, end = first - 10, first + 10
        wanted = [it for it in kills if start <= it <= end]
        clock = [f"14:{it // 60:02}:{it % 60:02}" for it in (start, end, first)]
        ways: tuple[tuple[str, ...], ...] = (
            ("--from", str(start), "--to", str(end)), ("--from", clock[0], "--to", clock[1]),
            ("--at", clock[2], "--window", "20"),
            ("--at", f"13{clock[2][2:]}", "--window", "20", "--tz", "UTC"),
            ("--at", f"2026-11-28T{clock[2]}+01:00", "--window", "20"),
        )  # fmt: skip
        for part in ways if name == "expect" else ways[1:3]:
            must_be(f"{name}: the kills with {part}", kills_of(room, *words, *part), wanted)
        must_be(f"{name}: none before", kills_of(room, *words, "--to", str(first - 1)), [])


def check_times_of_day_are_printed(room: Room) -> None:
    """Each printed time of day belongs to the seconds before it, in the trace's time zone or in
    another. Without a start time, no time of day is printed.
    """
    trace = prepare(room)
    for name, words in tools_of(trace).items():
        for zone, ahead in (((), 0), (("--tz", "UTC"), -3600), (("--tz=-03:00",), -4 * 3600)):
            found = PAIR.findall(done_of(room, *words, *zone).output)
            must(found or name == "expect", f"{name}: times of day are printed")
            for seconds, *clock in found:
                hours, minutes, rest = map(int, clock)
                must_be(f"{name} {zone}: the time of day at {seconds} s",
                        hours * 3600 + minutes * 60 + rest, DAY_SECONDS + ahead + int(seconds))
        plain = done_of(room, *(RUNAWAY if it == trace else it for it in words)).output
        output = done_of(room, *words).output
        must(not PAIR.search(plain), f"{name}: no time of day without a clock")
        if name.startswith("explain"):
            must_be(f"{name}: nothing else differs", PAIR.sub(r"\1 s", output), plain)


def check_comparisons(room: Room) -> None:
    """`compare` and `sweep` compare the kills of an interval. `expect`, `sweep` and `compare` print
    the time of day of each kill that they name.
    """
    trace = prepare(room)
    first = kills_of(room, "tools/rules", "expect", "want", trace, "--rules", "often.json")[0]
    words = ("tools/rules", "sweep", "often.json", "--vary", "0/pressure_above.threshold=40", trace)
    clock = f"14:{first // 60:02}:{first % 60:02}"
    must(f"{first} s ({clock})" in done_of(room, *words).output,
         "sweep has the first kill's time of day")
    found = done_of(room, *words, "--from", str(first + 1), "--json").json()
    rows = found["rows"]  # type: ignore[index]
    must(all(it["moment_ns"] > first * SECOND for row in rows for it in row["kills"]), f"{rows}")
    room.file("want", "no kill of /batch/import\n")
    output = done_of(
        room, "tools/rules", "expect", "want", trace, "--rules", "often.json", status=1
    ).output
    must(f"killed at {first} s ({clock}) by" in output, output)
    done_of(room, "tools/rules", "expect", "want", trace, "--rules", "often.json", "--to",
            str(first - 1))
    lower = ("tools/rules", "compare", RUNAWAY_RULES, "often.json", trace)
    done_of(room, *lower, status=1)
    output = done_of(room, *lower, "--to", str(first)).output
    must_be("compare, up to the first kill", output,
            f"{trace}: same: 1 kill, /batch/import at {first} s ({clock})\n")


def check_suggestions(room: Room) -> None:
    """For an interval, `suggest` considers only kills in it. It tries a grid of values, since an
    earlier kill may prevent a kill in the interval.
    """
    trace = prepare(room)
    room.file("want", "first /batch/import from 140 to 200\n")
    words = ("tools/rules", "suggest", RUNAWAY_RULES, "--incidents", trace, "--want", "want",
             "--json")
    whole, part = (
        done_of(room, *words, *more).json()["ranges"]  # type: ignore[index]
        for more in ((), ("--from", "14:01", "--to", "14:03:20"))
    )
    must_be("how", [{it["by"].partition(" of")[0] for it in one} for one in (whole, part)],
            [{"bisection"}, {"a grid"}])


def points_in(text: str) -> dict[str, list[int]]:
    """Returns the times (s since 1970) of each metric's points."""
    found: dict[str, list[int]] = {}
    for line in text.splitlines():
        if not line.startswith("#"):
            head, _, time = line.rpartition(" ")
            found.setdefault(head.rpartition(" ")[0], []).append(int(float(time)))
    return found


def check_metrics(room: Room) -> None:
    """For an interval, `openmetrics` prints the points in it, with unchanged values and with
    container names as labels.
    """
    printed = done_of(room, "psi_oomd", "replay", RUNAWAY, "--report-s", "10").output.replace(
        "/batch/import", f"/pods/cri-{ID}.scope"
    )
    words = ("tools/openmetrics", "--start", BEGAN)
    whole = done_of(room, *words, stdin=printed).output
    part = done_of(
        room, *words, "--from", "13:01", "--to", "120", "--tz", "UTC", stdin=printed
    ).output
    start = 1795870800
    wanted = {
        name: inside for name, times in points_in(whole).items() if (
            inside := [it for it in times if start + 60 <= it <= start + 120]
        )
    }
    must_be("the points of the part", points_in(part), wanted)
    must(set(part.splitlines()) <= set(whole.splitlines()), "its lines are those of the whole")
    room.file("names", f"{ID} default/web/nginx\n")
    output = done_of(room, *words, "--containers", "names", stdin=printed).output
    label = f'id="/pods/cri-{ID}.scope"'
    must(label in whole and f'{label},name="default/web/nginx"' in output,
         "the container's name is a label")
    must_be("nothing else differs", output.replace(',name="default/web/nginx"', ""), whole)
