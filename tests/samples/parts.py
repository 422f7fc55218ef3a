"""Checks that samples over a long time are converted to several overlapping traces. The tools for
rules treat these traces as one.
"""
from __future__ import annotations

import argparse
import json
import os
import random
import re

from harness import must, must_be
from psireplay.sampled import Sampled
from psirules.fleet import Answer, summary
from psisamples import store as store_module
from psisamples.store import Store

from . import SECOND, START, Room, Row, csv, room_of, steady

LENGTH = 5400
TIMES = range(0, LENGTH + 1, 5)
# The time (s) at which the group /late is created. Only the last traces contain the group.
LATE = 4800
# The intervals (s) in which /a stalls for memory.
STALLS = [(600 * it, 600 * it + 60) for it in range(1, 9)]


def stalled(at: float) -> float:
    """Returns the total time (s) for which /a has stalled for memory until the time `at` (s)."""
    return sum(min(max(at - begin, 0), end - begin) for begin, end in STALLS)


def rows() -> list[Row]:
    found = [
             Row(at, path, "memory", round(stalled(at) * share), round(stalled(at) * share * 0.9))
             for at in TIMES
             for path, share in (("/", 300_000), ("/a", 900_000))]  # fmt: skip
    busy = [
        it for path, share in (("/", 0.2), ("/a", 0.1), ("/b", 0.3)) for it in steady(
            path, "io", TIMES, share, share / 2
        )
    ]
    late = steady("/late", "io", range(LATE, LENGTH + 1, 5), 0.05, 0.02, LATE)
    return found + busy + late + steady("/b", "cpu", TIMES, 0.2, 0.1) + steady(
        "/", "cpu", TIMES, 0.1, 0
    )


def rules() -> str:
    rule = {
        "name": "pressure_above",
        "args": {"cgroup": "a", "resource": "memory", "threshold": "40", "duration": "10"},
    }
    action = {"name": "kill_by_pressure", "args": {"cgroup": "*", "resource": "memory"}}
    return json.dumps(
        {
            "rulesets": [
                {
                    "name": "it", "post_action_delay": "300", "detectors": [["it", rule]],
                    "actions": [action],
                }
            ]
        }
    )


def make(room: Room) -> list[str]:
    """Converts the samples to several traces, and returns the names of the traces. The first one is
    it.trace.
    """
    room.file("rules.json", rules())
    room.file("samples", csv(rows()))
    done = room.make("samples", "--lines", "100000")
    names = [
        "it.trace",
        *(f"it.{number}.trace" for number in range(2, 20) if room.has(f"it.{number}.trace")),
    ]
    must(len(names) > 1 and f"in {len(names)} traces that overlap by 15 min" in done.said,
         f"several traces: {names}, {done.said}")
    return names


def check_parts_are_one(program: str) -> None:
    """The kills in all parts are the kills in the single whole trace. A kill in an overlap is
    reported once.
    """
    with room_of(program) as room:
        names = make(room)
        room.run("samples", "samples", "-o", "whole.trace", status=0)
        lines = sum(room.text(name).count("\n") for name in names)
        must(lines > room.text("whole.trace").count("\n"),
             "the parts have more lines than the whole, since they overlap")
        room.file("want", "at most 8 kills\nkill /a by it\nno kill of /late\n")
        must("/late" not in room.text(names[0]) and "/late" in room.text(names[-1]),
             "a part has a group that an earlier one doesn't have")
        found = []
        for traces in ([*reversed(names)], ["whole.trace"]):
            done = room.run("rules", "expect", "want", *traces, "--rules", "rules.json", "--json",
                            status=0)
            answer = json.loads(done.output)["traces"]
            must_be("how many traces they are", len(answer), 1)
            found.append([(it["moment_ns"] // 10**9, it["path"]) for it in answer[0]["kills"]])
        must_be("kills of the whole", len(found[1]), len(STALLS))
        must_be("kills of the parts", found[0], found[1])
        for (at, path), (begin, end) in zip(found[0], STALLS):
            must(path == "/a" and begin < at < end + 15,
                 f"a kill at {at} s, of a stall from {begin} to {end} s")


def check_fleet_takes_parts_as_one(program: str) -> None:
    """tools/fleet counts the parts as one trace. A kill in an overlap counts once."""
    parts = (Sampled(5 * SECOND, 5 * SECOND, False, 7, 1, 0, 0),
             Sampled(5 * SECOND, 5 * SECOND, False, 7, 2, 2700 * SECOND, 900 * SECOND))
    kills = ((1000, 3000), (300, 1200))
    with room_of(program) as room:
        room.file("rules.json", rules())
        names, answers = [], []
        for number, (mark, times) in enumerate(zip(parts, kills)):
            name = room.file(
                f"{number}.trace",
                "".join(["psitrace 1 cpus=1\n", *mark.lines(), f"{3600 * SECOND} end\n"]),
            )
            names.append(os.path.join(room.path, name))
            lines = [f"kill {at * SECOND} ruleset=0 action=0 /a" for at in times]
            answers.append(
                Answer([*lines, f"end {3600 * SECOND} ticks=1800 events=2 kills={len(times)}"])
            )
        options = argparse.Namespace(
            rules=os.path.join(room.path, "rules.json"), start=None, end=None, at=None, window=None
        )
        found = summary(options, names, answers)
        must_be("how many traces they are", found["traces"], 1)
        must_be("kills: that at 300 s of the second part is the first one's at 3000 s",
                found["kills_by_path"], {"/a": 3})


def check_totals_of_parts(program: str) -> None:
    """In each part, totals grow from the part's start as in the samples."""
    with room_of(program) as room:
        for name in make(room):
            found = re.search(r"start-ms:(\d+):skip-ms:(\d+)$", room.text(name).splitlines()[1])
            assert found
            start, totals = int(found[1]) // 1000, room.totals(name)
            must_be("what a later part leaves to the one before", int(found[2]),
                    0 if not start else 900_000)
            last = max(at for at, _, _ in totals)
            at = (start + last) // 10 * 10 - start
            wanted = round((stalled(start + at) - stalled(start)) * 900_000)
            must(abs(totals[at, "/a", "memory"][0] - wanted) <= 2,
                 f"{name} at {at} s: {totals[at, '/a', 'memory']}, not {wanted}")


def check_from_and_to(program: str) -> None:
    """A time window of the samples is selected by seconds or by times of day."""
    with room_of(program) as room:
        room.file("samples", csv(rows()))
        room.make("samples", "--from", "590", "--to", "690")
        first = room.text("it.trace")
        must(abs(room.totals()[100, "/a", "memory"][0] - 54_000_000) <= 2,
             "the stall from 600 to 660 s is in it")
        room.make("samples", "--from", "2023-11-14T22:23:10Z", "--to", "2023-11-14T22:24:50Z")
        must_be("the time of 590 s", START + 590, 1_700_000_590)
        must(room.text("it.trace") == first, "it is the same by the clock")
        done = room.make("samples", "--from", "6000", status=12)
        must("--from 6000 is after the end of the samples, 5400 s" in done.said,
             f"after the end: {done.said}")


def check_rows_beyond_memory(_program: str) -> None:
    """Rows are returned in order even if there are so many that most are stored in files. They can
    be read again from any time on.
    """
    rng, store = random.Random(5), Store()
    rows = [
        (rng.randrange(10**6), f"/g{rng.randrange(9)}", 2 * rng.randrange(3), (number, number),
         (0, number))
        for number in range(5000)
    ]
    before, store_module.MOST_IN_MEMORY = store_module.MOST_IN_MEMORY, 700
    try:
        for row in rows:
            store.put(row)
        must(len(store.runs) == 7 and len(store.rows) == 100, "most of them are in files")
        wanted = sorted(rows, key=lambda it: it[:3])
        must(sorted(store.sort()) == sorted(rows), "all rows come")
        must([it[:3] for it in store.since(0)] == [it[:3] for it in wanted], "they come in order")
        late = [it for it in store.since(900_000) if it[0] >= 900_000]
        must(sorted(late) == sorted(it for it in rows if it[0] >= 900_000), "those from a time on")
    finally:
        store_module.MOST_IN_MEMORY = before
