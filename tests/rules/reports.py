"""Checks how tools/rules expect prints its results: for several traces, for two rules files, as
JSON, and as TAP.
"""
from __future__ import annotations

import os
import shutil
import subprocess

from harness import must, must_be
from rules.runs import RULES, expect, rules_text
from shared.rooms import NO_EVENT, REFUSED, RUNAWAY, Done, Room


def check_several_traces(room: Room) -> None:
    room.file("rules.json", rules_text())
    shutil.copy(RUNAWAY, os.path.join(room.path, "a b.trace"))
    one = "1 kill, /batch/import at 146 s"
    done = expect(room, "at most 0 kills\n", "a b.trace", NO_EVENT)
    wanted = (
        f"FAIL  a b.trace: at most 0 kills: {one}\nok    {NO_EVENT}: at most 0 kills: no kill\n"
    )
    must_be("two traces", done, Done(1, wanted, ""))
    for jobs in ("1", "2", "9"):
        must_be(f"--jobs {jobs}",
                expect(room, "at most 0 kills\n", "a b.trace", NO_EVENT, "--jobs", jobs), done)
    more = expect(room, "at most 0 kills\n", "a b.trace", "none.trace", NO_EVENT)
    must_be("what can't be run counts more than what fails", (more.status, more.output),
            (2, wanted))
    with open(RUNAWAY, encoding="utf-8") as file:
        story = file.read()
    room.file("want.txt", "at most 0 kills\n")
    piped = room.run(RULES, "expect", "want.txt", "-", NO_EVENT, "--rules", "rules.json",
                     stdin=story)
    must_be("standard input", piped, Done(1, wanted.replace("a b.trace", "-"), ""))


def check_side_by_side(room: Room) -> None:
    """expect runs as many replays in parallel as there are processors. A stub of psi_oomd waits
    until this number of its copies run, and fails after a timeout.
    """
    count = len(os.sched_getaffinity(0))
    room.file("rules.json", rules_text())
    wait = (
        f'for i in $(seq 300); do [ "$(ls marks | wc -l)" -ge {count} ] && break; sleep 0.1; done; '
        '[ "$i" -lt 300 ] || exit 9'
    )
    started = f'case "$*" in *mine*) mkdir -p marks; : >marks/$$; {wait} ;; esac'
    room.file("barrier", f"#!/bin/sh\n{started}\necho 'end 0 ticks=0 events=0 kills=0'\n", 0o755)
    done = expect(room, "at most 0 kills\n", *(f"mine{number}" for number in range(count)),
                  program="./barrier")
    must_be(f"{count} replays at a time", (done.status, done.error), (0, ""))


def check_pace(room: Room) -> None:
    room.file("rules.json", rules_text())
    for words in (
        ("--interval-s", "7"), ("--tick-ms", "700"), ("--tick-ms", "5000", "--interval-s", "1")
    ):
        time_ns = room.kills(RUNAWAY, "--rules", "rules.json", *words)[0][0]
        done = expect(room, f"first /batch/import from {time_ns / 10**9} to {time_ns / 10**9}\n",
                      RUNAWAY, *words)
        must_be(f"{words}, which goes to the program", (done.status, done.error), (0, ""))


def check_json(room: Room) -> None:
    room.file("rules.json", rules_text())
    done = expect(room, "first /web from 0 to 9\n", RUNAWAY, REFUSED, "--json")
    found = done.json()
    assert isinstance(found, dict)
    must_be("the statuses", (done.status, found["status"], done.error), (2, 2, ""))
    kill: dict[str, object] = {
        "moment_ns": 146 * 10**9,
        "path": "/batch/import",
        "ruleset": 0,
        "ruleset_name": "memory",
        "action": 0,
    }
    kill["plugin"] = "kill_by_memory_size_or_growth"
    must_be("kills", [it["kills"] for it in found["traces"]], [[kill], []])
    must_be("what holds", [it["expectations"][0]["ok"] for it in found["traces"]], [False, None])
    must_be("no fault of the first", found["traces"][0]["fault"], None)
    must("NotReady" in found["traces"][1]["fault"], f"the second one's fault: {found}")


def check_tap(room: Room) -> None:
    room.file("rules.json", rules_text())
    for want, traces, status, marks in (
        ("at most 1 kill\nno kill of /web\n", (RUNAWAY,), 0, ["ok", "ok"]),
        ("at most 0 kills\nno kill of /web if present\n", (RUNAWAY, NO_EVENT), 1,
         ["not ok", "ok", "ok", "ok"]),
        ("at most 1 kill\nno kill of /wbe\n", (RUNAWAY,), 2, ["ok", "not ok"]),
        ("at most 1 kill\n", (RUNAWAY, REFUSED), 2, ["ok", "not ok"]),
    ):
        done = expect(room, want, *traces, "--tap")
        lines = done.output.splitlines()
        must_be("the head and the plan", lines[:2], ["TAP version 13", f"1..{len(marks)}"])
        names = [f"{trace}: {line}" for trace in traces for line in want.splitlines()]
        points = [
            f"{mark} {number} - {name}" for number, (mark, name) in enumerate(zip(marks, names), 1)
        ]
        must_be("the points", [line for line in lines[2:] if not line.startswith("  ")], points)
        must_be("the status", (done.status, done.error), (status, ""))
        if shutil.which("prove"):
            room.file("said.tap", done.output)
            proved = subprocess.run(["prove", "--exec", "cat", "said.tap"], cwd=room.path,
                                    capture_output=True, text=True)
            must_be(f"whether prove holds it for passed: {proved.stdout}", proved.returncode == 0,
                    status == 0)
