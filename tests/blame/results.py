"""Checks of the output of tools/blame: options, growing groups, and faults."""
from __future__ import annotations

import json
import os
import subprocess
from typing import Any, Optional

from harness import must, must_be
from shared.rooms import RUNAWAY, Done, Room
from shared.program import TOP

BLAME = "tools/blame"
SECOND = 10**9
# On processor 0, /a runs until 1 s while /b waits; /b continues to wait until 2 s while nothing
# runs. On processor 1, two tasks of /b wait while /a runs from 3 to 4 s, and one of them from 4 to
# 5 s. Then /a waits for IO until 7 s, and runs again while a task of /b waits. From 5 s on, another
# task of /b waits for IO.
BY_HAND = """psitrace 1 cpus=2
0 group /a
0 group /b
0 fork 1 /a 0
0 fork 2 /b 0
0 fork 3 /a 1
0 switch 0 1 idle
1000000000 switch 0 0 sleep
2000000000 switch 0 2 idle
3000000000 switch 1 3 idle
3000000000 fork 4 /b 1
3000000000 fork 5 /b 1
4000000000 migrate 5 0
4000000000 switch 0 5 sleep
5000000000 switch 0 0 iowait
5000000000 switch 1 4 iowait
7000000000 wake 3 1
7000000000 switch 1 3 preempt
8000000000 end
"""


def figures(text: str) -> dict[str, Any]:
    """Returns the groups of blame's JSON output by name."""
    return {it["group"]: it for it in json.loads(text)["groups"]}


def parts(entries: list[dict[str, Any]]) -> dict[Optional[str], int]:
    return {it["group"]: it["ns"] for it in entries}


def check_made_twice(room: Room) -> None:
    """Two groups with the same path have distinct names, and either can be selected."""
    trace = (
        "psitrace 1 cpus=1\n0 group /a\n0 fork 1 /a 0\n1000000000 switch 0 1 idle\n"
        "1000000000 switch 0 0 exit\n"
    )
    trace += "1000000000 rmgroup /a\n2000000000 group /a\n2000000000 fork 1 /a 0\n5000000000 end\n"
    room.file("twice.trace", trace)
    both = room.run(BLAME, "twice.trace", "--group", "/a").output.split("\n\n")
    must_be("both", [it.split(" (")[0] for it in both], [
        "/a#1 waited 1.000 s for a processor between 0 s and 5 s",
        "/a#2 waited 3.000 s for a processor between 0 s and 5 s",
    ])  # fmt: skip
    second = figures(room.run(BLAME, "twice.trace", "--group", "/a#2", "--json").output)
    must_be("the second", [(it["path"], it["waited_ns"], it["made_ns"]) for it in second.values()],
            [("/a", 3 * SECOND, 2 * SECOND)])
    gone = room.run(BLAME, "twice.trace", "--group", "/a#1", "--from", "3", "--to", "4").output
    must_be("one that was gone", gone,
            "/a#1 wasn't there between 3 s and 4 s: it was there from 0 s to 1 s\n")


def check_depth_and_top(room: Room) -> None:
    """With --depth, the time of deeper groups counts for their ancestor at that depth. If there are
    more groups than --top allows, the output says how many are omitted.
    """
    deep = figures(room.run(BLAME, RUNAWAY, "--depth", "1", "--json").output)
    must_be("the groups", sorted(deep), ["/", "/batch", "/web"])
    must_be("who ran", parts(deep["/batch"]["while_ran"]), {"/batch": deep["/batch"]["waited_ns"]})
    top = room.run(BLAME, RUNAWAY, "--top", "1").output.splitlines()
    must_be("the rests", [line for line in top if line.startswith("and")],
            ["and 4 more groups: --top shows them", "and 2 more groups waited: --top shows them"])
    must_be("the columns", top[-3].split(),
            ["waited", "\\", "ran", "there", "s", "/batch/import", "others"])
    must_be("the row", top[-2].split(), ["/batch", "21.233", "17.117", "4.116"])
    # The matrix has a single row for the root and /batch, because the root waited only while /batch
    # did.
    lines = room.run("psi_oomd", "stall", RUNAWAY).output.splitlines()
    waited = {
        path: sum(int(it.split()[7]) for it in lines if it.split()[2] == path)
        for path in ("/", "/batch")
    }
    must_be("the waits of the root", waited["/"], waited["/batch"])
    rows = [
        line.split()[0]
        for line in room.run(BLAME, RUNAWAY).output.partition("\n\n")[2].splitlines()[1:]
    ]
    must_be("the rows of the matrix", rows, ["/batch", "/batch/index", "/batch/import"])


def check_no_wait(room: Room) -> None:
    room.file("empty.trace", "psitrace 2 cpus=1\n0 end\n")
    done = room.run(BLAME, "empty.trace")
    must_be("an empty trace", (done.status, done.output.splitlines()[-1]),
            (0, "no group waited for a processor"))
    room.file("idle.trace", "psitrace 1 cpus=1\n3000000000 end\n")
    output = room.run(BLAME, "-", "--group", "/",
                      stdin="psitrace 1 cpus=1\n3000000000 end\n").output
    must_be("an idle one", output, "/ didn't wait for a processor between 0 s and 3 s\n")


def fault(room: Room, status: int, *words: str, stdin: str = "", **more: str) -> str:
    """Returns the message of a blame run that must fail with this status. The run must print
    nothing else.
    """
    done: Done = room.run(BLAME, *words, stdin=stdin, **more)
    must_be(f"the status and the output of {words}, which said {done.error}",
            (done.status, done.output), (status, ""))
    must(done.error.startswith("blame: ") and "Traceback" not in done.error,
         f"it is told plainly: {done.error}")
    return done.error[7:].rstrip("\n")


def check_faults(room: Room) -> None:
    room.file("a.trace", BY_HAND)
    for words in (
        (), ("a.trace", "--top", "0"), ("a.trace", "--from", "x"), ("a.trace", "--top"),
        ("a.trace", "b.trace"),
    ):
        must("usage: blame" in fault(room, 2, *words), f"{words}: the usage is told")
    must_be("a victim itself", fault(room, 2, "a.trace", "--group", "/a", "--victim", "/a"),
            "--victim /a is /a or above it: without it there is no such group")  # fmt: skip
    refused = os.path.join(TOP, "examples", "refused.trace")
    must_be("a refused trace", fault(room, 2, refused),
            f"psi_oomd refuses {refused}: trace line 7: NotReady")
    must_be("no trace", fault(room, 2, "-", stdin="nonsense"),
            "psi_oomd refuses -: trace line 1: BadHeader")
    must_be("rules on standard input", fault(room, 2, "-", stdin="{}"),
            "psi_oomd refuses -: trace line 1: BadHeader: it is JSON, like a rules file, "
            "not a trace")
    must_be("no file", fault(room, 4, "nope.trace"), "no file: nope.trace")
    must_be("a folder", fault(room, 5, "."), ". is a folder")
    os.mkdir(os.path.join(room.path, "recorded"))
    room.file("recorded/meta", "bytes 0\n")
    hint = "recorded is a recording: `tools/psitrace recorded` makes a trace of it"
    must_be("a recording", fault(room, 5, "recorded"), hint)
    said = fault(room, 11, "a.trace", "--group", "/aa")
    must_be("no group", said, "no group /aa ever lived in the trace, which has /a, ..")
    must_be("no victim", fault(room, 11, "a.trace", "--victim", "/c/d"),
            "no group /c/d ever lived in the trace, which has /, /a, /b")
    fault(room, 11, "a.trace", "--group", "/a#2")
    must_be("a time after it", fault(room, 12, "a.trace", "--from", "8.5"),
            "--from 8.5 is after the end of the trace, 8 s")
    must_be("no time", fault(room, 12, "a.trace", "--from", "3", "--to", "3"),
            "--from 3 isn't before --to 3: no time is left between")  # fmt: skip
    fault(room, 12, "a.trace", "--from", "8")
    must("can't be run" in fault(room, 70, "a.trace", PSI_OOMD="/nope"), "no program")


def check_a_full_disk(room: Room) -> None:
    """A failed write is reported with its cause."""
    environment = {**os.environ, "PSI_OOMD": room.program}
    with open("/dev/full", "wb") as full:
        done = subprocess.run([os.path.join(TOP, BLAME), RUNAWAY], stdout=full,
                              stderr=subprocess.PIPE, env=environment)
    must_be("status", (done.returncode, done.stderr),
            (2, b"blame: the output: No space left on device\n"))


GROWTH = """psitrace 1 cpus=1
0 group /a
0 fork 1 /a 0
0 switch 0 1 idle
0 stall 1
50000000000 mem /a 104857600 0 0
120000000000 mem /a 157286400 0 0
130000000000 mem /a 209715200 0 0
200000000000 end
"""


def check_growth(room: Room) -> None:
    """The growth of memory is measured from the last sample before the interval, or from the first
    sample in the interval if no sample precedes it. The manual page says the same.
    """
    room.file("a.trace", GROWTH)
    for start, grown in ((100, 100), (0, 100), (125, 50), (131, 0)):
        done = room.run(BLAME, "a.trace", "--group", "/a", "--from", str(start), "--json")
        found = done.json()
        assert isinstance(found, dict)
        must_be(f"MiB from {start} s on", found["groups"][0]["memory_grown_bytes"] / 2**20, grown)
    with open(os.path.join(TOP, "docs", "blame.1"), encoding="utf-8") as file:
        text = " ".join(file.read().split())
    must(
        "from the last sample before the selected part (or, if there is none, from the first "
        "sample in that part) to the highest sample in that part" in text,
        "the manual page says from when to when",
    )
