"""Checks of folding at the edges of windows, of the messages of `fold` about its result, and of
limits and malformed lines.
"""
from __future__ import annotations

import json
import operator
import os
import tempfile
from unittest import mock

from fold.common import folded, must_replay_alike, printed
from harness import must, must_be
from shared.stored import PAGE, accepted, change, count_bytes, recording, tool
from psifold import fold
from psifold.victims import Victim
from shared.traces import MS

SECOND = 1000 * MS
# A trace in which /b gets its task at 2.5 s, 500 ms after the start of a window of 2 s. The task is
# part of each later joint state of that window. Both groups have memory samples.
LATE = """psitrace 1 cpus=1
0 group /a
0 group /b
0 mem /a 10 0 0
0 mem /b 90 0 0
0 fork 1 /a 0
0 fork 3 / 0
0 switch 0 1 idle
0 switch 0 3 iowait
0 switch 0 0 iowait
1000000000 wake 1 0
1000000000 wake 3 0
1000000000 switch 0 1 idle
1000000000 switch 0 3 sleep
1000000000 switch 0 0 sleep
2500000000 wake 1 0
2500000000 wake 3 0
2500000000 switch 0 1 idle
2500000000 switch 0 3 iowait
2500000000 switch 0 0 iowait
2500000000 fork 2 /b 0
4000000000 end
"""
# A trace whose second window has one joint state, in which both tasks are ready. One of the tasks
# is created 1 ns after the window begins.
SOON = """psitrace 1 cpus=1
0 group /b
0 fork 1 / 0
2000000000 switch 0 0 idle
2000000001 fork 2 /b 0
4000000000 end
"""
LARGEST = {
    "name": "largest",
    "detectors": [["stalls", {"name": "exists", "args": {"cgroup": "/*"}}]],
    "actions": [{"name": "kill_by_memory_size_or_growth", "args": {"cgroup": "/*"}}],
    "post_action_delay": "0",
}


def check_no_task_before_its_window(program: str) -> None:
    """A group that has no task at a tick of the original has none at that tick of the folded trace.
    Kills of the largest group are the same in both traces, and so are all other lines.
    """
    with tempfile.NamedTemporaryFile("w", suffix=".json") as file:
        json.dump({"rulesets": [LARGEST]}, file)
        file.flush()
        words = ("--rules", file.name, "--interval-s=2")
        kills = [
            line
            for line in printed(program, LATE, "replay", *words).splitlines()
            if line.startswith(b"kill ")
        ]
        must(kills[0] == b"kill 2000000000 ruleset=0 action=0 /a",
             f"at 2 s /b has no task: {kills}")
        must_replay_alike("a task that comes after a tick", program, LATE,
                          folded(LATE, 2 * SECOND)[0], 2 * SECOND, words)
    other, result = folded(SOON, 2 * SECOND)
    must_be("the times", printed(program, other, "stall"), printed(program, SOON, "stall"))
    forks = [
        int(line.split(" ")[0])
        for line in other.splitlines()
        if " fork " in line and line.endswith(" /b 0")
    ]
    must_be("when /b gets its first task", min(forks), 2 * SECOND + 1)
    must_be("what rounding left",
            [remainder for remainder in result.check.shortfalls.values() if remainder], [])


def check_processors_that_fall_silent(_: str) -> None:
    """If some processors have no events after an early time, `psitrace --fold` writes the same
    trace as `fold` makes of the unfolded trace. This is checked for whole recordings and for parts
    of them.
    """
    for name, pages in (("threads", (1, 2, 4)), ("threads", (30, 60, 1)), ("cg-2", (2,))):
        with recording(name) as folder:
            for processor, count in enumerate(pages, 1):
                change(folder, f"cpu{processor}.raw", operator.itemgetter(slice(count * PAGE)))
            count_bytes(folder)
            for words in ((), ("--from=2",)):
                plain = tool("psitrace", folder, "--force", *words).output
                folded_trace = tool("psitrace", folder, "--force", "--fold=1", *words).output
                must(len(plain) > 10**5, f"{name} has a trace")
                must(tool("fold", "-", "--window=1", stdin=plain).output == folded_trace,
                     f"{name} {pages} {words}: both tools give the same")


# A trace in which a task of /v moves at 3 s. The destination is /w, or a child of /v.
MOVES = """psitrace 1 cpus=1
0 group /v
0 group /v/x
0 group /w
0 fork 1 /v 0
0 switch 0 1 idle
0 switch 0 0 iowait
3000000000 move 1 {}
6000000000 end
"""


def check_when_whatif_is_exact(program: str) -> None:
    """fold's last message says from which time on `whatif` is exact for the folded trace: after the
    last move of a victim's task, out of the victim or within it.
    """
    for path in ("/w", "/v/x"):
        trace = MOVES.format(path)
        _, result = folded(trace, 2 * SECOND, [Victim("/v", True)])
        changes = result.outcome().changes
        # A move from the victim to its descendant counts too, because the descendant may be killed
        # by itself.
        wanted = (int(path == "/v/x"), 1, 3 * SECOND)
        must_be(f"tasks that came to /v, or moved, and when, with {path}",
                (changes.came, changes.moved, changes.last), wanted)
        done = tool("fold", "-", "--window=2", "--victims=v,v/*", stdin=trace.encode())
        must("named, if the kills come after 3.000 s; before, it is near: " in done.said, done.said)
        done = tool("fold", "-", "--window=2", "--victims=v,v/*",
                    stdin=trace.replace("3000000000 move", "0 move").encode())
        must("named\n" in done.said or "of them:" in done.said,
             f"at 0 nothing moves yet: {done.said}")


def check_victims_that_are_no_groups(_: str) -> None:
    """A victim pattern that matches no group is reported. Then `fold` doesn't claim that `whatif`
    is exact.
    """
    trace = MOVES.format("/w").replace("3000000000 move", "0 move").encode()
    asked: tuple[tuple[str, list[str], bool], ...] = (
        ("/nosuch", ["/nosuch"], False), ("v,x/*", ["x/*"], True), ("/,w", [], True),
    )  # fmt: skip
    for patterns, missing, is_exact in asked:
        done = tool("fold", "-", "--window=2", f"--victims={patterns}", stdin=trace)
        found = [line for line in done.said.splitlines() if "matches the victims' pattern" in line]
        must_be(
            f"the patterns of {patterns}", found,
            [f"fold: no group of the trace matches the victims' pattern '{it}'" for it in missing],
        )
        must_be(f"whether whatif is exact, with {patterns}", "`whatif` is exact" in done.said,
                is_exact)


def check_limits_of_folding(program: str) -> None:
    """A folded trace with more than the allowed number of tasks is rejected. If a folded trace has
    more lines than the original, the status is 3, with a message.
    """
    lines = [f"0 group /g{it}\n0 fork {it + 1} /g{it} 0" for it in range(4)]
    with mock.patch.object(fold, "MOST_TASKS", 3):
        try:
            folded("\n".join(["psitrace 1 cpus=1", *lines, "1000000000 end\n"]), SECOND)
            must(False, "four groups with tasks fit into three tasks")
        except fold.TooMany as many:
            must_be("the limit", str(many), "3 tasks")
    quiet = MOVES.format("/w").replace("6000000000", "60000000000") + ""
    longer = tool("fold", "-", "--window=0.5", "--victims=v,w", stdin=quiet.encode())
    must_be(f"the status of a trace that is longer, of which was said {longer.said}", longer.status,
            3)
    must("the folded trace is longer, " in longer.said, longer.said)
    accepted(program, longer.output)


def check_lines_that_are_wrong(_: str) -> None:
    """For a line that psi_oomd rejects, the message has the line's number, even if folding wouldn't
    change the line.
    """
    good = LATE.splitlines()
    for number, line, message in (
        (4, "0 mem /a 10 0 aaa", "malformed"), (4, "0 mem /a 10 0", "malformed"),
        (4, "0 mem /q 10 0 0", "can't have it"),
        (4, "0 mem /a 10 0 1152921504606846977", "malformed"), (4, "0 mem /a 010 0 0", "malformed"),
        (4, "0 host 1 2", "malformed"),
        (4, "0 prefer /a perhaps", "malformed"), (4, "0 trigger / io some 5 4", "malformed"),
        (4, "0 prefer a avoid", "malformed"),
        (4, "0 trigger / io most 500000 500000", "malformed"), (2, "0 group a", "can't be made"),
        (2, "0 group /a/", "can't be made"),
        (3, "0 group /a//b", "can't be made"), (6, "0 fork 0 /a 0", "a task's number"),
        (6, "0 fork 4294967296 /a 0", "a task's number"),
        (6, "0 fork 1 /a -1", "can't have it"), (6, "0 fork 1 /a 1", "can't have it"),
        (8, "0 switch -1 1 idle", "can't have it"),
        (21, f"{'9' * 5000} fork 2 /b 0", "its time is beyond"),
        (21, "99999999999999999999 fork 2 /b 0", "its time is beyond"),
        (21, "2500000000 fork 2 /\u00e4 0", "aren't ASCII"),
    ):  # fmt: skip
        wrong = [*good[: number - 1], line, *good[number:]]
        done = tool("fold", "-", "--window=2", stdin="\n".join([*wrong, ""]).encode())
        must_be(f"the status of '{line[:60]}', which said {done.said[-300:]}", done.status, 2)
        must(f"line {number}" in done.said and message in done.said and len(done.said) < 300,
             f"{line[:60]}: {done.said[:300]}")


def check_files_that_are_no_trace(_: str) -> None:
    """For a file that isn't a trace, the message says what the file is."""
    for data, message in (
        (b"\x1f\x8b\x08\0", "gunzip"), (b"\xfd7zXZ\0", "by xz"), (b"\x17\x08Dtracing", "trace-cmd"),
        (b"", "empty"),
        (LATE.replace("\n", "\r\n").encode(), "carriage returns"),
        (b"report 2000000000 / io\n", "replay printed"),
    ):  # fmt: skip
        with tempfile.NamedTemporaryFile() as file:
            file.write(data)
            file.flush()
            done = tool("fold", file.name, "--window=2")
        must_be(f"the status for {data[:10]!r}", (done.status, done.output), (2, b""))
        must(message in done.said and file.name in done.said, f"{message}: {done.said}")
    with tempfile.TemporaryDirectory() as folder:
        done = tool("fold", folder, "--window=2")
        must_be("of a folder", (done.status, "it is a folder" in done.said), (2, True))


def check_bytes_that_are_no_page(_: str) -> None:
    """If a file of pages ends with bytes that aren't a whole page, psitrace reports them, with and
    without --fold.
    """
    with recording("exec-2") as folder:
        change(folder, "cpu1.raw", lambda it: it + b"abc")
        count_bytes(folder)
        for words in ((), ("--fold=1",)):
            done = tool("psitrace", folder, *words)
            must_be(f"the status with {words}, which said {done.said}", done.status, 0)
            must("mended: bytes at the end of cpu1.raw that are no whole page: 3\n" in done.said,
                 f"{words}: {done.said}")
        must(os.path.isdir(folder), "the recording is there")
