"""Checks of tools/top, of charts of the groups that stalled most, of a recording's start time in
charts, and of patterns that match no group.
"""
from __future__ import annotations

import contextlib
import subprocess
import tempfile
from typing import Iterator

from harness import must, must_be
from shared.outputs import run, story
from shared.program import TOP

from .drawn import CHART, Drawn, drawn_of
from .faults import chart_fault

STORY = "runaway.trace"
# Reports with totals in us. /a has the child /a/b, which is removed and created again. The totals
# of both groups named /a/b are added.
PRINTED = b"".join(
    b"report %d000000000 %s %s\nsome avg10=0.00 avg60=0.00 avg300=0.00 total=%d\n"
    b"full avg10=0.00 avg60=0.00 avg300=0.00 total=%d\n"
    % row
    for row in (
        (2, b"/a", b"io", 9000000, 9000000), (2, b"/a/b", b"io", 3000000, 2000000),
        (2, b"/c", b"cpu", 5000000, 2500000),
        (4, b"/a", b"io", 9000000, 9000000), (4, b"/a/b", b"io", 1000000, 1000000),
        (4, b"/d", b"memory", 7000000, 0),
    )
) + b"end 4000000000 ticks=2 events=0 kills=0\n"  # fmt: skip
TABLE = """\
io some  io full  memory some  memory full  cpu some  cpu full  group
  4.000    3.000        0.000        0.000     0.000     0.000  /a/b
  0.000    0.000        0.000        0.000     5.000     2.500  /c
  0.000    0.000        7.000        0.000     0.000     0.000  /d
"""


def check_the_top(_: str) -> None:
    """tools/top sorts groups without children by their full stall time. The time is summed over all
    groups with the same path.
    """
    tool = f"{TOP}/tools/top"
    must_be("the table", run([tool], PRINTED).decode(), TABLE)
    must_be("the first two", run([tool, "2"], PRINTED).decode(),
            "".join(TABLE.splitlines(keepends=True)[:3]))
    for words, data in (
        (("0",), PRINTED), (("x",), PRINTED), ((), b"end 0 ticks=0 events=0 kills=0\n"),
        ((), b"no replay\n"),
    ):
        done = subprocess.run([tool, *words], input=data, capture_output=True)
        must_be(f"{words} of {data[:9]!r}", (done.returncode, done.stdout, done.stderr[:5]),
                (2, b"", b"top: "))


def check_a_chart_of_the_top(program: str) -> None:
    """A chart with --top shows exactly the groups that stalled most, sorted in descending order."""
    drawn = Drawn(drawn_of(story(program), "--top", "2", "--resource", "memory"))
    must_be("panels", drawn.panel_names(),
            ["memory pressure of /batch/import", "memory pressure of /batch/index"])
    must("not with --group" in chart_fault(story(program), "--top=2", "--group=/"),
         "both are refused")


@contextlib.contextmanager
def summary(text: str) -> Iterator[str]:
    """Yields the name of a temporary file with `text`, which contains messages of psitrace."""
    with tempfile.NamedTemporaryFile() as file:
        file.write(text.encode())
        file.flush()
        yield file.name


def check_what_the_summary_tells(program: str) -> None:
    """The chart uses the time of day and the recording's start from the summary. If the summary has
    no time of day, the chart is unchanged.
    """
    whole = (
        "psitrace: 0 is 2026-11-30 03:01:36.000 UTC\n"
        "psitrace: the recording begins at 100.000 s: what is before is made up\n"
    )
    with summary(whole) as file:
        text = Drawn(drawn_of(story(program), "--summary", file)).text
        must("time of day, 30 November 2026, UTC" in text, "the day stands below the axis")
        chart = drawn_of(story(program), "--start", "2026-11-30T03:01:36Z", "--from", "100")
        must(drawn_of(story(program), "--summary", file) == chart,
             "it is the chart by --start and --from")
        must(drawn_of(story(program), "--summary", file, "--from", "0") != chart,
             "--from goes before it")
        must(
            "give one of both"
            in chart_fault(story(program), f"--summary={file}", "--start=2026-11-30T03:01:36Z"),
            "not both",
        )
    with summary("psitrace: 300.000 s, processors 2, groups 5, lines 77151\n") as file:
        must(drawn_of(story(program), "--summary", file) == drawn_of(story(program)),
             "without a time of day nothing changes")
    with summary("no summary\n") as file:
        must("has no line of psitrace" in chart_fault(story(program), f"--summary={file}"),
             "another file is refused")


def check_patterns_that_match_nothing(program: str) -> None:
    """Patterns that match no group are reported, and the chart is still drawn."""
    unmatched = (
        b"chart: note: no group of the replay matches 'system.slice/*' of ruleset 'a service"
    )
    for rules, said in (("services", unmatched), ("runaway", b"")):
        done = subprocess.run([CHART, f"--rules={TOP}/examples/{rules}.json"],
                              input=run([program, "replay", f"{TOP}/examples/{STORY}"]),
                              capture_output=True)  # fmt: skip
        must_be(f"the status by {rules}", (done.returncode, done.stdout[:5]), (0, b"<?xml"))
        must(done.stderr.startswith(said) if said else not done.stderr,
             f"what is said by {rules}: {done.stderr!r}")
