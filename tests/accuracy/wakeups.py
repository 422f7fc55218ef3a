"""Checks of the times at which wakeups are counted: the times that the probe records, the
converter's choice among possible times, and bounds on the totals.
"""
from __future__ import annotations

import re

from harness import must, must_be
from shared.stored import accepted, compared, converted, digest_of, digests, hide, recording, stored

from psiconvert.wakeups import (  # noqa: E402
    Counting, bounds_of, counted_at, lag_bounds, put_at, with_wakeups,
)
from psiread.events import Event, ReadyProbe, Switch, Wakeup  # noqa: E402

# The part of the stored recording that is used: its first 20 s.
PART = ("--to", "20")
US = 1000
# Task 8 is counted by psi at 100 us, and its wakeup event is at 160 us. Then it runs, and is
# counted again when it moves. Task 9 is counted long before its wakeup event, so the probe event
# belongs to another wakeup.
EVENTS: list[Event] = [
    ReadyProbe(100 * US, 0, 7, 8), Wakeup(160 * US, 0, 7, 8, 0), ReadyProbe(170 * US, 0, 7, 8),
    Switch(180 * US, 0, 7, 7, "S", 8),
    Wakeup(190 * US, 1, 3, 8, 0), ReadyProbe(200 * US, 1, 3, 9), Wakeup(60_000 * US, 1, 3, 9, 1),
]  # fmt: skip


def check_what_the_probe_tells(_: str) -> None:
    """A wakeup is paired only with its own probe event. As chosen, it gets the time of the probe
    event, the time of its own event, or the time halfway between. Events stay in order of time.
    """
    must_be("what is counted", counted_at(EVENTS), {1: 100 * US})
    for counting, time_us in ((Counting.PROBE, 100), (Counting.MIDDLE, 130), (Counting.EVENT, 160)):
        events = put_at(EVENTS, counted_at(EVENTS), counting)
        found = [it.time_ns // US for it in events if isinstance(it, Wakeup)]
        must_be(f"the wakeups {counting}", found, [time_us, 190, 60_000])
        must_be("the order", [it.time_ns for it in events], sorted(it.time_ns for it in events))


def check_bounds_of_a_trace(_: str) -> None:
    """A wakeup can be moved to its earliest or its latest possible time, whatever its present time
    is, but never to a time before its task slept.
    """
    for place in (100, 130, 160):
        lines = [
            "0 fork 8 / 0", "50000 switch 0 8 idle", "90000 switch 0 0 sleep",
            f"{place * US} wake 8 0", "170000 end",
        ]
        for is_first, time_us in ((True, 100), (False, 160)):
            found = with_wakeups(lines, bounds_of(EVENTS, 0), is_first)
            must_be(f"from {place}, {is_first}", found[3:],
                    [f"{time_us * US} wake 8 0", "170000 end"])
    lines[2] = "140000 switch 0 0 sleep"
    must_be("not before it slept", with_wakeups(lines, bounds_of(EVENTS, 0), True)[3],
            "140000 wake 8 0")
    must_be("one of which nothing tells", with_wakeups(lines, bounds_of([], 0), True)[3],
            "160000 wake 8 0")
    must_be("up to 15 us before", with_wakeups(lines, lag_bounds(15 * US), True)[3],
            "145000 wake 8 0")
    must_be("a trace that begins later",
            with_wakeups(["1000 wake 8 0"], bounds_of(EVENTS, 120 * US), False), ["40000 wake 8 0"])


def totals_of(printed: bytes) -> list[tuple[str, int, int]]:
    """Returns the group, the machine's growth (us) and the trace's growth (us) of each total in a
    table.
    """
    rows = re.findall(r"^\| (/\S*) +\| \S+ +\| +(\d+) \| +(\d+) \|[^|]*\| +(\d+) \| +(\d+) \|",
                      printed.decode(), re.MULTILINE)
    return [(row[0], int(row[place]), int(row[place + 1])) for row in rows for place in (1, 3)]


def check_the_bracket(program: str) -> None:
    """Each total that the machine reported lies between the totals of two traces. In one of them
    tasks become ready at their wakeup events, in the other when the kernel's PSI counted the
    wakeup. The totals of a trace with times halfway between are within the limits.
    """
    with recording("wakeups") as folder:
        done = converted(folder, *PART)
        must_be("the sha256", digest_of(done.output), digests()["wakeups"])
        must_be("the summary", done.said, stored("wakeups.summary"))
        accepted(program, done.output)
        found = {
            way: compared(program, folder, converted(folder, *PART, "--wakeups", way).output)
            for way in ("probe", "middle", "event")
        }
        must_be("the statuses", [it.status for it in found.values()], [0, 0, 0])
        bars = [re.findall(r"\S+ \.\. \S+ %", it.output.decode()) for it in found.values()]
        must(len(bars[0]) > 20 and bars[0] == bars[1] == bars[2],
             f"the bars don't depend on where wakeups stand: {bars}")
        late, early = totals_of(found["event"].output), totals_of(found["probe"].output)
        for (_, machine, one), (_, _, two) in zip(late, early):
            must(min(one, two) <= 1.005 * machine and max(one, two) >= 0.995 * machine,
                 f"{machine} is from {one} to {two}")
        for group, machine, trace in totals_of(found["middle"].output):
            most = 0.015 if group == "/" else 0.025
            must(machine < 500_000 or abs(trace - machine) < most * machine,
                 f"{group}: {trace} of {machine}")


def check_a_recording_without_the_probe(_: str) -> None:
    """Without the probe, the output contains no numbers that only the probe can provide."""
    with recording("wakeups") as folder:
        hide(folder, b"pch")
        done = converted(folder, *PART)
        must("wakeups when psi counts them" not in done.said, done.said)
    with recording("exec-2") as folder:
        done = converted(folder, "--wakeups", "middle", status=2)
        must("the recording has no such probe" in done.said and not done.output, done.said)
        must(
            "psitrace: wakeups at their events, which psi counts somewhat earlier"
            in converted(folder).said,
            "it says so",
        )
