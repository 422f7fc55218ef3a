"""Checks of a chart's time axis, of times of day, and of the trace's length in the title."""
from __future__ import annotations

import datetime

from chart.near import must_be_near
from harness import must, must_be
from shared.outputs import story

from .drawn import LEFT, RIGHT, UNITS, Drawn, compare, drawn_of
from shared.printed import LEVELS, Printed

MS = 10**6
SECOND = 10**9
REPORT = "report {} / io\n" + "".join(
    f"{level} avg10=1.00 avg60=0.00 avg300=0.50 total=0\n" for level in LEVELS
)
KILL = "kill {} ruleset=0 action=0 /a\n"

# For each length of a trace (ms): the unit and the step of the time axis, and the length in the
# title.
LENGTHS = (
    (1, "seconds", 0.0001, "0.001 s"), (700, "seconds", 0.1, "0.7 s"),
    (2000, "seconds", 0.2, "2 s"),
    (45000, "seconds", 5, "45 s"), (61500, "seconds", 10, "1 min 2 s"),
    (900000, "minutes", 2, "15 min"),
    (7260000, "minutes", 20, "2 h 1 min"), (86400000, "hours", 3, "1 d"),
    (3456000000, "days", 5, "40 d"),
    (60000000000, "days", 100, "694 d 11 h"),
)  # fmt: skip
# For each length of a trace (ns): the length in the title.
ROUNDED = (
    (1, "0.000000001 s"), (123456, "0.000123 s"), (12345678901, "12.3 s"), (59949999999, "59.9 s"),
    (59950000000, "1 min"), (299999123456, "5 min"), (3599500000000, "1 h"),
    (7230000000000, "2 h 1 min"),
    (86399999999999, "1 d"), (100000000000001, "1 d 4 h"),
)  # fmt: skip
# For each start of a trace and its length (s): the marks of the time axis, and the text below the
# axis.
WALLS = (
    ("2026-11-28T13:58:12Z", 300, ["13:58:30", "13:59:00", "13:59:30", "14:00:00", "14:00:30",
     "14:01:00", "14:01:30",
     "14:02:00", "14:02:30", "14:03:00"], "time of day, 28 November 2026, UTC"),
    ("2026-11-28T13:58:12.25+01:00", 1,
     ["13:58:12.4", "13:58:12.6", "13:58:12.8", "13:58:13.0", "13:58:13.2"],
     "time of day, 28 November 2026, UTC+01:00"),
    ("2026-12-31T23:30:00-05:30", 3600,
     ["23:30", "23:40", "23:50", "1 Jan", "00:10", "00:20", "00:30"],
     "time of day, 31 December 2026 to 1 January 2027, UTC-05:30"),
    ("2028-02-27T06:00:00Z", 4 * 86400,
     ["12:00", "28 Feb", "12:00", "29 Feb", "12:00", "1 Mar", "12:00", "2 Mar"],
     "time of day, 27 February to 2 March 2028, UTC"),
    ("2026-11-28T00:00:00Z", 30 * 86400,
     ["28 Nov", "3 Dec", "8 Dec", "13 Dec", "18 Dec", "23 Dec", "28 Dec"],
     "time of day, 28 November to 28 December 2026, UTC"),
)  # fmt: skip


def short_replay(length: int) -> bytes:
    """Returns output of the form that a replay of `length` ns prints: two reports and a kill."""
    half = length // 2
    lines = REPORT.format(half) + KILL.format(half) + (
        REPORT.format(length) if length > half else ""
    )
    return f"{lines}end {length} ticks=2 events=0 kills=1\n".encode()


def check_time_axes(_: str) -> None:
    """For a trace of any length, the time axis has a few marks at round times, and the title has
    the length.
    """
    for length, unit, step, title in LENGTHS:
        text, whole = short_replay(length * MS), length * MS
        drawn = Drawn(drawn_of(text, "--resource", "io"))
        compare(Printed(text), drawn, ["/"], ["io"])
        must_be(f"the unit of {title}", drawn.unit, unit)
        must_be(f"the numbers of {title}", drawn.times[:2], [0, round(step * UNITS[unit])])
        must_be_near(f"the ends of {title}", [(drawn.x(0),), (drawn.x(whole),)],
                     [(LEFT,), (RIGHT,)])
        must_be("the title", drawn.title, f"Pressure of /, {title}, 1 would-be kill")


def check_titles_are_rounded(_: str) -> None:
    for length, title in ROUNDED:
        drawn = Drawn(drawn_of(short_replay(length)))
        must_be(f"the title of {length} ns", drawn.title,
                f"Pressure of /, {title}, 1 would-be kill")


def check_the_clock_on_the_wall(_: str) -> None:
    for start, length, texts, caption in WALLS:
        drawn = Drawn(drawn_of(short_replay(length * SECOND), "--start", start))
        must_be(f"the marks from {start}", drawn.time_texts, texts)
        must(caption in drawn.texts(drawn.svg), f"{caption} stands below the axis")
        steps = {round(b - a, 1) for a, b in zip(drawn.time_places, drawn.time_places[1:])}
        must(len(steps) <= 2 and max(steps) - min(steps) < 0.2, f"{steps} is one step")


def check_marks_stand_where_the_clock_says(program: str) -> None:
    """In the chart of the example trace, the kill and each mark of the axis are at their times of
    day.
    """
    start = "2026-11-28T13:58:12.5Z"
    drawn = Drawn(drawn_of(story(program), "--group=/batch", "--start", start))
    began = datetime.datetime.fromisoformat(start.replace("Z", "+00:00"))
    for text, place in zip(drawn.time_texts, drawn.time_places):
        at = datetime.datetime.fromisoformat(f"2026-11-28T{text}+00:00")
        wanted = LEFT + (at - began).total_seconds() * (RIGHT - LEFT) / 300
        must_be_near(f"the mark {text}", [(place,)], [(wanted,)])
    must_be("marks, how many", len(drawn.time_texts), 10)
    hint = "/batch/import would be killed at 14:00:38.5 by ruleset 0, action 0"
    must_be("what is told of the kill", drawn.hints("kill"), [[hint]])
    must_be("what is told of the end", drawn.hints("gone"),
            [["/batch/import was gone by 14:01:54.5"]])
    must_be_near("the kill", [(it,) for it in drawn.places("kill")],
                 [(LEFT + 146 * (RIGHT - LEFT) / 300,)])


def check_a_part_by_the_clock(program: str) -> None:
    start, zone = "--start=2026-11-28T13:58:12Z", "2026-11-28T15:{}+01:00"
    by_clock = ["--from", zone.format("00:12"), "--to", zone.format("02:12.5")]
    drawn = drawn_of(story(program), start, *by_clock)
    must_be("a part by the clock", drawn,
            drawn_of(story(program), start, "--from=120", "--to=240.5"))
    late = Drawn(drawn_of(story(program), "--start=2026-11-28T23:58:12Z"))
    hint = "/batch/import would be killed at 00:00:38 on 29 November by ruleset 0, action 0"
    must_be("a kill on another day", late.hints("kill"), [[hint]])
