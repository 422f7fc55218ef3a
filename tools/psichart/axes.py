"""Computes the axes of a chart: round steps of percentages, bytes and times, with their labels."""
from __future__ import annotations

import itertools
import math
from typing import Iterator, NamedTuple, Optional

from psicli.times import (
    DAY,
    HOUR,
    MINUTE,
    MONTHS,
    SECOND,
    ClockTime,
    WallTime,
    clock_time,
    duration,
    seconds,
    zone,
)

from .svg import LEFT, LETTER, RIGHT

CLOCK_STEPS = [
    count * SECOND for count in (10, 20, 30, 60, 120, 300, 600, 1200, 1800, 3600, 7200,
    10800, 21600, 43200)
]  # fmt: skip
UNITS = (("days", DAY), ("hours", HOUR), ("minutes", MINUTE), ("seconds", SECOND))
SIZES = ("bytes", "KiB", "MiB", "GiB", "TiB", "PiB", "EiB")
# The largest number of steps on a time axis, and the smallest gap (pixels) between two labels.
MOST_STEPS = 10
GAP = 12


class Mark(NamedTuple):
    """A time on an axis (ns since the start of the trace), and its label."""

    time_ns: int
    text: str


def round_steps() -> Iterator[int]:
    """Yields 1, 2 and 5 times each power of ten, in ascending order."""
    return (digit * int(10**power) for power in itertools.count() for digit in (1, 2, 5))


def share_step(most: int) -> int:
    """Returns the smallest round step with which five steps reach `most`. Both are in hundredths of
    a percent.
    """
    return next(step for step in round_steps() if 5 * step >= most)


def byte_step(most: int) -> int:
    """Returns the smallest round step with which five steps reach `most` bytes. The step is a round
    number of bytes, KiB, MiB and so on.
    """
    counts = (1, 2, 5, 10, 20, 50, 100, 200, 500)
    steps = (count * int(1024**size) for size in itertools.count() for count in counts)
    return next(step for step in steps if 5 * step >= most)


def byte_text(number: int, step: int) -> str:
    """Formats a number of bytes in the largest unit that is at most the step."""
    size = next(it for it in reversed(range(len(SIZES))) if step >= 1024**it)
    return f"{number // 1024**size} {SIZES[size]}"


def time_steps() -> Iterator[int]:
    """Yields round steps of time (ns) in ascending order. From 10 s on, they are the steps of a
    clock: seconds, minutes, hours, and then days.
    """
    yield from itertools.takewhile(lambda step: step < 10 * SECOND, round_steps())
    yield from CLOCK_STEPS
    yield from (step * DAY for step in round_steps())


class TimeAxis:
    """The time axis of a chart, from `start` to `end` (ns since the start of the trace)."""

    def __init__(self, start: int, end: int) -> None:
        self.start, self.end = start, end
        self.step = next(step for step in time_steps() if MOST_STEPS * step >= end - start)
        self.unit, self.length = next(
            (unit, it) for unit, it in UNITS if self.step >= it or it == SECOND
        )

    def x(self, time_ns: int) -> float:
        """Returns the x coordinate (pixels) of `time_ns`. It is rounded to two decimals, like the
        coordinates in the picture, so that a time always counts in the pixel column in which it is
        drawn.
        """
        return round(LEFT + (time_ns - self.start) * (RIGHT - LEFT) / (self.end - self.start), 2)

    def holds(self, time_ns: int) -> bool:
        """Returns whether `time_ns` lies within the chart."""
        return self.start <= time_ns <= self.end

    def marks(self) -> Iterator[Mark]:
        """Yields the labeled times of the axis."""
        for time_ns in range(-(-self.start // self.step) * self.step, self.end + 1, self.step):
            yield Mark(
                time_ns,
                seconds(time_ns) if self.unit == "seconds" else str(time_ns // self.length),
            )

    def caption(self) -> str:
        """Returns the text below the axis."""
        return f"{self.unit} since the start of the trace"

    def time_text(self, time_ns: int) -> str:
        """Formats a time (ns) in the form of the axis labels, for example `146 s` or `2 h 1 min`.
        """
        return f"{seconds(time_ns)} s" if self.unit == "seconds" else duration(time_ns)


class WallAxis(TimeAxis):
    """A time axis that is labeled with the time of day. `wall` is the time of day at the start of
    the trace.
    """

    def __init__(self, start: int, end: int, wall: WallTime) -> None:
        super().__init__(start, end)
        self.wall = wall
        self.first = wall.epoch + wall.ahead
        self.step = next(step for step in time_steps() if self.has_room(step))

    def has_room(self, step: int) -> bool:
        """Returns whether labels at a distance of `step` ns fit on the axis."""
        steps = math.ceil((self.end - self.start) / step)
        width = LETTER * len(self.text(step, step)) + GAP
        return steps <= MOST_STEPS and steps * width <= RIGHT - LEFT

    def text(self, local: int, step: int) -> str:
        """Returns the label of the local time `local` (ns since 1970). At midnight the label is the
        date.
        """
        at = clock_time(local)
        if step >= DAY or (local % DAY == 0 and self.has_days()):
            return f"{at.date.tm_mday} {MONTHS[at.date.tm_mon - 1][:3]}"
        if step >= MINUTE:
            return at.clock[:5]
        decimals = len(seconds(step % SECOND)) - 2 if step % SECOND else 0
        return (
            f"{at.clock.partition('.')[0]}.{local % SECOND:09}"[: 9 + decimals]
            if decimals
            else at.clock
        )

    def marks(self) -> Iterator[Mark]:
        first, last = self.first + self.start, self.first + self.end
        for local in range(-(-first // self.step) * self.step, last + 1, self.step):
            yield Mark(local - self.first, self.text(local, self.step))

    def days(self) -> tuple[ClockTime, ClockTime]:
        """Returns the local times at both ends of the chart."""
        return clock_time(self.first + self.start), clock_time(self.first + self.end)

    def has_days(self) -> bool:
        """Returns whether the chart starts and ends on different dates."""
        first, last = self.days()
        return first.date[:3] != last.date[:3]

    def caption(self) -> str:
        first, last = self.days()
        until = f" to {last.day} {last.date.tm_year}" if self.has_days() else ""
        year = (
            f" {first.date.tm_year}" if not until or first.date.tm_year != last.date.tm_year else ""
        )
        return f"time of day, {first.day}{year}{until}, {zone(self.wall.ahead)}"

    def time_text(self, time_ns: int) -> str:
        at = clock_time(self.first + time_ns)
        return f"{at.clock} on {at.day}" if self.has_days() else at.clock


def time_axis(start: int, end: int, wall: Optional[WallTime]) -> TimeAxis:
    """Returns an axis labeled with the time of day, or with the trace's time if `wall` is None."""
    return WallAxis(start, end, wall) if wall else TimeAxis(start, end)
