"""Draws the panels of a chart. A panel shows the pressure of one group for one resource, or the
memory of one group.
"""
from __future__ import annotations

import itertools
from typing import Iterator, NamedTuple, Optional

from psicli.times import SECOND
from psireplay.lines import AVERAGES, LEVELS
from psireplay.samples import Life, Sample

from .axes import TimeAxis, byte_step, byte_text, share_step
from .replay import Replay, Series
from .svg import (
    LEFT,
    NAME_LETTER,
    RIGHT,
    SMALL_LETTER,
    Element,
    Point,
    add,
    add_line,
    counted,
    decimal,
    short,
    thinned,
    thinned_steps,
)
from .thresholds import Threshold, draw_thresholds

# The smallest value at the upper edge of a panel: 1 % (in hundredths of a percent) or 1 MiB (in
# bytes). It prevents tiny values from looking large.
LEAST_SHARE = 100
LEAST_BYTES = 1024**2
# The time after which an average that began at 0 is meaningful, in multiples of the average's
# period.
SETTLED = 3
# The left end of a panel's name, and the gap to the right of the name (pixels).
NAME_LEFT, NAME_GAP = 16, 12
# The legend of a memory panel (pixels): the distance from its left end to the panel's right end,
# and the width of an entry. There is enough space for the larger letters of phone browsers.
MEMORY_LEGEND, MEMORY_ENTRY = 246, 140
# The largest number of characters in a text to the left of a panel.
COUNT_ROOM = 17


class Frame(NamedTuple):
    """The position and the scale of a panel: its upper edge and its height (pixels), and the value
    at its upper edge.
    """

    top: float
    height: float
    most: int

    @property
    def bottom(self) -> float:
        return self.top + self.height

    @property
    def scale(self) -> float:
        """Returns the number of pixels per unit of the panel's values."""
        return self.height / self.most


class Panel:
    """A panel: a name, an axis with a unit, and lines for the thresholds of rules. Subclasses draw
    the curves.
    """

    kind = ""
    of_what = ""

    def __init__(self, name: str, axis: TimeAxis, thresholds: list[Threshold]) -> None:
        self.name, self.axis, self.thresholds = name, axis, thresholds
        # The small text after the panel's name, and the largest number of characters of the name.
        self.remark, self.longest = "", 1000

    def most(self) -> int:
        """Returns the lower bound for the value at the panel's upper edge."""
        raise NotImplementedError

    def is_flat(self) -> bool:
        """Returns whether the panel has no content that needs its full height."""
        return False

    def has_events(self) -> bool:
        """Returns whether the panel shows events of triggers."""
        return False

    def name_end(self) -> float:
        """Returns the x coordinate (pixels) at which the space for the name ends."""
        return RIGHT

    def draw_name(self, panel: Element, y: float) -> None:
        """Draws the name, shortened to the available space. The tooltip contains the full name."""
        room = self.name_end() - NAME_LEFT - NAME_GAP
        if self.remark:
            room -= NAME_GAP + SMALL_LETTER * len(self.remark)
        shown = short(self.name, min(int(room / NAME_LETTER), self.longest))
        text = add(panel, "text", shown, class_="name", x=NAME_LEFT, y=y)
        if shown != self.name:
            add(text, "title", self.name)
        if self.remark:
            add(text, "tspan", self.remark, class_="small", dx=NAME_GAP)

    def step(self, most: int) -> int:
        """Returns the distance between horizontal lines for a scale from 0 to `most`."""
        raise NotImplementedError

    def apart(self, most: int) -> int:
        """Returns the distance between the panel's horizontal lines. A flat panel has lines only at
        its edges.
        """
        return most if self.is_flat() else self.step(most)

    def number(self, value: int, step: int) -> str:
        """Formats the value of a horizontal line. Lines are at multiples of `step`."""
        raise NotImplementedError

    def draw_inside(self, panel: Element, frame: Frame) -> None:
        """Draws the curves. Implemented by subclasses."""
        raise NotImplementedError

    def draw(self, svg: Element, top: float, height: float, most: int) -> None:
        """Draws the panel. Its scale ends at the first horizontal line at or above `most`."""
        step = self.apart(most)
        frame = Frame(top, height, -(-most // step) * step)
        panel = add(svg, "g", class_=f"panel {self.kind}")
        self.draw_name(panel, top - 13)
        middle = top + height / 2
        turn = f"rotate(-90 44 {decimal(middle)})"
        add(panel, "text", self.of_what, class_="small", x=44, y=middle, text_anchor="middle",
            transform=turn)  # fmt: skip
        axis = add(panel, "g", class_="share")
        for value in range(0, frame.most + 1, step):
            y = frame.bottom - value * frame.scale
            add(axis, "line", class_="grid" if value else "edge", x1=LEFT, y1=y, x2=RIGHT, y2=y)
            add(axis, "text", self.number(value, step), x=LEFT - 7, y=y, dy=".35em",
            text_anchor="end")  # fmt: skip
        self.draw_inside(panel, frame)
        draw_thresholds(panel, self.thresholds, frame.top, frame.bottom, frame.scale)


class Curves:
    """The curves of a group's averages for one resource, in one style."""

    def __init__(self, series: Series, axis: TimeAxis, style: str = "") -> None:
        self.series, self.axis, self.style = series, axis, style
        self.shown = [place for place, time_ns in enumerate(series.times_ns) if axis.holds(time_ns)]

    def most(self) -> int:
        """Returns the largest value of all curves, in hundredths of a percent."""
        shares = (
            shares[place]
            for shares in self.series.shares.values()
            if shares
            for place in self.shown
        )
        return max(shares, default=0)

    def draw(self, panel: Element, frame: Frame) -> None:
        """Draws a curve for each average and level."""
        for average, level in itertools.product(reversed(AVERAGES), LEVELS):
            shares = self.series.shares[level, average]
            lines = add(panel, "g", class_=f"series {level} {average}{self.style}")
            style = {"class_": "climbing"} if self.does_climb(average) else {}
            for places in self.unbroken() if shares else ():
                points = (
                    (self.axis.x(self.series.times_ns[it]), frame.bottom - shares[it] * frame.scale)
                    for it in places
                )
                add_line(lines, thinned(points), **style)

    def does_climb(self, average: str) -> bool:
        """Returns whether the curve only shows the rise of an average from 0 at the start of the
        trace. At that time the machine's own average had another value, which isn't known.
        """
        period = int(average[len("avg") :]) * SECOND
        if self.axis.start >= period or self.axis.end >= SETTLED * period:
            return False
        each = [
            [shares[place] for place in self.shown]
            for shares in (self.series.shares[level, average] for level in LEVELS)
            if shares
        ]
        return any(any(it) for it in each) and all(
            one <= other for it in each for one, other in zip(it, it[1:])
        )

    def unbroken(self) -> Iterator[list[int]]:
        """Yields lists of the indexes of consecutive reports. Between two lists the group didn't
        exist for a time of at least two pixels.
        """
        rounds, times_ns = self.series.rounds, self.series.times_ns
        run: list[int] = []
        for place in self.shown:
            if run and rounds[place] > rounds[place - 1] + 1:
                if self.axis.x(times_ns[place]) - self.axis.x(times_ns[place - 1]) >= 2:
                    yield run
                    run = []
            run.append(place)
        if run:
            yield run


class PressurePanel(Panel):
    """A panel with a group's averages for one resource, from one replay or two. A row of ticks
    below the curves shows the events of the group's triggers.
    """

    of_what = "share of time"

    def __init__(
        self,
        name: str,
        axis: TimeAxis,
        thresholds: list[Threshold],
        replays: list[Replay],
        path: str,
        resource: str,
    ) -> None:
        super().__init__(name, axis, thresholds)
        self.kind = resource
        found = [replay.series.get((path, resource), Series()) for replay in replays]
        self.curves = [Curves(series, axis, style) for series, style in zip(found, ("", " was"))]
        # The times (ns) of the events that are shown, by replay and level.
        self.events = [
            [
                list(filter(axis.holds, replay.events.get((path, resource, level), [])))
                for level in LEVELS
            ]
            for replay in replays
        ]

    def most(self) -> int:
        return max(
            LEAST_SHARE, *(it.most() for it in self.curves), *(it.level for it in self.thresholds)
        )

    def is_flat(self) -> bool:
        """Returns whether the panel contains no pressure, no event and no threshold."""
        return (
            not any(it.most() for it in self.curves)
            and not self.has_events()
            and not self.thresholds
        )

    def has_events(self) -> bool:
        return any(times_ns for events in self.events for times_ns in events)

    def step(self, most: int) -> int:
        return share_step(most)

    def number(self, value: int, step: int) -> str:
        return f"{decimal(value / 100)} %"

    def draw_inside(self, panel: Element, frame: Frame) -> None:
        for curves in self.curves:
            curves.draw(panel, frame)
        if self.caveat():
            add(panel, "text", self.caveat(), class_="small", x=RIGHT, y=frame.top - 13,
                text_anchor="end")  # fmt: skip
        self.draw_events(panel, frame.bottom + 5)

    def caveat(self) -> str:
        """Returns a note to the right of the name. It says which averages only show their rise from
        0.
        """
        climbing = [it for it in AVERAGES if self.curves[0].does_climb(it)]
        verb = "climbs" if len(climbing) == 1 else "climb"
        averages = " and ".join(climbing)
        return f"thin: {averages} only {verb} from 0, where the trace begins" if climbing else ""

    def name_end(self) -> float:
        return RIGHT - SMALL_LETTER * len(self.caveat())

    def draw_events(self, panel: Element, top: float) -> None:
        """Draws a tick for each pixel column with an event. Each level has its own row of ticks."""
        for row, (level, times_ns) in enumerate(zip(LEVELS, self.events[0])):
            columns = itertools.groupby(map(self.axis.x, times_ns), key=int)
            ticks = "".join(
                f"M{decimal(next(column))} {decimal(top + 7 * row)}v6" for _, column in columns
            )
            if ticks:
                add(panel, "path", class_=f"tick {level}", d=ticks)
        add(panel, "text", self.counts(), class_="small", x=LEFT - 7, y=top + 10, text_anchor="end")

    def counts(self) -> str:
        """Returns a text with the number of events in the chart. Adds the number in the replay of
        the recorded trace, if that differs.
        """
        count, *was = (sum(map(len, events)) for events in self.events)
        text = counted(count, "event")
        if was in ([], [count]):
            return text
        both = f"{text}, was {was[0]}"
        return both if len(both) <= COUNT_ROOM else f"{count}, was {was[0]}"


class MemoryPanel(Panel):
    """A panel with a group's memory and swap use. A sample is valid until the next sample, or until
    the removal of the group.
    """

    kind = "use"
    of_what = "bytes"

    def __init__(
        self, name: str, axis: TimeAxis, thresholds: list[Threshold], lives: list[Life]
    ) -> None:
        super().__init__(name, axis, thresholds)
        self.lives = [samples for samples in map(self.shown, lives) if samples]
        self.has_swap = any(it.swap for samples in self.lives for it in samples)

    def shown(self, life: Life) -> list[Sample]:
        """Returns the samples within the chart. The last sample before the chart's start is moved
        to the start, and the last sample is repeated at the end.
        """
        end = self.axis.end if life.end is None else min(life.end, self.axis.end)
        inside = [it for it in life.samples if self.axis.start <= it.time_ns <= end]
        before = [it for it in life.samples if it.time_ns < self.axis.start][-1:]
        if end >= self.axis.start:
            inside = [it._replace(time_ns=self.axis.start) for it in before] + inside
        return inside + [it._replace(time_ns=end) for it in inside[-1:]]

    def name_end(self) -> float:
        return RIGHT - MEMORY_LEGEND

    def most(self) -> int:
        used = (max(it.memory, it.swap) for samples in self.lives for it in samples)
        return max(LEAST_BYTES, max(used, default=0), *(it.level for it in self.thresholds))

    def step(self, most: int) -> int:
        return byte_step(most)

    def number(self, value: int, step: int) -> str:
        return byte_text(value, step)

    def draw_inside(self, panel: Element, frame: Frame) -> None:
        for place, what in enumerate(("memory", "swap") if self.has_swap else ("memory",)):
            style = f"series {what}-use"
            x, y = self.name_end() + MEMORY_ENTRY * place, frame.top - 17
            add(panel, "polyline", class_=style,
            points=f"{decimal(x)},{decimal(y)} {decimal(x + 32)},{decimal(y)}")  # fmt: skip
            add(panel, "text", what, x=x + 38, y=y + 4)
            lines = add(panel, "g", class_=style)
            for samples in self.lives:
                add_line(lines, thinned_steps(self.steps(samples, what == "swap", frame)))
        if not self.lives:
            middle, text = (LEFT + RIGHT) / 2, "no sample of its memory in this time"
            add(panel, "text", text, class_="note", x=middle, y=frame.top + 20,
            text_anchor="middle")  # fmt: skip

    def steps(self, samples: list[Sample], is_swap: bool, frame: Frame) -> Iterator[Point]:
        """Yields the points of a stepped curve. The value is constant between two samples."""
        last: Optional[float] = None
        for sample in samples:
            x, y = (
                self.axis.x(sample.time_ns),
                frame.bottom - (sample.swap if is_swap else sample.memory) * frame.scale,
            )
            if last is not None:
                yield x, last
            if y != last:
                yield x, y
            last = y
