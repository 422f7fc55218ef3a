"""Draws the pictures of the report: a time line for each group and resource, and a strip for each
detector. psichart draws the time lines.
"""
from __future__ import annotations

from typing import Any, NamedTuple, Optional
from xml.etree import ElementTree

from psichart.axes import TimeAxis
from psichart.chart import FLAT_HEIGHT, NAME_ROOM, Chart, Place, Wanted
from psichart.marks import ROW
from psichart.panels import MemoryPanel, Panel, PressurePanel
from psichart.replay import Replay
from psichart.svg import WIDTH, Element, add, decimal
from psicli.times import seconds
from psireplay.lines import AVERAGES, LEVELS
from psireplay.rules import Rules
from psireplay.samples import Samples
from psiwhy.truths import spans

MS = 10**6
USE = "use"
HEIGHT = 132
# A share of 100 percent, in hundredths of a percent.
WHOLE = 10_000
# The space (pixels) above a picture's name, for the labels of kills, and below its panel, for the
# times.
TOP, BOTTOM = 8, 22
# The largest number of characters in a picture's name. A name of this length fits on a phone, where
# letters are twice as large. The name of a memory picture is shorter, since a legend follows it.
LONGEST, LONGEST_OF_MEMORY = 60, 42
# The height (pixels) of the space for events of triggers, below the curves of a picture.
EVENTS = 16
# The width and the height of a strip in its own SVG units. The page stretches each strip to the
# page's width.
STRIP, STRIP_HEIGHT = 1000, 12


class Picture(NamedTuple):
    """A picture with the group and resource that it shows, and with the values for the page's
    script.
    """

    path: str
    resource: str
    name: str
    svg: Element
    data: dict[str, Any]


class Figure(Chart):
    """A chart of one group and one resource, without a title and without a legend."""

    def __init__(self, wanted: Wanted, has_labels: bool = True) -> None:
        """Creates the chart. Without labels, the vertical lines have only tooltips."""
        super().__init__(wanted)
        for mark in [] if has_labels else self.marks:
            mark.row = None
        self.unnamed = self.unnamed if has_labels else []
        rows = max((mark.row + 1 for mark in self.marks if mark.row is not None), default=0)
        self.marks_top = TOP + (ROW if self.unnamed else 0)
        self.marks_bottom = self.marks_top + ROW * rows
        self.top = self.marks_bottom + 12 + NAME_ROOM
        self.height = FLAT_HEIGHT if self.panels[0].is_flat() else HEIGHT
        self.places = [Place(self.top, self.height)]
        self.bottom = self.top + self.height + EVENTS

    def most(self) -> int:
        """Returns the value at the upper edge of the chart's panel."""
        panel = self.panels[0]
        most = panel.most()
        step = panel.apart(most)
        return -(-most // step) * step

    def drawn(self) -> Element:
        """Returns the finished picture, with a name for screen readers."""
        height = self.bottom + BOTTOM
        self.svg = ElementTree.Element(
            "svg",
            {"viewBox": f"0 0 {WIDTH} {height}", "role": "img", "aria-label": self.panels[0].name},
        )
        self.draw_time()
        if self.wanted.recorded:
            self.draw_supposed()
        panel = self.panels[0]
        panel.remark = self.scale_remark(panel)
        panel.longest = LONGEST_OF_MEMORY if panel.kind == USE else LONGEST
        panel.draw(self.svg, self.top, self.height, panel.most())
        self.draw_marks()
        for caption in [it for it in self.svg if it.get("class") == "small"]:
            self.svg.remove(caption)
        return self.svg

    def scale_remark(self, panel: Panel) -> str:
        """Returns a note if the scale ends below 100 percent, since scales differ between pictures.
        """
        if panel.kind == USE or panel.is_flat() or self.most() >= WHOLE:
            return ""
        return f"scale to {decimal(self.most() / 100)} %"

    def has_events(self) -> bool:
        """Returns whether any picture of the report shows events of triggers, since all pictures
        share one legend.
        """
        return any(self.replay.events.values())

    def legend(self) -> Element:
        """Returns the legend that all pictures share."""
        self.svg = ElementTree.Element(
            "svg", {"viewBox": f"0 38 {WIDTH} {46 if self.wanted.recorded else 26}", "role": "img"}
        )
        self.svg.attrib.update({"aria-label": "what the lines mean", "class": "meaning"})
        self.draw_legend()
        if self.wanted.recorded:
            self.draw_legend_beside()
        return self.svg


def pressure_data(replay: Replay, path: str, resource: str) -> dict[str, Any]:
    """Returns the values of a group's reports for the script: times in ms, and shares in hundredths
    of a percent. Values are null while the group doesn't exist.
    """
    series = replay.series[path, resource]
    shares = {
        f"{level} {average}": series.shares[level, average]
        for level in LEVELS
        for average in AVERAGES
    }
    shares = {look: values for look, values in shares.items() if values}
    times_ms: list[Optional[int]] = []
    lines: dict[str, list[Optional[int]]] = {look: [] for look in shares}
    for place, time_ns in enumerate(series.times_ns):
        if place and series.rounds[place] > series.rounds[place - 1] + 1:
            times_ms.append(None)
            for values in lines.values():
                values.append(None)
        times_ms.append(time_ns // MS)
        for look, values in lines.items():
            values.append(shares[look][place])
    events = {
        level: [it // MS for it in replay.events.get((path, resource, level), [])]
        for level in LEVELS
    }
    return {"t": times_ms, "s": lines, "e": {level: at for level, at in events.items() if at}}


def memory_data(panel: MemoryPanel) -> dict[str, Any]:
    """Returns the memory samples of a group for the script: times in ms, and sizes in bytes."""
    rows: list[tuple[Optional[int], Optional[int], Optional[int]]] = []
    for life in panel.lives:
        rows += [(None, None, None)] if rows else []
        rows += [(it.time_ns // MS, it.memory, it.swap) for it in life]
    times_ms, memory, swap = (list(column) for column in zip(*rows)) if rows else ([], [], [])
    return {
        "t": times_ms,
        "s": {"memory-use": memory, **({"swap-use": swap} if panel.has_swap else {})},
        "e": {},
    }


def picture(wanted: Wanted, has_labels: bool) -> Picture:
    """Draws the picture of a group's pressure, or of its memory, as `wanted` requests."""
    figure = Figure(wanted, has_labels)
    panel, path = figure.panels[0], wanted.replay.groups[0]
    if isinstance(panel, PressurePanel):
        data = pressure_data(wanted.replay, path, panel.kind)
    else:
        assert isinstance(panel, MemoryPanel)
        data = memory_data(panel)
    data.update(
        top=figure.top, bottom=figure.top + figure.height, below=figure.bottom, most=figure.most(),
        step=panel.kind == USE,
        marks=[mark.events[0].time_ns // MS for mark in figure.marks],
    )  # fmt: skip
    panel.name = f"{panel.name} of {path}"
    return Picture(path, panel.kind, panel.name, figure.drawn(), data)


def of_group(replay: Replay, path: str) -> Replay:
    """Returns a copy of a replay in which only the group `path` is drawn."""
    found = Replay([path])
    found.series, found.events, found.kills, found.rounds, found.end = (
        replay.series, replay.events, replay.kills, replay.rounds, replay.end,
    )  # fmt: skip
    return found


class Album:
    """Draws the pictures of one replay. All have the same time axis. Vertical lines go through all
    pictures, but only the first picture has labels for them.
    """

    def __init__(
        self, replay: Replay, axis: TimeAxis, rules: Optional[Rules], samples: Optional[Samples]
    ) -> None:
        self.replay, self.axis, self.rules, self.samples = replay, axis, rules, samples
        self.is_first = True

    def picture(self, wanted: Wanted) -> Picture:
        found = picture(wanted, self.is_first)
        self.is_first = False
        return found

    def pressure(self, path: str, resource: str, recorded: Optional[Replay] = None) -> Picture:
        beside = of_group(recorded, path) if recorded else None
        return self.picture(
            Wanted(of_group(self.replay, path), [resource], self.axis, self.rules, None, beside)
        )

    def memory(self, path: str) -> Picture:
        return self.picture(
            Wanted(of_group(self.replay, path), [], self.axis, self.rules, self.samples, None)
        )

    def legend(self, path: str, recorded: Optional[Replay] = None) -> Element:
        return Figure(
            Wanted(of_group(self.replay, path), ["io"], self.axis, self.rules, None, recorded)
        ).legend()


# ---------------------------------------------------------------- strips for detectors


def strip(
    what: str, axis: TimeAxis, evaluations: list[int], kinds: dict[str, list[int]], marks: list[int]
) -> Element:
    """Draws a strip that shows when conditions were true. `evaluations` are the times (ns) of all
    evaluations, and `kinds` has those at which each kind of condition was true. Each rectangle
    extends from the first such evaluation to the evaluation after the last. `marks` are the times
    (ns) of vertical lines.
    """
    said = "; ".join(
        spans_text(spans(times_ns, evaluations)) for times_ns in list(kinds.values())[-1:]
    )
    view = f"0 0 {STRIP} {STRIP_HEIGHT}"
    svg = ElementTree.Element(
        "svg", {"class": "strip", "viewBox": view, "preserveAspectRatio": "none", "role": "img"}
    )
    svg.set("aria-label", f"{what}: {said or 'never'}")
    add(svg, "rect", class_="never", width=STRIP, height=STRIP_HEIGHT)
    after = dict(zip(evaluations, [*evaluations[1:], axis.end]))
    for look, times_ns in kinds.items():
        for start, end in spans(times_ns, evaluations):
            start_x, end_x = (
                STRIP * (it - axis.start) / (axis.end - axis.start) for it in (start, after[end])
            )
            width = max(end_x - start_x, 2)
            add(svg, "rect", class_=look, x=start_x, width=width, height=STRIP_HEIGHT)
    for time_ns in marks:
        add(svg, "rect", class_="killed",
        x=STRIP * (time_ns - axis.start) / (axis.end - axis.start) - 1.5, width=3,
        height=STRIP_HEIGHT)  # fmt: skip
    return svg


def spans_text(found: list[tuple[int, int]]) -> str:
    """Formats periods of time (ns). Only the first six are listed."""
    texts = [
        f"from {seconds(start)} to {seconds(end)} s" if end > start else f"at {seconds(start)} s"
        for start, end in found
    ]
    return ", ".join(texts[:6]) + (f" and {len(texts) - 6} times more" if len(texts) > 6 else "")
