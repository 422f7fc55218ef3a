"""Draws the whole chart: a title, a legend, panels with a common time axis, and vertical lines for
kills and removals of groups.
"""
from __future__ import annotations

from typing import NamedTuple, Optional
from xml.etree import ElementTree

from psicli.times import rounded
from psinames.groups import GroupNames
from psireplay.lines import Kill
from psireplay.rules import Rules
from psireplay.samples import Samples

from .axes import TimeAxis
from .marks import ROW, Event, Mark, marks_of, place
from .panels import MemoryPanel, Panel, PressurePanel
from .replay import Removal, Replay
from .svg import (
    LEFT,
    RIGHT,
    STYLE,
    STYLE_BESIDE,
    TITLE_LETTER,
    WIDTH,
    Element,
    add,
    counted,
    decimal,
    short,
)
from .thresholds import memory_thresholds, pressure_thresholds

NAMES = {
    "io": "IO pressure", "memory": "memory pressure", "cpu": "CPU pressure",
    "irq": "interrupt pressure", "use": "memory in use"
}  # fmt: skip
MARKS_TOP = 74
# The height (pixels) of the space for the first panel's name, below the labels of the vertical
# lines.
NAME_ROOM = 18
LEGEND = 50
# The vertical gap between two panels, and the height of a panel without pressure (pixels).
PANEL_GAP = 48
FLAT_HEIGHT = 30
# The additional height (pixels) of the legend if two replays are drawn.
LEGEND_ROW = 20
AVERAGES = ("10 s", "60 s", "300 s")
# The limits of a title: the number of groups, the number of characters in all their paths, and the
# number of characters in the whole title.
TITLED = 3
PATHS_ROOM = 60
TITLE_ROOM = int((WIDTH - 32) / TITLE_LETTER)


class Place(NamedTuple):
    """The position of a panel: its upper edge and its height (pixels)."""

    top: int
    height: int

    @property
    def bottom(self) -> int:
        return self.top + self.height


NO_NAMES = GroupNames({})


class Wanted(NamedTuple):
    """The data to draw: a replay, the resources, the time axis, and the rules and memory samples,
    each None if absent. If `replay` omits the killed groups, `recorded` is the replay of the
    recorded trace, which is drawn in the same panels.
    """

    replay: Replay
    resources: list[str]
    axis: TimeAxis
    rules: Optional[Rules]
    samples: Optional[Samples]
    recorded: Optional[Replay]
    names: GroupNames = NO_NAMES


class Chart:
    """A chart. It computes the positions of its parts and draws them."""

    def __init__(self, wanted: Wanted) -> None:
        self.wanted, self.replay, self.axis = wanted, wanted.replay, wanted.axis
        self.shown = wanted.names.shown
        self.heading = self.fitting_title()
        self.marks = marks_of(
            filter(lambda it: self.axis.holds(it.time_ns), self.events()), self.axis.x
        )
        self.unnamed = place(self.marks)
        self.panels = [
            panel for resource in [*wanted.resources, "use"] for panel in self.panels_of(resource)
        ]
        rows = [mark.row + 1 for mark in self.marks if mark.row is not None]
        self.marks_top = MARKS_TOP + (LEGEND_ROW if wanted.recorded else 0)
        self.marks_bottom = self.marks_top + ROW * max(rows, default=0)
        self.top = self.marks_bottom + 14 + (NAME_ROOM if rows else 0)
        self.places = self.places_of()
        self.bottom = self.places[-1].bottom + PANEL_GAP - 28
        self.svg = ElementTree.Element(
            "svg", {"xmlns": "http://www.w3.org/2000/svg", "role": "img"}
        )

    # ------------------------------------------------------------ parts of the picture

    def panels_of(self, resource: str) -> list[Panel]:
        """Returns a panel for each drawn group and this resource. The resource `use` needs memory
        samples.
        """
        return [panel for path in self.replay.groups for panel in self.panel(resource, path)]

    def panel(self, resource: str, path: str) -> list[Panel]:
        """Returns a list with the panel of `resource` for the group `path`. The list is empty for a
        memory panel if there are no memory samples.
        """
        rules, samples = self.wanted.rules, self.wanted.samples
        name = NAMES[resource] + (
            f" of {self.shown(path)}" if len(self.replay.groups) > 1 else ""
        )
        if resource != "use":
            thresholds = pressure_thresholds(rules, path, resource)
            replays = [self.replay, *filter(None, [self.wanted.recorded])]
            return [PressurePanel(name, self.axis, thresholds, replays, path, resource)]
        if not samples:
            return []
        thresholds = memory_thresholds(rules, path, samples.host.memory if samples.host else None)
        return [MemoryPanel(name, self.axis, thresholds, samples.lives[path])]

    def places_of(self) -> list[Place]:
        """Returns the positions of the panels, from top to bottom. A panel without pressure has the
        height FLAT_HEIGHT.
        """
        full = [it for it in self.panels if not it.is_flat()]
        height = 300 if len(full) == 1 else 132 if len(full) <= 5 else 96
        places, top = list[Place](), self.top
        for panel in self.panels:
            places.append(Place(top, FLAT_HEIGHT if panel.is_flat() else height))
            top = places[-1].bottom + PANEL_GAP
        return places

    def events(self) -> list[Event]:
        """Returns the kills and the removals of groups, which are drawn as vertical lines."""
        return [self.kill(it) for it in self.replay.kills] + [
            self.end(it) for it in self.replay.removals()
        ]

    def kill(self, kill: Kill) -> Event:
        """Returns a kill as an event, with its description and its labels."""
        at = self.axis.time_text(kill.time_ns)
        path = self.shown(kill.path)
        would, who = f"{path} would be killed", f"ruleset {kill.ruleset}, action {kill.action}"
        hint = f"{would} at {at} by {who}"
        if self.wanted.rules:
            killer = self.wanted.rules.killer(kill)
            who = f"'{killer.ruleset}'"
            hint = (
                f"{would} at {at} by ruleset {kill.ruleset} {who}, action"
                f" {kill.action} {killer.plugin}"
            )
        # A shorter label for a kill, if the longest doesn't fit. It omits the time, which the axis
        # shows; if the title already names the killer, it omits the killer instead.
        second = f"{would} at {at}" if f" by {who}" in self.heading else f"{would} by {who}"
        texts = (f"{would} at {at} by {who}", second, f"{would} at {at}", would, path)
        return Event(kill.time_ns, "kill", hint, texts)

    def end(self, removal: Removal) -> Event:
        """Returns the removal of a group as an event, with its description and its labels."""
        # The exact time of the removal isn't known, only the time of the first report without the
        # group.
        was = f"{self.shown(removal.path)} was gone"
        by = f"{was} by {self.axis.time_text(removal.time_ns)}"
        return Event(removal.time_ns, "gone", by, (by, by, by, was, was))

    def title(self, most: int) -> str:
        """Returns the title. The paths in it together have at most `most` characters."""
        groups = self.replay.groups
        paths = [short(self.shown(path), most) for path in groups]
        which = ", ".join(paths[:-1]) + " and " * (len(paths) > 1) + paths[-1]
        which = which if len(paths) <= TITLED else f"{len(paths)} groups"
        kills = counted(self.replay.end.kills, "would-be kill")
        title = f"Pressure of {which}, {rounded(self.replay.end.time_ns)}, {kills}"
        return (
            title + self.killers()
            if len(title + self.killers()) <= max(most, TITLE_ROOM)
            else title
        )

    def fitting_title(self) -> str:
        """Returns the title. Its paths are as long as the width of the picture permits."""
        most = PATHS_ROOM // min(TITLED, len(self.replay.groups))
        titles = [self.title(it) for it in range(most, most // 2, -1)]
        return next((it for it in titles if len(it) <= TITLE_ROOM), short(titles[-1], TITLE_ROOM))

    def killers(self) -> str:
        """Returns the part of the title about the rulesets that killed: the ruleset's name, or the
        number of rulesets. The text is empty if there are no rules or no kills.
        """
        rules = self.wanted.rules
        names = {it.ruleset: rules.killer(it).ruleset for it in self.replay.kills} if rules else {}
        if len(names) > 1:
            return f" by {len(names)} rulesets"
        return "".join(f" by '{name}'" for name in names.values())

    def has_events(self) -> bool:
        """Returns whether some panel shows events of triggers. If so, the legend explains them."""
        return any(panel.has_events() for panel in self.panels)

    # ------------------------------------------------------------ drawing

    def draw(self) -> Element:
        """Draws the picture, and returns its root element."""
        height = self.bottom + 46
        self.svg.attrib.update(
            {"width": str(WIDTH), "height": str(height), "viewBox": f"0 0 {WIDTH} {height}"}
        )
        add(self.svg, "title", self.title(1000))
        add(self.svg, "style", STYLE + STYLE_BESIDE if self.wanted.recorded else STYLE)
        add(self.svg, "rect", class_="ground", width="100%", height="100%")
        add(self.svg, "text", self.heading, class_="title", x=16, y=26)
        self.draw_legend()
        if self.wanted.recorded:
            self.draw_legend_beside()
            self.draw_supposed()
        self.draw_time()
        for panel, at in zip(self.panels, self.places):
            # Panels of the same kind share one scale, so that groups can be compared. A panel
            # without pressure has its own scale.
            alike = [it for it in self.panels if it.kind == panel.kind]
            panel.draw(
                self.svg,
                at.top,
                at.height,
                max(it.most() for it in ([panel] if panel.is_flat() else alike)),
            )
        self.draw_marks()
        return self.svg

    def draw_legend(self) -> None:
        """Draws the legend: the styles of the curves, and of events and kills if the chart has any.
        """
        legend = add(self.svg, "g", class_="legend")
        y = LEGEND
        add(legend, "text", "average over", x=16, y=y + 4)
        items = [(average, f"series some avg{average[:-2]}") for average in AVERAGES]
        items += [(level, f"series plain {level}") for level in ("some", "full")]
        for (text, classes), x in zip(items, (106, 184, 262, 370, 460)):
            add(legend, "polyline", class_=classes, points=f"{x},{y} {x + 32},{y}")
            add(legend, "text", text, x=x + 38, y=y + 4)
        if self.has_events():
            add(legend, "path", class_="tick some", d=f"M552 {y - 6}v6")
            add(legend, "path", class_="tick full", d=f"M558 {y}v6")
            add(legend, "text", "event of a trigger: some above, full below", x=568, y=y + 4)
        if any(event.kind == "kill" for mark in self.marks for event in mark.events):
            kill = add(legend, "g", class_="kill")
            add(kill, "line", x1=834, y1=y - 7, x2=834, y2=y + 7)
            add(kill, "path", d=f"M830 {y - 7}h8l-4 7z")
            add(kill, "text", "would be killed", x=844, y=y + 4)

    def draw_legend_beside(self) -> None:
        """Draws the additional legend that explains the styles of two replays."""
        legend = add(self.svg, "g", class_="legend beside")
        y = LEGEND + LEGEND_ROW
        for text, classes, x in (
            ("thin: as recorded", "series plain some was", 106),
            ("thick: without the tasks of who would be killed", "series plain some", 262),
        ):
            add(legend, "polyline", class_=classes, points=f"{x},{y} {x + 32},{y}")
            add(legend, "text", text, x=x + 38, y=y + 4)
        add(legend, "rect", class_="supposed", x=592, y=y - 7, width=32, height=14)
        add(legend, "text", "after the first kill: others as recorded", x=630, y=y + 4)

    def draw_supposed(self) -> None:
        """Shades all panels from the first kill on. From that time the replay without the killed
        groups is hypothetical: it assumes that all other tasks behave as recorded.
        """
        first = min((kill.time_ns for kill in self.replay.kills), default=self.axis.end)
        if first >= self.axis.end:
            return
        left = self.axis.x(max(first, self.axis.start))
        shade = add(self.svg, "g", class_="shade")
        for at in self.places:
            add(shade, "rect", class_="supposed", x=left, y=at.top, width=RIGHT - left,
            height=at.height)  # fmt: skip

    def draw_time(self) -> None:
        """Draws the lines of the time axis across all panels. Their labels are below the last
        panel.
        """
        axis = add(self.svg, "g", class_="time")
        for mark in self.axis.marks():
            x = self.axis.x(mark.time_ns)
            for at in self.places:
                add(axis, "line", class_="grid", x1=x, y1=at.top, x2=x, y2=at.bottom)
            add(axis, "text", mark.text, x=x, y=self.bottom + 16, text_anchor="middle")
        middle = (LEFT + RIGHT) / 2
        add(self.svg, "text", self.axis.caption(), class_="small", x=middle, y=self.bottom + 34,
        text_anchor="middle")  # fmt: skip

    def draw_marks(self) -> None:
        """Draws the vertical lines. If some have no label because there is no space, adds a note
        with the number of their events.
        """
        marks = add(self.svg, "g", class_="marks")
        for mark in self.marks:
            self.draw_mark(marks, mark)
        unnamed = sum(len(mark.events) for mark in self.unnamed)
        if unnamed:
            text = (
                f"{counted(unnamed, 'upright line')} without a path, for want of room: draw less"
                " time by --from and --to"
            )
            add(
                marks,
                "text",
                text,
                class_="small",
                x=RIGHT,
                y=self.marks_top - 4,
                text_anchor="end",
            )

    def draw_mark(self, marks: Element, mark: Mark) -> None:
        """Draws a vertical line from its label through all panels. A triangle marks a kill, and a
        cross marks a removal.
        """
        group = add(marks, "g", class_=mark.kind)
        add(group, "title", mark.hint())
        y = self.marks_bottom if mark.row is None else self.marks_bottom - ROW * mark.row - 9
        add(group, "line", x1=mark.x, y1=y, x2=mark.x, y2=self.bottom)
        x = decimal(mark.x - 4)
        add(group, "path",
            d=f"M{x} {y}h8l-4 7z" if mark.kind == "kill" else f"M{x} {y}l8 "
                                                              f"8m-8 0l8 -8")  # fmt: skip
        if mark.row is not None:
            place, anchor = (mark.x - 7, "end") if mark.is_left else (mark.x + 7, "start")
            add(group, "text", mark.text, class_="path", x=place, y=y + 7, text_anchor=anchor)
