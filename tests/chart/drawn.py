"""Parses a chart, and checks that it shows the printed reports, events and kills."""
from __future__ import annotations

import os
import re
import subprocess
import xml.etree.ElementTree as ElementTree
from typing import Callable, Iterator, Optional, Sequence

from chart.near import NEAR, must_be_near
from harness import Wrong, must, must_be
from shared.outputs import run
from shared.program import TOP

from shared.printed import AVERAGES, LEVELS, RESOURCES, Printed

Element = ElementTree.Element
Scale = Callable[[float], float]

CHART = os.path.join(TOP, "tools", "chart")
SVG = "{http://www.w3.org/2000/svg}"
UNITS = {"seconds": 10**9, "minutes": 60 * 10**9, "hours": 3600 * 10**9, "days": 86400 * 10**9}
SHARE_STEPS = (0.2, 0.5, 1, 2, 5, 10, 20)
LEFT, RIGHT = 112, 936


def piped(words: Sequence[str], chart_words: Sequence[str] = (), stdin: bytes = b"") -> bytes:
    """Runs a command, pipes its output into tools/chart, and returns the chart. `stdin` is the
    command's standard input.
    """
    with subprocess.Popen(words, cwd=TOP, stdin=subprocess.PIPE, stdout=subprocess.PIPE) as first:
        assert first.stdin and first.stdout
        with subprocess.Popen(
            [CHART, *chart_words], cwd=TOP, stdin=first.stdout, stdout=subprocess.PIPE
        ) as second:
            assert second.stdout
            first.stdout.close()
            first.stdin.write(stdin)
            first.stdin.close()
            drawn = second.stdout.read()
    must_be(f"the two statuses of {words}", (first.returncode, second.returncode), (0, 0))
    return drawn


def drawn_of(printed: bytes, *words: str) -> bytes:
    return run([CHART, *words], printed)


def scale_of(marks: Sequence[tuple[float, float]]) -> Scale:
    """Returns a function from a number to its position on an axis. `marks` are pairs of a number
    and its position. The scale is computed from the first and the last pair.
    """
    (first, first_place), (last, last_place) = marks[0], marks[-1]
    must(first != last, "an axis has two numbers")
    scale = (last_place - first_place) / (last - first)
    for number, place in marks:
        must(abs(first_place + (number - first) * scale - place) <= NEAR,
             f"{number} stands at its place on its axis")
    return lambda number: first_place + (number - first) * scale


def number_at(element: Element, name: str) -> float:
    """Returns the number in the attribute `name` of an element."""
    value = element.get(name)
    must(value is not None, f"{element.tag} has {name}")
    return float(value or 0)


def inner(element: Element, tag: str) -> Element:
    """Returns the first child of an element with this tag."""
    found = element.find(SVG + tag)
    if found is None:
        raise Wrong(f"{element.get('class')} has no {tag}")
    return found


class Drawn:
    """A parsed chart. `x` returns the position of a time (ns), if the axis shows the time since the
    start of the trace.
    """

    def __init__(self, drawn: bytes) -> None:
        self.text = drawn.decode()
        try:
            self.svg = ElementTree.fromstring(drawn)
        except ElementTree.ParseError as fault:
            raise Wrong(f"it is no XML: {fault}") from None
        must_be("the root", self.svg.tag, f"{SVG}svg")
        marks = [
            (it.text or "", number_at(it, "x")) for it in self.one("g", "time").iter(f"{SVG}text")
        ]
        self.time_texts = [text for text, _ in marks]
        self.time_places = [place for _, place in marks]
        captions = [
            text for text in self.texts(self.svg) if text.endswith("since the start of the trace")
        ]
        if captions:
            self.unit = captions[0].split(" ")[0]
            self.times = [round(float(text) * UNITS[self.unit]) for text in self.time_texts]
            self.x = scale_of(list(zip(self.times, self.time_places)))

    def texts(self, within: Element) -> list[str]:
        return [it.text or "" for it in within.iter(f"{SVG}text")]

    @property
    def title(self) -> str:
        return self.texts(self.svg)[0]

    def all(self, tag: str, classes: str, within: Optional[Element] = None) -> list[Element]:
        return [
            it
            for it in (self.svg if within is None else within).iter(SVG + tag)
            if it.get("class") == classes
        ]

    def one(self, tag: str, classes: str, within: Optional[Element] = None) -> Element:
        found = self.all(tag, classes, within)
        must_be(f"the {tag} of class {classes}, how many", len(found), 1)
        return found[0]

    def panels(self) -> list[Element]:
        return [
            it for it in self.svg.iter(f"{SVG}g") if (it.get("class") or "").startswith("panel ")
        ]

    def panel_names(self) -> list[str]:
        return [self.texts(panel)[0] for panel in self.panels()]

    def panel(self, resource: str, number: int = 0) -> Element:
        """Returns the panel of the resource for the group with the index `number` (from 0)."""
        return self.all("g", f"panel {resource}")[number]

    def numbers(self, panel: Element) -> list[tuple[str, float]]:
        """Returns the labels of a panel's axis, each with its vertical position."""
        return [
            (it.text or "", number_at(it, "y"))
            for it in self.one("g", "share", panel).iter(f"{SVG}text")
        ]

    def share_scale(self, resource: str, number: int = 0) -> Scale:
        marks = []
        for text, place in self.numbers(self.panel(resource, number)):
            share, unit = text.split(" ")
            must_be("the unit of shares", unit, "%")
            marks.append((float(share), place))
        must(marks[1][0] in SHARE_STEPS and len(marks) <= 6, f"{marks} are a few round steps")
        must(marks[0][0] == 0 and marks[-1][0] >= 1, f"{marks} go from 0 to 1 % at least")
        return scale_of(marks)

    def lines(self, panel: Element, classes: str) -> list[list[tuple[float, float]]]:
        """Returns the points of each line of a series. An isolated report is drawn as two equal
        points, and returned as one point.
        """
        found = []
        for line in self.one("g", f"series {classes}", panel).iter(f"{SVG}polyline"):
            points = [
                (float(x), float(y))
                for x, y in (it.split(",") for it in (line.get("points") or "").split(" "))
            ]
            found.append(points[:1] if len(points) == 2 and points[0] == points[1] else points)
        return found

    def ticks(self, panel: Element, level: str) -> list[tuple[float, float]]:
        paths = " ".join(it.get("d") or "" for it in self.all("path", f"tick {level}", panel))
        return [(float(x), float(y)) for x, y in re.findall(r"M([0-9.]+) ([0-9.]+)v6", paths)]

    def marks(self, kind: str) -> list[Element]:
        """Returns the vertical lines of this kind. The kinds are kills and removals of groups."""
        return self.all("g", kind, self.one("g", "marks"))

    def places(self, kind: str) -> list[float]:
        """Returns the horizontal position of each vertical line of this kind."""
        for mark in self.marks(kind):
            must_be("a line is upright", inner(mark, "line").get("x1"),
                    inner(mark, "line").get("x2"))
        return [number_at(inner(mark, "line"), "x1") for mark in self.marks(kind)]

    def mark_texts(self, kind: str) -> list[list[str]]:
        """Returns the texts beside each vertical line of this kind: a list for each line, which may
        be empty.
        """
        return [self.texts(mark) for mark in self.marks(kind)]

    def hints(self, kind: str) -> list[list[str]]:
        """Returns the lines of the tooltip of each vertical line of this kind."""
        return [(inner(mark, "title").text or "").split("\n") for mark in self.marks(kind)]

    def rules(self, panel: Element) -> Iterator[tuple[str, float, str]]:
        """Yields the class, the vertical position and the text of each threshold line in a panel.
        """
        for group in self.all("g", "rule", panel):
            line = inner(group, "polyline")
            (left, y), (right, other) = (
                it.split(",") for it in (line.get("points") or "").split(" ")
            )
            must_be("a threshold goes across", (float(left), float(right), y), (LEFT, RIGHT, other))
            yield (line.get("class") or "").partition(" ")[2], float(y), inner(
                group, "title"
            ).text or ""


def spans_of(drawn: Drawn) -> list[tuple[float, float, float, str]]:
    """Returns the left end, the right end, the vertical position and the text of each text beside a
    vertical line.

    The letters of usual monospaced fonts are at most 0.61 times as wide as the font size, which is
    11 pixels.
    """
    spans = []
    for text in drawn.all("text", "path"):
        words = text.text or ""
        x, width = number_at(text, "x"), 0.61 * 11 * len(words)
        left, right = (x - width, x) if text.get("text-anchor") == "end" else (x, x + width)
        spans.append((left, right, number_at(text, "y"), words))
    return spans


def compare_paths(drawn: Drawn) -> None:
    """Fails if texts beside vertical lines overlap, or if a vertical line crosses such a text."""
    lines = [inner(it, "line") for kind in ("kill", "gone") for it in drawn.marks(kind)]
    tops = [(number_at(it, "x1"), number_at(it, "y1")) for it in lines]
    spans = spans_of(drawn)
    for left, right, y, text in spans:
        must(0 <= left and right <= 960, f"{text} is within the chart")
        crossed = [it for it in spans if it[2] == y and it[0] < right and left < it[1]]
        must_be(f"texts where {text} stands", len(crossed), 1)
        must(not any(left < x < right and top < y for x, top in tops),
             f"no line goes through {text} at {left}")


def compare_panel(
    drawn: Drawn, printed: Printed, group: str, resource: str, number: int, start: float, end: float
) -> None:
    """Fails unless a panel shows exactly the printed reports and events from `start` to `end` (ns),
    each at its time and value. `number` is the group's index among the panels of the resource.
    """
    panel, share = drawn.panel(resource, number), drawn.share_scale(resource, number)
    for level in LEVELS:
        for average in AVERAGES:
            shares = [
                it
                for it in printed.shares[group, resource, level, average]
                if start <= it[0] <= end
            ]
            must(bool(shares), f"there are reports of {group}")
            points = [point for line in drawn.lines(panel, f"{level} {average}") for point in line]
            wanted = [(drawn.x(time_ns), share(it)) for time_ns, it in shares]
            must_be_near(f"{resource} {level} {average} of {group}", points, wanted)
        events = [it for it in printed.events[group, resource, level] if start <= it <= end]
        ticks = drawn.ticks(panel, level)
        must_be_near(f"events of {resource} {level}", [it[:1] for it in ticks],
                     [(drawn.x(it),) for it in events])
        must(all(y > share(0) for _, y in ticks), "ticks stand below the panel")


def compare(
    printed: Printed,
    drawn: Drawn,
    groups: Sequence[str],
    resources: Sequence[str] = RESOURCES,
    start: float = 0,
    end: float = float("inf"),
) -> None:
    """Fails unless the chart shows exactly the printed reports, events and kills from `start` to
    `end` (ns), each at its time and value.
    """
    for resource in resources:
        must_be(f"panels of {resource}", len(drawn.all("g", f"panel {resource}")), len(groups))
        for number, group in enumerate(groups):
            compare_panel(drawn, printed, group, resource, number, start, end)
    kills = [it for it in printed.kills if start <= it[0] <= end]
    paths = [
        [line.split(" would be killed at ")[0] for line in hints] for hints in drawn.hints("kill")
    ]
    must_be("paths of kills", paths, [[path] for _, path in kills])
    must_be_near("kills", [(it,) for it in drawn.places("kill")],
                 [(drawn.x(time_ns),) for time_ns, _ in kills])
    compare_paths(drawn)
