"""Creates the elements of an SVG image, and defines the positions and styles of a chart."""
from __future__ import annotations

import itertools
from typing import Iterable, Iterator, Optional, Union
from xml.etree import ElementTree

Element = ElementTree.Element
Point = tuple[float, float]

# Positions are in pixels from the upper left corner. The time axis extends from LEFT to RIGHT.
WIDTH = 960
LEFT = 112
RIGHT = 936
# The largest average width (pixels) of a character: in monospace fonts of 11 pixels, in other fonts
# of 11 and 12 pixels, and in bold fonts of 13 pixels (names of panels) and 16 pixels (titles).
MONOSPACE = 6.7
SMALL_LETTER = 6.6
LETTER = 7.2
NAME_LETTER = 7.8
TITLE_LETTER = 9.6

# The colors of Okabe and Ito, which color-blind people can distinguish. Some are darker or lighter
# here because of the background.
STYLE = """
text { font: 12px sans-serif; fill: #222; }
.title { font-size: 16px; font-weight: bold; }
.name { font-size: 13px; font-weight: bold; }
.small { font-size: 11px; fill: #555; }
.note { font-size: 11px; paint-order: stroke; stroke: #fff; stroke-width: 4px; \
stroke-linejoin: round; }
.path { font: 11px monospace; }
.ground { fill: #fff; }
.grid { stroke: #e0e0e0; }
.edge { stroke: #888; }
.series { fill: none; stroke-linejoin: round; stroke-linecap: round; }
.some, .memory-use { stroke-width: 1.5; }
.climbing { stroke-width: 0.75; }
.full, .swap-use { stroke-width: 3; stroke-dasharray: 5 7; }
.avg10 { stroke: #d55e00; }
.avg60 { stroke: #0072b2; }
.avg300 { stroke: #009e73; }
.memory-use, .swap-use { stroke: #9c4a83; }
.threshold { fill: none; stroke-width: 1.5; stroke-dasharray: 14 4 2 4; }
.plain, .tick { stroke: #444; fill: none; }
.tick.some { stroke-width: 1; }
.tick.full { stroke-width: 3; stroke-dasharray: none; }
.kill line { stroke: #000; stroke-width: 1.5; stroke-dasharray: 1.5 2.5; }
.kill path { fill: #000; }
.gone line { stroke: #777; stroke-width: 1.5; }
.gone path { stroke: #777; stroke-width: 2; fill: none; }
@media (prefers-color-scheme: dark) {
text { fill: #e6e6e6; }
.small { fill: #a8a8a8; }
.note { stroke: #16191d; }
.ground { fill: #16191d; }
.grid { stroke: #30353b; }
.edge { stroke: #7a8087; }
.avg10 { stroke: #e69f00; }
.avg60 { stroke: #56b4e9; }
.avg300 { stroke: #2fd3a2; }
.memory-use, .swap-use { stroke: #dc9cc6; }
.plain, .tick { stroke: #c4c4c4; }
.kill line { stroke: #fff; }
.kill path { fill: #fff; }
.gone line, .gone path { stroke: #9aa0a6; }
}
"""

# Additional styles for two replays. Curves of the recorded trace are thin. Curves without the
# killed groups are thick.
STYLE_BESIDE = """.series.some { stroke-width: 2.5; }
.series.full { stroke-width: 4.5; }
.series.some.was { stroke-width: 1; }
.series.full.was { stroke-width: 1.5; }
.supposed { fill: #888; fill-opacity: 0.14; }
"""


def decimal(value: float) -> str:
    """Returns a number with at most two decimals, and no trailing zeros."""
    return f"{value:.2f}".rstrip("0").rstrip(".")


def add(
    parent: Element, tag: str, text: Optional[str] = None, **attributes: Union[str, float]
) -> Element:
    """Adds an element, and returns it. In an attribute's name `_` means `-`, and a trailing `_` is
    dropped, as in `class_`.
    """
    names = {name.rstrip("_").replace("_", "-"): value for name, value in attributes.items()}
    element = ElementTree.SubElement(
        parent,
        tag,
        {
            name: value if isinstance(value, str) else decimal(value)
            for name, value in names.items()
        },
    )
    element.text = text
    return element


def add_line(parent: Element, points: Iterable[Point], **style: str) -> None:
    """Adds a polyline through these points, with the attributes `style`. A single point is written
    twice, so that it appears as a dot.
    """
    places = [f"{decimal(x)},{decimal(y)}" for x, y in points]
    add(parent, "polyline", points=" ".join(places * 2 if len(places) == 1 else places), **style)


def counted(number: int, what: str) -> str:
    """Returns a number with the noun `what`, in the plural unless the number is 1."""
    return f"{number or 'no'} {what}{'' if number == 1 else 's'}"


def short(text: str, most: int) -> str:
    """Shortens a text to `most` characters by omitting its middle."""
    return (
        text
        if len(text) <= most
        else f"{text[: most // 2 - 1]}…{text[len(text) - (most - most // 2) :]}"
    )


def columns(points: Iterable[Point]) -> Iterator[list[Point]]:
    """Groups points by pixel column. The points must be in order of x."""
    for _, column in itertools.groupby(points, key=lambda point: int(point[0])):
        yield list(column)


def thinned(points: Iterable[Point]) -> Iterator[Point]:
    """Yields the highest and the lowest point of each pixel column, in order of x."""
    for column in columns(points):
        yield from sorted(
            {min(column, key=lambda point: point[1]), max(column, key=lambda point: point[1])}
        )


def thinned_steps(points: Iterable[Point]) -> Iterator[Point]:
    """Yields the first, the highest, the lowest and the last point of each pixel column. The last
    point is needed because a stepped curve continues at its height.
    """
    for column in columns(points):
        places = range(len(column))
        ends = (
            0,
            min(places, key=lambda it: column[it][1]),
            max(places, key=lambda it: column[it][1]),
            len(column) - 1,
        )
        yield from (column[place] for place in sorted(set(ends)))
