"""Draws the thresholds of rules for a group as lines across its panels."""
from __future__ import annotations

from typing import Iterator, NamedTuple, Optional

from psireplay.rules import Plugin, Rules, Ruleset, size

from .svg import LEFT, RIGHT, SMALL_LETTER, Element, Point, add, short

# For each pressure detector: the average that it compares, and a description. The average also
# selects the style of the threshold's line.
WATCHED = {
    "pressure_above": ("avg10", "full over 10 s"),
    "pressure_rising_beyond": ("avg60", "full over 60 s and over 10 s"),
}
# The space around a label, and the distance of a label from its line (pixels).
NEXT_TO = 2.0
ABOVE, BELOW = -5.0, 14.0


class Threshold(NamedTuple):
    """A line across a panel: its value (hundredths of a percent, or bytes), its style, and the text
    of its label.
    """

    level: int
    style: str
    text: str


def lasting(args: dict[str, str]) -> str:
    """Formats a detector's duration for a label."""
    return "" if args["duration"] == "0" else f" for {args['duration']} s"


def of_pressure(ruleset: Ruleset, detector: Plugin) -> Threshold:
    """Returns the threshold of a pressure detector."""
    style, what = WATCHED[detector.name]
    args = detector.args
    return Threshold(
        int(args["threshold"]) * 100,
        style,
        f"{what} above {args['threshold']} %{lasting(args)}: {ruleset.name}",
    )


def of_memory(ruleset: Ruleset, detector: Plugin, host: Optional[int]) -> Iterator[Threshold]:
    """Yields the threshold of a memory detector. `host` is the memory of the host (bytes). If it is
    None, yields nothing for a threshold in percent, since the size isn't known.
    """
    args = detector.args
    level = size(args["threshold"], host)
    if level is not None:
        yield Threshold(
            level, "memory-use", f"memory above {args['threshold']}{lasting(args)}: {ruleset.name}"
        )


def pressure_thresholds(rules: Optional[Rules], path: str, resource: str) -> list[Threshold]:
    """Returns the thresholds of all detectors that check this group's pressure for the resource."""
    return [
        of_pressure(ruleset, detector)
        for ruleset in (rules.rulesets if rules else [])
        for detector in ruleset.detectors
        if detector.name in WATCHED
        and detector.args["resource"] == resource
        and detector.covers(path)
    ]


def memory_thresholds(rules: Optional[Rules], path: str, host: Optional[int]) -> list[Threshold]:
    """Returns the thresholds of all detectors that check this group's memory. `host` is the memory
    of the host (bytes), or None if it isn't known.
    """
    return [
        threshold
        for ruleset in (rules.rulesets if rules else [])
        for detector in ruleset.detectors
        if detector.name == "memory_above" and detector.covers(path)
        for threshold in of_memory(ruleset, detector, host)
    ]


def merged(thresholds: list[Threshold]) -> list[Threshold]:
    """Merges thresholds that have the same value and style. The merged threshold has all their
    texts.
    """
    found: dict[tuple[int, str], list[str]] = {}
    for it in thresholds:
        texts = found.setdefault((it.level, it.style), [])
        texts += [] if it.text in texts else [it.text]
    return [Threshold(level, style, "; ".join(texts)) for (level, style), texts in found.items()]


class Box(NamedTuple):
    """A rectangle that a label covers (pixels)."""

    left: float
    right: float
    top: float
    bottom: float

    def overlaps(self, other: Box) -> bool:
        """Returns whether two rectangles overlap."""
        return (
            self.left < other.right
            and other.left < self.right
            and self.top < other.bottom
            and other.top < self.bottom
        )

    def is_crossed(self, points: list[Point]) -> bool:
        """Returns whether a line through these points crosses the rectangle."""
        return any(self.meets(one, other) for one, other in zip(points, points[1:] or points))

    def meets(self, one: Point, other: Point) -> bool:
        """Returns whether the segment between two points crosses the rectangle: between the
        rectangle's left and right side, part of the segment is neither above nor below the
        rectangle.
        """
        (x, y), (end, level) = sorted([one, other])
        if end < self.left or x > self.right:
            return False
        slope = (level - y) / (end - x) if end > x else 0.0
        first, last = (
            (y + slope * (max(x, self.left) - x), y + slope * (min(end, self.right) - x))
            if end > x
            else (y, level)
        )
        return min(first, last) < self.bottom and max(first, last) > self.top


class Label(NamedTuple):
    """The label of a threshold's line. `anchor` says whether `x` is the label's start, middle or
    end.
    """

    text: str
    x: float
    y: float
    anchor: str

    def box(self) -> Box:
        """Returns the rectangle of the label, including the space around it."""
        width = SMALL_LETTER * len(self.text)
        left = self.x - {"start": 0.0, "middle": width / 2, "end": width}[self.anchor]
        return Box(
            left - NEXT_TO, left + width + NEXT_TO, self.y - 10 - NEXT_TO, self.y + 2 + NEXT_TO
        )


def labels_of(it: Threshold, y: float) -> Iterator[Label]:
    """Yields possible labels for a threshold with its line at `y`, the best first. A label contains
    the whole text, or only the part before the ruleset's name. It is above or below the line: at
    the right end, the left end, the middle or a quarter.
    """
    for text in dict.fromkeys((short(it.text, 100), short(it.text.partition(":")[0], 60))):
        for part, anchor in (
            (1.0, "end"),
            (0.0, "start"),
            (0.5, "middle"),
            (0.25, "middle"),
            (0.75, "middle"),
        ):
            x = LEFT + 6 + (RIGHT - LEFT - 12) * part
            yield from (Label(text, x, y + shift, anchor) for shift in (ABOVE, BELOW))


def draw_thresholds(
    panel: Element, thresholds: list[Threshold], top: float, bottom: float, scale: float
) -> None:
    """Draws the thresholds from the top down, with labels. A label lies within the panel, and
    covers no curve and no other label. A line without space for a label has only a tooltip.
    """
    groups = [it for it in panel if (it.get("class") or "").startswith("series")]
    curves = [points_of(line) for group in groups for line in group]
    placed: list[Box] = []
    for it in sorted(merged(thresholds), reverse=True):
        y = bottom - it.level * scale
        group = add(panel, "g", class_="rule")
        add(group, "title", it.text)
        add(group, "polyline", class_=f"threshold {it.style}",
            points=f"{LEFT},{y:.2f} {RIGHT},{y:.2f}")  # fmt: skip
        for label in labels_of(it, y):
            box = label.box()
            is_inside = (
                LEFT <= box.left and box.right <= RIGHT and top <= box.top and box.bottom <= bottom
            )
            if (
                is_inside
                and not any(map(box.overlaps, placed))
                and not any(map(box.is_crossed, curves))
            ):
                placed.append(box)
                add(group, "text", label.text, class_="note", x=label.x, y=label.y,
                    text_anchor=label.anchor)  # fmt: skip
                break


def points_of(line: Element) -> list[Point]:
    """Parses the points of a polyline element."""
    return [
        (float(x), float(y))
        for x, y in (it.split(",") for it in (line.get("points") or "").split())
    ]
