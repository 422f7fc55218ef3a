"""Finds texts of a picture that are outside of the picture, that overlap each other, or, if they
are notes, that a curve crosses.

Text widths are computed for DejaVu Sans, a wide font: a text that fits in this font fits in
narrower fonts.
"""
from __future__ import annotations

import xml.etree.ElementTree as ElementTree
from collections.abc import Iterator
from typing import NamedTuple

from harness import must, must_have_none

Element = ElementTree.Element
SVG = "{http://www.w3.org/2000/svg}"
# The widths of the characters with codes 32 to 126, in thousandths of the font size.
PLAIN = (
    318, 401, 460, 838, 636, 950, 780, 275, 390, 390, 500, 838, 318, 361, 318, 337, 636, 636,
    636, 636, 636, 636, 636, 636, 636, 636, 337, 337, 838, 838, 838, 531, 1000, 684, 686, 698,
    770, 632, 575, 775, 752, 295, 295, 656, 557, 863, 748, 787, 603, 787, 695, 635, 611, 732,
    684, 989, 685, 611, 685, 390, 337, 390, 838, 500, 500, 613, 635, 550, 635, 615, 352, 635,
    634, 278, 278, 579, 278, 974, 634, 612, 635, 635, 411, 521, 392, 634, 592, 818, 592, 592,
    525, 636, 337, 636, 838,
)  # fmt: skip
BOLD = (
    348, 456, 521, 838, 696, 1002, 872, 306, 457, 457, 523, 838, 380, 415, 380, 365, 696, 696,
    696, 696, 696, 696, 696, 696, 696, 696, 400, 400, 838, 838, 838, 580, 1000, 774, 762, 734,
    830, 683, 683, 821, 837, 372, 372, 775, 637, 995, 837, 850, 733, 850, 770, 720, 682, 812,
    774, 1103, 771, 724, 725, 457, 365, 457, 838, 500, 500, 675, 716, 593, 716, 678, 435, 716,
    712, 343, 343, 665, 343, 1042, 712, 687, 716, 716, 493, 595, 478, 712, 652, 924, 645, 652,
    582, 712, 365, 712, 838,
)  # fmt: skip
# The width of each character of a monospace font, in thousandths of the font size.
MONOSPACE = 602
# Font sizes (pixels). SIZES has the sizes by the class of a text, and SIZE is the size of a text
# without such a class. On a phone, texts have the size PHONE, and the numbers at the axis of shares
# have the size PHONE_SHARE.
SIZES, SIZE = {"title": 16, "name": 13, "small": 11, "note": 11, "path": 11}, 12
PHONE, PHONE_SHARE = 24, 20
# On a phone, texts of the classes in HIDDEN and every second number on the axes in AXES are hidden.
HIDDEN, AXES = {"small", "note", "path"}, {"time", "share"}
# The number of points on each segment of a curve that are tested, to find whether the segment
# crosses a box.
PARTS = 16


class Box(NamedTuple):
    """The box of a text: the text, its class (`look`), and its left, right, top and bottom edges
    (pixels).
    """

    text: str
    look: str
    left: float
    right: float
    top: float
    bottom: float

    def overlaps(self, other: Box) -> bool:
        """Returns whether both boxes share more than a pixel in each direction."""
        width = min(self.right, other.right) - max(self.left, other.left)
        return width > 1 and min(self.bottom, other.bottom) - max(self.top, other.top) > 1

    def is_crossed(self, one: tuple[float, float], other: tuple[float, float]) -> bool:
        """Returns whether the line from the point `one` to the point `other` goes through the box.
        """
        steps = [[a + (b - a) * part / PARTS for a, b in zip(one, other)] for part in range(PARTS)]
        return any(self.left < x < self.right and self.top < y < self.bottom for x, y in steps)


def width_of(text: str, look: str, size: float) -> float:
    """Returns the width (pixels) of a text of class `look` in a font of this size."""
    if look == "path":
        return len(text) * size * MONOSPACE / 1000
    widths = BOLD if look in ("title", "name") else PLAIN
    places = (ord(it) - 32 for it in text)
    return sum(widths[it] if 0 <= it < len(widths) else 1000 for it in places) * size / 1000


def box_of(text: str, look: str, element: Element, size: float) -> Box:
    """Returns the box of a text that is drawn at the position of an SVG element."""
    x, y, anchor = (element.get(it) or "" for it in ("x", "y", "text-anchor"))
    width, base = width_of(text, look, size), float(y)
    base += 0.35 * size if element.get("dy") == ".35em" else 0
    left = float(x) - {"middle": width / 2, "end": width}.get(anchor, 0)
    return Box(text, look, left, left + width, base - 0.78 * size, base + 0.2 * size)


def boxes_in(element: Element, group: str, is_phone: bool) -> Iterator[Box]:
    """Yields the boxes of all texts in an element, except rotated texts. `group` is the class of
    the SVG group that contains the element.
    """
    texts = 0
    for child in element:
        look = child.get("class") or ""
        if child.tag != f"{SVG}text":
            yield from boxes_in(child, look or group, is_phone)
            continue
        texts += 1
        is_hidden = is_phone and (look in HIDDEN or (group in AXES and texts % 2 == 0))
        if is_hidden or child.get("transform"):
            continue
        size = float(SIZES.get(look, SIZE))
        if is_phone:
            size = PHONE_SHARE if group == "share" else PHONE
        box = box_of(child.text or "", look, child, size)
        yield box
        for span in [] if is_phone else child.iter(f"{SVG}tspan"):
            start = box.right + float(span.get("dx") or 0)
            width = width_of(span.text or "", "small", SIZES["small"])
            yield box._replace(text=span.text or "", left=start, right=start + width)


def curves_of(svg: Element) -> Iterator[tuple[tuple[float, float], tuple[float, float]]]:
    """Yields the straight segments of all curves, each as a pair of points."""
    for group in svg.iter(f"{SVG}g"):
        if (group.get("class") or "").startswith("series"):
            for line in group.iter(f"{SVG}polyline"):
                places = [it.split(",") for it in (line.get("points") or "").split()]
                points = [(float(x), float(y)) for x, y in places]
                yield from zip(points, points[1:])


def faults_of(svg: Element, is_phone: bool) -> Iterator[str]:
    """Yields a message for each text of a picture that is misplaced."""
    left, top, width, height = map(float, (svg.get("viewBox") or "").split())
    boxes = [it for it in boxes_in(svg, "", is_phone) if it.text]
    must(bool(boxes), "the picture has texts")
    for number, box in enumerate(boxes):
        if box.left < left or box.right > left + width or box.top < top - 1:
            yield f"{box} is outside of {svg.get('viewBox')}"
        if box.bottom > top + height + 1:
            yield f"{box} is below {svg.get('viewBox')}"
        yield from (f"{box} overlaps {it}" for it in boxes[number + 1 :] if box.overlaps(it))
        if box.look == "note" and any(box.is_crossed(*it) for it in curves_of(svg)):
            yield f"a curve goes through {box}"


def must_fit(what: str, svg: Element, is_phone: bool = False) -> None:
    """Fails if a text is outside of the picture, overlaps another text, or is a note that a curve
    crosses.
    """
    must_have_none(f"{what}: {fault}" for fault in faults_of(svg, is_phone))
