"""Places the labels of the vertical lines through all panels, which show kills and removals of
groups.
"""
from __future__ import annotations

import itertools
from typing import Callable, Iterable, NamedTuple, Optional

from .svg import LEFT, MONOSPACE, WIDTH, short

ROWS = 8
ROW = 15
NAMED = 4


class Event(NamedTuple):
    """A kill or a removal: its time (ns), its style, its full description, and its possible labels,
    the longest first.
    """

    time_ns: int
    kind: str
    hint: str
    texts: tuple[str, ...]


class Mark:
    """A vertical line for the events in one pixel column, with its label. `row` is the row of the
    label, counted from below, or None without a label. `is_left` says whether the label is to the
    left of the line.
    """

    def __init__(self, x: float, events: list[Event]) -> None:
        self.x, self.events = x, events
        self.kind = events[0].kind
        self.row: Optional[int] = None
        self.is_left = False
        self.text = ""

    def say(self, length: int) -> None:
        """Sets the label to a text of the first event: the text with index `length`. The text with
        index 0 is the longest. Appends the number of further events.
        """
        more = f" +{len(self.events) - 1}" if len(self.events) > 1 else ""
        self.text = short(self.events[0].texts[length], 96 if length == 0 else 64) + more

    def hint(self) -> str:
        """Returns the tooltip: the descriptions of the first NAMED events, and the number of
        remaining events.
        """
        lines = [it.hint for it in self.events[:NAMED]]
        return "\n".join(
            lines + ([f"and {len(self.events) - NAMED} more"] if len(self.events) > NAMED else [])
        )

    def span(self, is_left: bool) -> tuple[float, float]:
        """Returns the left and right end (pixels) of the label, which is left or right of the line.
        """
        width = MONOSPACE * len(self.text)
        return (self.x - 7 - width, self.x - 7) if is_left else (self.x + 7, self.x + 7 + width)

    def is_free(self, row: int, is_left: bool, placed: list[Mark]) -> bool:
        """Returns whether the label fits in this row. It must not cover another label or line, and
        its own line must not cross another label.
        """
        left, right = self.span(is_left)
        for other in placed:
            if other.row is None:
                continue
            other_left, other_right = other.span(other.is_left)
            if row == other.row and left < other_right and other_left < right:
                return False
            if row <= other.row and left - 5 < other.x < right + 5:
                return False
            if row >= other.row and other_left - 5 < self.x < other_right + 5:
                return False
        return LEFT <= left and right <= WIDTH - 4

    def place(self, placed: list[Mark]) -> bool:
        """Places the label to the right of the line, in the lowest free row. If no row is free
        there, places it to the left, in the highest free row. Returns whether there was a free row.
        """
        rows = range(ROWS)
        for row, is_left in itertools.chain(
            ((row, False) for row in rows), ((row, True) for row in reversed(rows))
        ):
            if self.is_free(row, is_left, placed):
                self.row, self.is_left = row, is_left
                return True
        return False


def marks_of(events: Iterable[Event], x_of: Callable[[int], float]) -> list[Mark]:
    """Returns a vertical line for each pixel column that contains events, and for each style of
    event in it.
    """

    def column_of(it: Event) -> tuple[int, str]:
        return int(x_of(it.time_ns)), it.kind

    columns = [
        list(column)
        for _, column in itertools.groupby(sorted(events, key=column_of), key=column_of)
    ]
    return [Mark(x_of(column[0].time_ns), column) for column in columns]


def place_all(marks: list[Mark], length: int, are_kills_first: bool) -> list[Mark]:
    """Places the label with the index `length` of each line, from the last line to the first. If
    `are_kills_first`, the lines of kills come before all others. Returns the lines that remain
    without a label.
    """
    for mark in marks:
        mark.row = None
        mark.say(length)
    placed: list[Mark] = []
    for mark in sorted(reversed(marks), key=lambda it: are_kills_first and it.kind != "kill"):
        if mark.place(placed):
            placed.append(mark)
    return [mark for mark in marks if mark.row is None]


def place(marks: list[Mark]) -> list[Mark]:
    """Places the longest labels for which there is space at all lines. If no length fits
    everywhere, places the shortest labels, those of kills first. Removes empty rows. Returns the
    lines that remain without a label.
    """
    lengths = min((len(mark.events[0].texts) for mark in marks), default=1)
    if not any(not place_all(marks, length, False) for length in range(lengths)):
        place_all(marks, lengths - 1, True)
    rows = sorted({mark.row for mark in marks if mark.row is not None})
    for mark in marks:
        mark.row = None if mark.row is None else rows.index(mark.row)
    return [mark for mark in marks if mark.row is None]
