"""Finds the ranges of a number's values that meet expectations. Uses bisection if the kills depend
monotonically on the value, and a grid if not.
"""
from __future__ import annotations

from collections.abc import Callable
from dataclasses import dataclass

# The largest number of values in a grid, without the value in the file.
GRID = 21
EARLY, LATE, OTHER = "early", "late", "other"


@dataclass(frozen=True)
class Outcome:
    """The result of a value: the first fault of each kind (EARLY, LATE or OTHER), and the first
    kills in each trace.

    In a monotone search a lower value never makes a first kill later. So an EARLY fault remains
    if the value is lowered, and a LATE fault if it is raised.
    """

    faults: dict[str, str]
    first: tuple[object, ...]

    @property
    def holds(self) -> bool:
        return not self.faults

    def why(self) -> str:
        return "; ".join(self.faults.values())


@dataclass(frozen=True)
class Range:
    """A range of values that meet the expectations, from `low` to `high` (inclusive). `lower` and
    `higher` are the next values that were tried outside (None if there are none), and `below` and
    `above` say why they fail.
    """

    low: int
    high: int
    lower: int | None
    higher: int | None
    below: str
    above: str


@dataclass(frozen=True)
class Search:
    """The ranges of a number, the method by which they were found, and the number of values that
    were tried. `step` is the distance between the values of a grid, or 1.
    """

    ranges: list[Range]
    way: str
    tried: int
    step: int

    def of(self, value: int) -> Range | None:
        """Returns the range that contains `value`, or None if no range does."""
        return next((it for it in self.ranges if it.low <= value <= it.high), None)

    def widest(self) -> Range | None:
        """Returns the range with the most values, or the first of several such ranges. Returns None
        if there are no ranges.
        """
        order = sorted(self.ranges, key=lambda it: (it.low - it.high, it.low))
        return order[0] if order else None


# A function that evaluates several values at once, since one replay can evaluate many, and returns
# the outcome of each.
Look = Callable[[list[int]], list[Outcome]]


def is_settled(low: Outcome, high: Outcome) -> bool:
    """Whether no value between two evaluated values needs to be evaluated: all have the same first
    kills, or all kill too early, or all kill too late.
    """
    return low.first == high.first or EARLY in high.faults or LATE in low.faults


def bisect(low: int, high: int, at_once: int, look: Look) -> dict[int, Outcome]:
    """Evaluates enough values in a range to determine the outcome of every value in it. The first
    round evaluates about `at_once` values. Each further round halves all intervals that are still
    undecided.
    """
    step = max(1, -(-(high - low) // max(1, at_once - 1)))
    values = sorted({*range(low, high, step), high})
    found = dict(zip(values, look(values)))
    unsettled = list(zip(values, values[1:]))
    while unsettled:
        halves = [
            (start, (start + end) // 2, end)
            for start, end in unsettled
            if end - start > 1 and not is_settled(found[start], found[end])
        ]
        middles = [middle for _, middle, _ in halves]
        found.update(zip(middles, look(middles) if middles else []))
        unsettled = [it for start, middle, end in halves for it in ((start, middle), (middle, end))]
    return found


def on_grid(low: int, high: int, present: int, look: Look) -> tuple[dict[int, Outcome], int]:
    """Evaluates evenly spaced values and `present`, the value in the file. Returns the outcomes by
    value, and the distance between the values.
    """
    step = max(1, -(-(high - low) // (GRID - 1)))
    values = sorted({*range(low, high + 1, step), high, min(max(present, low), high)})
    return dict(zip(values, look(values))), step


def joined(found: dict[int, Outcome], is_exact: bool) -> list[Range]:
    """Joins consecutive values that meet the expectations into ranges. `is_exact` says that the
    values come from a bisection. If they come from a grid, the values between two such neighbors
    are assumed to meet the expectations, too.
    """
    values = sorted(found)
    ranges: list[Range] = []
    for place, value in enumerate(values):
        if not found[value].holds:
            continue
        before = values[place - 1] if place else None
        is_joined = before is not None and found[before].holds
        is_same = before is not None and (
            value - before == 1 or found[before].first == found[value].first
        )
        higher = values[place + 1] if place + 1 < len(values) else None
        above = found[higher].why() if higher is not None else ""
        if is_joined and (is_same or not is_exact):
            last = ranges.pop()
            ranges.append(Range(last.low, value, last.lower, higher, last.below, above))
        else:
            below = found[before].why() if before is not None else ""
            ranges.append(Range(value, value, before, higher, below, above))
    return ranges


def search(
    span: tuple[int, int], present: int, at_once: int, is_monotone: bool, look: Look
) -> Search:
    """Finds the ranges within a span, which includes both ends. `at_once` is the number of values
    that one replay can evaluate.
    """
    low, high = span
    if is_monotone:
        found = bisect(low, high, at_once, look)
        return Search(joined(found, True), "bisection", len(found), 1)
    found, step = on_grid(low, high, present, look)
    way = "each value" if step == 1 else f"a grid of step {step}"
    return Search(joined(found, False), way, len(found), step)
