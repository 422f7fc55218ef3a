"""Distributes the growth of a total between two samples over the ticks in between.

A total may have grown early or late in the interval. The average avg10 at the end shows which,
since late growth has more weight in it. So the growth rate at a time is a linear function of the
weight that avg10 gives to that time, limited to 0 and the largest possible rate. Its slope is
chosen so that the total and avg10 at the end agree with the samples.
"""
from __future__ import annotations

from collections.abc import Sequence

from psiconvert.lead_in import FACTORS, WHOLE

from .block import TICK

FACTOR = FACTORS[10]
# The mean age (ns) of the averages in a pressure file, which the kernel updates every 2 s.
AGE = TICK // 2
STEEPEST, SLOPES, LEVELS_OF_SLOPE = 64.0, 20, 24


def parts_of(start: int, end: int) -> list[tuple[int, int]]:
    """Splits the interval from `start` to `end` (ns) at its ticks."""
    cuts = [start, *range((start // TICK + 1) * TICK, end, TICK), end]
    return [(one, other) for one, other in zip(cuts, cuts[1:]) if one < other]


def left_of(time: int, end: int) -> float:
    """Returns the factor by which an average that was read at `time` (ns) has decayed at `end`
    (ns).
    """
    return float(FACTOR ** (max(0, end - AGE - time) / TICK))


def bounded_rates(
    slope: float,
    recent: Sequence[float],
    most: Sequence[float],
    lengths: Sequence[int],
    growth: float,
) -> list[float]:
    """Returns the growth rate in each part of an interval: `level + slope * weight`, limited to 0
    to the part's `most`, where the weight is the one that avg10 gives to the part (`recent`).
    `level` is chosen so that the total grows by `growth` (ns) over the parts, whose `lengths` are
    in ns.
    """
    low, high = -abs(slope), 1.0 + abs(slope)
    found = [0.0] * len(recent)
    for _ in range(LEVELS_OF_SLOPE):
        level = (low + high) / 2
        found = [min(top, max(0.0, level + slope * it)) for it, top in zip(recent, most)]
        if sum(map(float.__mul__, found, map(float, lengths))) < growth:
            low = level
        else:
            high = level
    return found


def rates(
    start: int,
    end: int,
    growth: int,
    averages: tuple[float, float],
    most: Sequence[float] | None = None,
) -> list[float]:
    """Returns the growth rate (0 to 1) in each part of an interval. `growth` is the total's growth
    (ns), `averages` are avg10 (percent) at both ends, and `most` has upper bounds of the rates.
    """
    parts = parts_of(start, end)
    lengths = [other - one for one, other in parts]
    tops = list(most) if most else [1.0] * len(parts)
    if (
        len(parts) < 2
        or growth <= 0
        or growth >= sum(map(float.__mul__, tops, map(float, lengths)))
    ):
        return [min(1.0, max(0.0, growth / (end - start)))] * len(parts)
    gains = [left_of(other, end) - left_of(one, end) for one, other in parts]
    recent = [gain / length * TICK for gain, length in zip(gains, lengths)]
    goal = (averages[1] - averages[0] * left_of(start, end)) / WHOLE
    low, high = -STEEPEST, STEEPEST
    found: list[float] = []
    for _ in range(SLOPES):
        slope = (low + high) / 2
        found = bounded_rates(slope, recent, tops, lengths, growth)
        if sum(map(float.__mul__, found, gains)) < goal:
            low = slope
        else:
            high = slope
    return found


def knots_between(
    one: tuple[int, int, int, int],
    other: tuple[int, int, int, int],
    before: tuple[float, float],
    after: tuple[float, float],
) -> list[tuple[int, int, int, int]]:
    """Returns computed points of the totals at the ticks between two samples. `before` and `after`
    are avg10 (percent) of some and full at the samples.
    """
    start, end = one[0], other[0]
    some = rates(start, end, other[1] - one[1], (before[0], after[0]))
    full = rates(start, end, other[2] - one[2], (before[1], after[1]), some)
    found, sums = [], [float(one[1]), float(one[2])]
    for (begin, to), first, second in zip(parts_of(start, end), some, full):
        sums = [sums[0] + first * (to - begin), sums[1] + second * (to - begin)]
        found.append((to, min(int(sums[0]), other[1]), min(int(sums[1]), other[2]), 0))
    return found[:-1]
