"""Computes a group's totals as the kernel does (`collect_percpu_times` of `kernel/sched/psi.c`). At
each sampling, a state's total grows by the mean of its growth on the processors. The weight of a
processor is the number of timer ticks for which the group was not idle on it.

The kernel stores these growths in 32 bits. If a state held for 4.295 s or longer between two
samplings, only the remainder is counted.
"""
from __future__ import annotations

from collections.abc import Sequence
from itertools import accumulate
from operator import add
from typing import NamedTuple

from psicli.times import SECOND

from .clocks import STATES, Clocks

WIDTH = 2**32
NONIDLE = STATES - 1
# The time (ns) in each state on one processor during an interval.
Times = Sequence[int]


class Step(NamedTuple):
    """The growth (ns) of each state's total at one sampling: as the kernel computes it in 32 bits
    (`kernel`), and in 64 bits (`true`).
    """

    kernel: list[int]
    true: list[int]


def shares(processors: Sequence[Times], hertz: int) -> list[int]:
    """Returns the growth (ns) of each state's total, except `nonidle`, in an interval. `processors`
    has the time in each state on each processor, and `hertz` is the rate of the kernel's timer.
    """
    weights = [times[NONIDLE] * hertz // SECOND for times in processors]
    whole = max(1, sum(weights))
    return [
        sum(times[state] * weight for times, weight in zip(processors, weights)) // whole
        for state in range(NONIDLE)
    ]


def step_of(processors: Sequence[Times], hertz: int) -> Step:
    """Returns the growth of the totals in an interval, in 32 and in 64 bits."""
    true = shares(processors, hertz)
    if all(times[NONIDLE] < WIDTH for times in processors):
        return Step(true, true)
    return Step(shares([[time % WIDTH for time in times] for times in processors], hertz), true)


class Totals(NamedTuple):
    """The growth (ns) of each state's total since the first sampling: as the kernel computes it in
    32 bits (`kernel`), and in 64 bits (`true`).
    """

    kernel: list[int]
    true: list[int]


class Sums:
    """Computes a group's totals for any selection of sampling times from `times_ns` (ns of the
    trace, ascending).
    """

    def __init__(self, clocks: Clocks, group: int, times_ns: Sequence[int], hertz: int) -> None:
        self.hertz = hertz
        self.places = {time_ns: place for place, time_ns in enumerate(times_ns)}
        self.times = [
            list(accumulate(times, added, initial=(0,) * STATES))
            for times in clocks.times(group, times_ns)
        ]
        self.steps: dict[tuple[int, int], Step] = {}

    def step(self, first: int, last: int) -> Step:
        """Returns the growth between the times with the indices `first` and `last`. Caches the
        result.
        """
        if (first, last) not in self.steps:
            grown = [
                [after - before for before, after in zip(times[first], times[last])]
                for times in self.times
            ]
            self.steps[first, last] = step_of(grown, self.hertz)
        return self.steps[first, last]

    def at(self, chosen: Sequence[int]) -> dict[int, Totals]:
        """Returns the totals at each of the chosen times, which are ascending. The totals at the
        first time are 0.
        """
        kernel = true = [0] * NONIDLE
        found = {chosen[0]: Totals(kernel, true)}
        for before, after in zip(chosen, chosen[1:]):
            step = self.step(self.places[before], self.places[after])
            is_same = kernel is true and step.kernel is step.true
            kernel = list(map(add, kernel, step.kernel))
            true = kernel if is_same else list(map(add, true, step.true))
            found[after] = Totals(kernel, true)
        return found


def added(times: Times, more: Times) -> tuple[int, ...]:
    """Returns the element-wise sums of two tuples of times (ns)."""
    return tuple(map(add, times, more))
