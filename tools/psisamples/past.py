"""Computes the pressure during the warm-up of a trace, which is the time before its first samples.
This pressure makes the averages start with the machine's values instead of 0.
"""
from __future__ import annotations

from psiconvert.lead_in import LAST, MIDDLE, WHOLE, Diffusion, stretches_of

from .block import LEVELS, TICK, Times
from .lives import Life

HUNDRED = 100


class Past:
    """The pressure of groups in the `ticks` ticks before their first samples. It is computed from
    the averages avg10, avg60 and avg300 of these samples.
    """

    def __init__(self, ticks: int) -> None:
        self.ticks = ticks
        self.diffusion = Diffusion()
        self.stretches: dict[str, list[list[float]]] = {}

    def wanted(self, life: Life, tick: int) -> Times:
        """Returns by how much (ns) each of the group's totals must grow in a tick of the warm-up.
        """
        if life.path not in self.stretches:
            averages = [it / HUNDRED for it in life.averages] or [0.0] * 18
            triples = [averages[3 * level : 3 * level + 3] for level in range(len(LEVELS))]
            self.stretches[life.path] = [
                stretches_of(it, self.ticks) if any(it) else [0.0] * 3 for it in triples
            ]
        place = 0 if tick < self.ticks - MIDDLE - LAST else 1 if tick < self.ticks - LAST else 2
        shares = [
            self.diffusion.percent(life.path, pressure, stretches[place])
            for pressure, stretches in zip(LEVELS, self.stretches[life.path])
        ]
        for some in (0, 2, 4):
            shares[some + 1] = min(shares[some], shares[some + 1])
        return tuple(int(it * TICK / WHOLE) for it in shares)


def end_past(life: Life) -> None:
    """Sets a group's required totals to the totals that the group has reached at the end of its
    warm-up, so that only later growth is compared with the samples.
    """
    life.target = list(life.achieved)
    life.base = [base - achieved for base, achieved in zip(life.base, life.achieved)]
