#!/usr/bin/env python3
"""Computes how the tables of rules in bench/samples.md depend on the simulated stalls' pressure and
on the growth of memory, without running psi_oomd.

usage: bench/sensitivity.py

heights: 210 groups have stalls of constant pressure, each 3 to 80 s long, within 300 s. A rule is
evaluated both with totals of each second and with samples. Each cell compares the two. It is the
number of evaluations at which the rule holds with both, as a percentage of the evaluations at which
it holds with at least one. growth: the memory of the simulated machines of bench/machines.py. Each
cell is the percentage of evaluations during thrashing at which kill_by_memory_size_or_growth with
its default arguments chooses the same group from samples as from the memory at each second.
"""
from __future__ import annotations

import math
import random
from collections.abc import Callable, Iterable, Sequence

from machines import GB, SECOND, Service, small_tree

LENGTH, EVALUATED = 300, 5
INTERVALS = (5, 15, 30)
SEEDS = range(200, 230)
# Thresholds (as a share of time) and durations (s) of the compared rules.
RULES = ((0.1, 10), (0.4, 10), (0.6, 10), (0.6, 30))
HEIGHTS = ((0.2, 0.8), (0.4, 1.0), (0.9, 1.0))
# The growth of a service's memory (as a share) in a second of thrashing.
GROWTHS = (0.04, 0.02, 0.01)
PAST, LEAST_GROWTH = 4, 1.25


def sampled(values: Sequence[float], every: int) -> Callable[[int], float]:
    """Returns a function of the time (s) that interpolates linearly between samples of `values`,
    which has a value for each second. Samples are `every` s apart.
    """

    def at(time: int) -> float:
        start = time // every * every
        end = min(start + every, len(values) - 1)
        return values[start] + (values[end] - values[start]) * (time - start) / max(1, end - start)

    return at


def percent(parts: Iterable[tuple[int, int]]) -> str:
    """Returns the sum of the first numbers as a percentage of the sum of the second numbers."""
    both, either = (sum(it) for it in zip(*parts))
    return f"{100 * both / max(1, either):.1f} %"


# ---------------------------------------------------------------- pressure of stalls


def totals_of(rng: random.Random, low: float, high: float) -> list[float]:
    """Returns the total stalled time (s) of a group at each second. The pressure of each stall is a
    random share between `low` and `high`.
    """
    shares, at = [0.0] * LENGTH, rng.randrange(5, 60)
    while at < LENGTH:
        end, height = at + rng.randrange(3, 80), rng.uniform(low, high)
        shares[at:end] = [height] * (min(end, LENGTH) - at)
        at = end + rng.randrange(5, 90)
    totals = [0.0]
    for share in shares:
        totals.append(totals[-1] + share)
    return totals


def averages(total: Callable[[int], float], tick: int) -> list[float]:
    """Returns avg10 (as a share) at each tick. `total(t)` is the time (s) stalled until `t` (s),
    and `tick` is the length of a tick (s).
    """
    factor, found = math.exp(-tick / 10), [0.0]
    for at in range(tick, LENGTH + 1, tick):
        found.append(found[-1] * factor + (total(at) - total(at - tick)) / tick * (1 - factor))
    return found


def holds(found: Sequence[float], tick: int, threshold: float, duration: int) -> set[int]:
    """Returns the times (s) of the evaluations at which an average has been above `threshold` for
    at least `duration` s. `found` has the average at each tick.
    """
    times, since = set(), None
    for at in range(EVALUATED, LENGTH + 1, EVALUATED):
        if found[at // tick] <= threshold:
            since = None
            continue
        since = at if since is None else since
        if at - since >= duration:
            times.add(at)
    return times


def heights() -> None:
    """Prints the table of stalls by their pressure."""
    columns = ("events at 2 s", *(f"{it} s" for it in INTERVALS))
    print(f"| stalls of | rule | {' | '.join(columns)} |")
    for low, high in HEIGHTS:
        groups = []
        for seed in SEEDS:
            rng = random.Random(seed)
            groups += [totals_of(rng, low, high) for _ in range(7)]
        truths = [averages(sampled(totals, 1), 1) for totals in groups]
        others = [
            [averages(sampled(totals, every), 2) for totals in groups] for every in (1, *INTERVALS)
        ]
        for threshold, duration in RULES:
            wanted = [holds(it, 1, threshold, duration) for it in truths]
            cells = []
            for column in others:
                pairs = [
                    (one, holds(it, 2, threshold, duration)) for one, it in zip(wanted, column)
                ]
                cells.append(percent((len(one & other), len(one | other)) for one, other in pairs))
            span = f"{100 * low:.0f} to {100 * high:.0f} %"
            print(
                f"| {span} | above {100 * threshold:.0f} for {duration} s | {' | '.join(cells)} |"
            )


# ---------------------------------------------------------------- growth of memory


def memories(seed: int, growth: float) -> tuple[dict[str, list[float]], list[bool]]:
    """Returns the memory (bytes) of each service of a simulated machine at each second, and a list
    that says for each second whether a service thrashes.
    """
    paths = [it for it in small_tree(7) if it.count("/") == 2]
    services = [Service(it, random.Random(f"{seed} {it}"), LENGTH, True) for it in paths]
    found = {it.path: [float(it.memory)] for it in services}
    thrashes = []
    for second in range(LENGTH):
        episodes = [it.episode(second * SECOND) for it in services]
        for service, (kind, force) in zip(services, episodes):
            size = found[service.path][-1]
            factor = 1 + growth * force if kind == "thrash" else service.rng.uniform(0.97, 1.03)
            found[service.path].append(min(6.0 * GB, max(GB / 16, size * factor)))
        thrashes.append(any(kind == "thrash" for kind, _ in episodes))
    return found, thrashes


def victim(sizes: dict[str, float], past: dict[str, list[float]]) -> str:
    """Returns the victim of kill_by_memory_size_or_growth. If the largest group has at least half
    of all memory, it is the victim. If not, the candidate is the one of the two largest groups that
    grew more. It is the victim if it grew by at least the factor LEAST_GROWTH, and the largest
    group is the victim if not. `past` has the sizes at previous evaluations.
    """
    order = sorted(sizes, key=lambda it: (-sizes[it], it))
    if 2 * sizes[order[0]] >= sum(sizes.values()):
        return order[0]
    growths = {
        it: sizes[it] * len(past[it]) / sum(past[it]) if past[it] else 0.0 for it in order[:2]
    }
    best = max(growths, key=lambda it: growths[it])
    return best if growths[best] >= LEAST_GROWTH else order[0]


def victims(found: dict[str, list[float]], every: int) -> list[str]:
    """Returns the victim at each evaluation if memory is sampled each `every` s."""
    past: dict[str, list[float]] = {it: [] for it in found}
    chosen = []
    for at in range(EVALUATED, LENGTH, EVALUATED):
        sizes = {path: sampled(values, every)(at) for path, values in found.items()}
        chosen.append(victim(sizes, past))
        past = {path: [*past[path], size][-PAST:] for path, size in sizes.items()}
    return chosen


def growths() -> None:
    """Prints the table of memory growth."""
    print(f"| memory grows in a second by | {' | '.join(f'{it} s' for it in INTERVALS)} |")
    for growth in GROWTHS:
        parts: dict[int, list[tuple[int, int]]] = {every: [] for every in INTERVALS}
        for seed in SEEDS:
            found, thrashes = memories(seed, growth)
            wanted = victims(found, 1)
            places = [
                place
                for place, at in enumerate(range(EVALUATED, LENGTH, EVALUATED))
                if thrashes[at]
            ]
            for every in INTERVALS:
                chosen = victims(found, every)
                parts[every].append((sum(wanted[it] == chosen[it] for it in places), len(places)))
        print(
            f"| {100 * growth:.0f} % | {' | '.join(percent(parts[every]) for every in INTERVALS)} |"
        )


if __name__ == "__main__":
    heights()
    growths()
