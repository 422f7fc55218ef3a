"""Compares the totals of a trace with the totals that the machine itself counted. Each group is
sampled at the same times as on the machine.

If a recording doesn't contain these sampling times, they are fitted with one number per group: the
phase of the kernel's two-second period. The chosen phase minimizes the differences at all readings.
A single number can't hide an error of a trace, because a group has six totals, and each is compared
at about thirty readings.
"""
from __future__ import annotations

from collections.abc import Sequence
from functools import lru_cache
from typing import NamedTuple

from psiread.pressure import File, Totals
from psirec.layout import RESOURCES

from .clocks import Clocks
from .moments import Moments, period_of
from .sums import Sums
from .sums import Totals as Grown

# The number of phases in a period of two seconds among which the search chooses: one about every
# 16 ms. The search first tries each COARSE-th phase. Then it repeatedly halves the step, and tries
# the two neighbors of the best phase.
PHASES, COARSE = 128, 4
LEVELS = 2
MICROSECOND = 1000


class Growth(NamedTuple):
    """The growth (us) of a file's totals some and full. `machine` is the growth on the machine.
    `kernel` is the growth in the trace as the machine's kernel computes it in 32 bits, and `true`
    the growth in the trace in 64 bits.
    """

    file: File
    machine: tuple[int, int]
    kernel: tuple[int, int]
    true: tuple[int, int]


class Asked(NamedTuple):
    """A group to compare: its path, and its number in the trace. For each resource, `spans`
    contains the start and the end of the comparison (ns of the trace). For the same time, `machine`
    contains the growth (us) of the machine's totals some and full.
    """

    path: str
    number: int
    spans: dict[str, tuple[int, int]]
    machine: dict[str, tuple[int, int]]

    def ends(self) -> tuple[int, int]:
        """Returns the earliest start and the latest end (ns of the trace) of all resources."""
        return min(begin for begin, _ in self.spans.values()), max(
            end for _, end in self.spans.values()
        )


class Sampling(NamedTuple):
    """The times (ns of the trace) at which a group is sampled. If the times were fitted, `phase` is
    the chosen phase (ns after the first time). It is None if the recording contains the times.
    """

    times: list[int]
    phase: int | None


def asked_of(readings: Sequence[dict[File, Totals]], clocks: Clocks, start: int) -> list[Asked]:
    """Returns the groups that exist in the trace and have files in the last of `readings`. The
    trace begins at `start` (ns of the recording's clock). Growth is counted from the first reading
    with the group's files, or from 0 if the group was created later.
    """
    began = max(it.time_ns for it in readings[0].values()) - start
    found = []
    for path in sorted({file.path for file in readings[-1]}):
        ends = {file.resource: totals for file, totals in readings[-1].items() if file.path == path}
        number = clocks.number_at(path, max(it.time_ns for it in ends.values()) - start)
        if number is None:
            continue
        creation = clocks.all[number].made
        spans, machine = {}, {}
        for resource, after in ends.items():
            before = Totals(creation + start, 0, 0)
            if creation <= began:
                before = next(
                    files[File(path, resource)]
                    for files in readings
                    if File(path, resource) in files
                )
            spans[resource] = before.time_ns - start, after.time_ns - start
            machine[resource] = after.some - before.some, after.full - before.full
        found.append(Asked(path, number, spans, machine))
    return found


def growths_of(asked: Asked, clocks: Clocks, sampling: Sampling, hertz: int) -> list[Growth]:
    """Returns the growth of a group's totals if the group is sampled at the times of `sampling`."""
    totals = Sums(clocks, asked.number, sampling.times, hertz).at(sampling.times)
    found = []
    for resource, (begin, end) in asked.spans.items():
        kernel = grown(totals[begin].kernel, totals[end].kernel, resource, asked.path)
        true = grown(totals[begin].true, totals[end].true, resource, asked.path)
        found.append(Growth(File(asked.path, resource), asked.machine[resource], kernel, true))
    return found


def grown(before: Sequence[int], after: Sequence[int], resource: str, path: str) -> tuple[int, int]:
    """Returns the growth (us) of a resource's totals of some and full. The root's full total of cpu
    is always 0.
    """
    place = LEVELS * RESOURCES.index(resource)
    some, full = (
        (after[place + level] - before[place + level]) // MICROSECOND for level in range(LEVELS)
    )
    return some, 0 if has_no_full(path, resource) else full


def has_no_full(path: str, resource: str) -> bool:
    """Returns whether the kernel always prints zeros in the full line of this pressure file."""
    return path == "/" and resource == "cpu"


# ---------------------------------------------------------------- sampling times


def sampling_of(
    asked: Asked,
    clocks: Clocks,
    samplings: Moments,
    inside: Sequence[int],
    start: int,
    hertz: int,
) -> Sampling:
    """Returns the sampling times of a group: the recorded times if the recording contains them, and
    fitted times if not. `inside` contains the numbers of the compared readings. The trace begins at
    `start` (ns of the recording's clock).
    """
    begin, end = asked.ends()
    own = {time_ns for span in asked.spans.values() for time_ns in span}
    if samplings.knows(asked.path, inside[-1]):
        times = samplings.between(asked.path, inside[-1], begin + start, end + start)
        return Sampling(sorted(own | {it - start for it in times}), None)
    files = [shifted(samplings.readings[number], asked.path, start) for number in inside]
    files = [
        it
        for it in files
        if len(it) == len(RESOURCES) and min(totals.time_ns for totals in it.values()) >= begin
    ]
    own |= {totals.time_ns for it in files for totals in it.values()}
    period = period_of(hertz)
    phase = fitted_phase(asked, clocks, files, sorted(own), hertz) if len(files) > 1 else 0
    return Sampling(sorted(own | set(range(begin + phase, end, period))), phase)


def shifted(files: dict[File, Totals], path: str, start: int) -> dict[str, Totals]:
    """Returns a group's totals in a reading, by resource. Their times are converted to ns of the
    trace.
    """
    return {
        file.resource: it._replace(time_ns=it.time_ns - start)
        for file, it in files.items()
        if file.path == path
    }


def fitted_phase(
    asked: Asked, clocks: Clocks, files: Sequence[dict[str, Totals]], own: Sequence[int], hertz: int
) -> int:
    """Returns the phase (ns) with which a group's totals are nearest to its files. With this phase,
    the sum of squared differences in growth between consecutive readings is the smallest that the
    search finds. The group is also sampled at the times `own`, at which its files were read.
    """
    (begin, end), period = asked.ends(), period_of(hertz)
    grids = [range(begin + period * place // PHASES, end, period) for place in range(PHASES)]
    tried = sorted({*own, *(time_ns for grid in grids for time_ns in grid)})
    sums = Sums(clocks, asked.number, tried, hertz)

    @lru_cache(maxsize=None)
    def distance(place: int) -> int:
        """Returns the sum of squared differences for the phase with the index `place`."""
        return distance_of(asked.path, files, sums.at(sorted({*own, *grids[place]})))

    best, step = min(range(0, PHASES, COARSE), key=distance), COARSE
    while step > 1:
        step //= 2
        best = min((best, (best - step) % PHASES, (best + step) % PHASES), key=distance)
    return period * best // PHASES


def distance_of(path: str, files: Sequence[dict[str, Totals]], totals: dict[int, Grown]) -> int:
    """Returns the sum of the squared differences (us^2) between the growth of the totals and of the
    files, over all pairs of consecutive readings.
    """
    whole = 0
    for before, after in zip(files, files[1:]):
        for resource in RESOURCES:
            one, two = before[resource], after[resource]
            kernel = totals[one.time_ns].kernel, totals[two.time_ns].kernel
            some, full = grown(*kernel, resource, path)
            machine = two.full - one.full
            whole += (some - two.some + one.some) ** 2 + (
                full - (0 if has_no_full(path, resource) else machine)
            ) ** 2
    return whole
