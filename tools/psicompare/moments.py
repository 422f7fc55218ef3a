"""Finds the times at which the kernel sampled the groups of a recording. The kernel samples a group
at each read of one of its pressure files, and about two seconds after the last sampling.

Two probes of the recorder report these times. A probe identifies a group by the address of its
`struct psi_group`. The address of each group follows from the recorder's own readings, which read
the files in a known order.
"""
from __future__ import annotations

from bisect import bisect_left, bisect_right
from collections import Counter, defaultdict
from collections.abc import Sequence
from statistics import median

from psicli.times import SECOND
from psiread.events import AverageProbe, ShowProbe
from psiread.pressure import Readings, recorder_of, spans_of
from psiread.source import Source
from psirec.layout import RESOURCES

# An upper bound (bytes) on the size of a `struct psi_group`, which contains the work item that
# samples the group.
MOST_ACCOUNTS = 4096
# The rates (Hz) of kernels' timers, and the most common rate, which is the default. 300 Hz isn't
# listed: its sampling period differs by less than 1 ms from the period at 250 Hz. Samplings may be
# up to 20 ms late, so the two rates can't be distinguished, and the difference has no effect.
RATES = (100, 250, 1000)
COMMON_RATE = 250
# Two samplings by the kernel's timer are consecutive if the time (ns) between them is in this
# range.
LEAST_PERIOD, MOST_PERIOD = 1_950_000_000, 2_050_000_000


def period_of(hertz: int) -> int:
    """Returns the period (ns) at which the kernel samples a group on its own (`PSI_FREQ`), for a
    timer of this rate (Hz).
    """
    return (2 * hertz + 1) * SECOND // hertz


class Moments:
    """The times at which the kernel sampled the groups of a recording. `readings` contains the
    machine's totals. If the times are known, each file in `readings` has the time (ns) that the
    probe reported.
    """

    def __init__(self, source: Source, readings: Readings) -> None:
        self.readings = readings
        self.addresses: dict[int, dict[str, int]] = {}
        self.sampled: dict[int, list[int]] = defaultdict(list)
        self.hertz: int | None = None
        self.is_known = source.has_sample_times
        if self.is_known:
            self.learn(source)

    def learn(self, source: Source) -> None:
        """Reads the events of the probes. Stores the addresses of the groups, the sampling times
        and the timer's rate.
        """
        shows = [it for it in source.events if isinstance(it, ShowProbe)]
        works: dict[int, list[int]] = defaultdict(list)
        for event in source.events:
            if isinstance(event, AverageProbe):
                works[event.work].append(event.time_ns)
        self.hertz = rate_of(works)
        self.match(source, shows)
        for show in shows:
            self.sampled[show.group].append(show.time_ns)
        offset = offset_of(self.sampled, works)
        for work, times in works.items():
            self.sampled[work - offset] += times
        for times in self.sampled.values():
            times.sort()

    def match(self, source: Source, shows: list[ShowProbe]) -> None:
        """Finds the addresses of the groups at each reading, from the events of the recorder's own
        reads. If the number of files differs because some were removed or couldn't be read, the
        addresses of the previous reading are used.
        """
        known: dict[str, int] = {}
        recorder, begins = recorder_of(source), [it.time_ns for it in shows]
        spans = spans_of(source)
        for number, files in self.readings.items():
            begin, end = spans[number]
            own = [
                it
                for it in shows[bisect_left(begins, begin) : bisect_right(begins, end)]
                if it.current == recorder
            ]
            if [it.resource for it in own] == [RESOURCES.index(it.resource) for it in files]:
                known = {file.path: show.group for file, show in zip(files, own)}
            self.addresses[number] = known
            places = {
                (show.group, RESOURCES[show.resource]): show.time_ns
                for show in own
                if show.resource < len(RESOURCES)
            }
            self.readings[number] = {
                file: totals._replace(
                    time_ns=places.get((known.get(file.path, 0), file.resource), totals.time_ns)
                )
                for file, totals in files.items()
            }

    def knows(self, path: str, number: int) -> bool:
        """Returns whether the sampling times are known for the group with this path at reading
        number `number`.
        """
        return self.addresses.get(number, {}).get(path, 0) in self.sampled

    def between(self, path: str, number: int, begin: int, end: int) -> list[int]:
        """Returns the times (ns of the recording's clock) from `begin` to `end`, both inclusive, at
        which the group was sampled. `path` is the group's path at reading number `number`.
        """
        times = self.sampled.get(self.addresses.get(number, {}).get(path, 0), [])
        return sorted(
            {begin, end, *times[bisect_left(times, begin) : bisect_right(times, end)]}
        )


def offset_of(groups: dict[int, list[int]], works: dict[int, list[int]]) -> int:
    """Returns the offset (bytes) of the work item in a `struct psi_group`: the most common
    difference among all pairs of addresses.
    """
    found = Counter(
        work - group for work in works for group in groups if 0 <= work - group < MOST_ACCOUNTS
    )
    return found.most_common(1)[0][0] if found else 0


def rate_of(works: dict[int, list[int]]) -> int | None:
    """Returns the rate (Hz) of the kernel's timer, computed from the mean period in each group's
    longest run of consecutive periods. Returns None if there are no consecutive periods.
    """
    runs = [run for run in map(longest_run, works.values()) if run[0]]
    if not runs:
        return None
    most = max(count for count, _ in runs)
    length = median(length for count, length in runs if 2 * count >= most)
    return min(RATES, key=lambda it: abs(period_of(it) - length))


def longest_run(times: Sequence[int]) -> tuple[int, float]:
    """Returns the number of periods in the longest run of consecutive samplings, and the mean
    period (ns) in that run. `times` are the times (ns) of samplings.
    """
    best, length, run = 0, 0.0, 0
    for place, time_ns in enumerate(times):
        is_next = place > 0 and LEAST_PERIOD <= time_ns - times[place - 1] <= MOST_PERIOD
        run = run + 1 if is_next else 0
        if run > best:
            best, length = run, (time_ns - times[place - run]) / run
    return best, length
