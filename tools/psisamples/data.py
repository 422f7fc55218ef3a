"""Summarizes all samples: the time that they cover, their interval, and their groups."""
from __future__ import annotations

from collections import Counter
from collections.abc import Iterator
from dataclasses import dataclass, field

from psicli.fault import Fault
from psicli.times import SECOND

from .inputs import Inputs
from .metrics import SECOND_ROOT
from .rows import AVERAGES, HOST, MEMORY, ROOT, SCANS
from .store import Plain

# The unit (ns) in which intervals between samples are counted.
GRAIN = SECOND // 10
MOST_INTERVAL = 600 * SECOND


@dataclass
class Data:
    """A summary of all samples. Times are in ns since 1970. `every` is the usual interval (ns)
    between two samples of a group, and `gap` the longest (ns).
    """

    inputs: Inputs
    start: int = 0
    end: int = 0
    every: int = 0
    gap: int = 0
    has_scans: bool = False
    has_host: bool = False
    has_averages: bool = False
    has_node_root: bool = False
    groups: set[str] = field(default_factory=set)
    rows: int = 0

    def since(self, time: int) -> Iterator[Plain]:
        """Yields the rows from `time` (ns since 1970) on."""
        return self.only(self.inputs.store.since(time))

    def only(self, rows: Iterator[Plain]) -> Iterator[Plain]:
        """Yields the rows. The root's rows from cAdvisor (SECOND_ROOT) become rows of ROOT, or are
        dropped if node_exporter has samples of the root.
        """
        for row in rows:
            if row[1] != SECOND_ROOT:
                yield row
            elif not self.has_node_root:
                yield (row[0], ROOT, *row[2:])


def counted(inputs: Inputs) -> Data:
    """Sorts the samples, and summarizes them in a single pass."""
    data = Data(inputs)
    data.has_node_root = ROOT in inputs.paths.values() and any(
        it.group == ROOT and it.field < MEMORY for it in inputs.metrics.series
    )
    last: dict[str, tuple[int, int]] = {}
    gaps: Counter[int] = Counter()
    for time, group, field_, values, _ in data.only(inputs.store.sort()):
        data.rows += 1
        data.has_scans = data.has_scans or field_ <= SCANS < field_ + len(values)
        data.has_host = data.has_host or field_ == HOST
        data.has_averages = data.has_averages or field_ >= AVERAGES
        if field_ >= MEMORY:
            continue
        data.start = data.start or time
        data.end = time
        known = last.get(group)
        if known is None:
            data.groups.add(group)
        elif field_ == known[1]:
            gaps[(time - known[0] + GRAIN // 2) // GRAIN] += 1
        if known is None or field_ == known[1]:
            last[group] = time, field_
    data.every = interval_of(gaps) * GRAIN
    data.gap = max((it * GRAIN for it in gaps), default=0)
    must_be_usable(data)
    return data


def interval_of(gaps: Counter[int]) -> int:
    """Returns the median of the intervals in units of GRAIN, or 0 if there are no intervals."""
    place, total = sum(gaps.values()) // 2, 0
    for gap in sorted(gaps):
        total += gaps[gap]
        if total > place:
            return max(1, gap)
    return 0


def must_be_usable(data: Data) -> None:
    """Rejects samples from which no trace can be made."""
    names = ", ".join(data.inputs.files)
    if not data.every:
        raise Fault(f"{names}: no group has two samples")
    if ROOT not in data.groups:
        first = min(data.groups)
        raise Fault(
            f"{names}: groups such as {first} have samples, and the root / has none: add"
            " node_pressure_.., or /proc/pressure"
        )
    if data.every > MOST_INTERVAL:
        raise Fault(
            f"{names}: samples are {data.every // SECOND} s apart: at most"
            f" {MOST_INTERVAL // SECOND} s"
        )
