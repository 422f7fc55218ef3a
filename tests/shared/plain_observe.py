"""The reference implementation of psi_observe: it computes what observers of a group may print.

It follows docs/OBSERVERS.md. It computes the samples that each observer must print, and the content
of a sample after N changes of its processor. It derives the states from the tasks, and the signals
from docs/PRESSURE.md. Between two ticks, a sample may show any number of the processor's changes,
and the samples of different observers may have any order.
"""
from __future__ import annotations

import dataclasses
import re
from collections.abc import Iterator

from shared.clocks import Clocks, Tick
from harness import Wrong, must, must_be
from shared.plain_pressure import Replay, Run

# The length of a tick (ns).
TICK = 2 * 10**9
MOST_OBSERVERS, MOST_SAMPLES = 8, 1_000_000
SAMPLE = re.compile(rb"sample observer=([0-9]+) cpu=[0-9]+ count=([0-9]+) .*")


@dataclasses.dataclass
class Due:
    """A sample that each observer must print: its tick, its processor, and the smallest and the
    largest number of changes of the processor that the sample may show.
    """

    tick: Tick
    cpu: int
    least: int
    most: int


class Observed:
    """The allowed output of the observers of the path `path` for a trace: the samples of each
    observer, in order, and the lines after the samples.
    """

    def __init__(self, trace: str, path: str) -> None:
        self.clocks = Clocks(trace, path, TICK)
        self.due = list(self.all_due())
        replay = Replay(Run("", trace, TICK, 0))
        self.signals = sum(line.startswith("event ") for line in replay.output())
        self.end = replay.end
        # The text of a sample after the observer's number, by group, processor and number of
        # changes. It is cached because a quiet trace has many equal samples.
        self.texts: dict[tuple[int | None, int, int], str] = {}

    def all_due(self) -> Iterator[Due]:
        """Yields the samples that each observer must print. There is one for each tick at which a
        group has the path, and for each processor in ascending order.
        """
        before = [0] * len(self.clocks.changes)
        for tick in self.clocks.ticks:
            for cpu, (least, most) in enumerate(
                zip(before, tick.counts) if tick.group is not None else ()
            ):
                yield Due(tick, cpu, least, most)
            before = tick.counts

    def line(self, due: Due, observer: int, count: int) -> bytes:
        """Returns the line of an observer's sample that shows `count` changes of its processor."""
        key = due.tick.group, due.cpu, count
        if key not in self.texts:
            at = self.clocks.changes[due.cpu][count][0]
            seven = self.clocks.times(due.tick, due.cpu, count, at)
            self.texts[key] = f"cpu={due.cpu} count={count} at={at} {' '.join(map(str, seven))}"
        return f"sample observer={observer} {self.texts[key]}".encode()

    def last_lines(self, observers: int) -> list[bytes]:
        """Returns the lines after all samples: a line for each observer with the last values that
        it has read, and the line `end`.
        """
        board = f"tick={len(self.clocks.ticks)} events={self.signals} kills=0"
        lines = [f"board observer={observer} {board}" for observer in range(observers)]
        return [
            line.encode()
            for line in (*lines, f"end {self.end} samples={observers * len(self.due)}")
        ]


class Observer:
    """Compares the samples of an observer, in order, with the expected samples."""

    def __init__(self, number: int, observed: Observed) -> None:
        self.number, self.observed = number, observed
        self.left = iter(observed.due)
        # The number of changes in the last sample of each processor.
        self.last: dict[int, int] = {}

    def take(self, line: bytes, count: int) -> Tick:
        """Checks the next sample line of the observer, which shows `count` changes. Returns the
        sample's tick.
        """
        due = next(self.left, None)
        if due is None:
            raise Wrong("a sample that isn't due")
        least = max(due.least, self.last.get(due.cpu, 0))
        must(
            least <= count <= due.most,
            (
                f"its count isn't from {least} to {due.most}, at {due.tick.moment} on processor "
                f"{due.cpu}"
            ),
        )
        wanted = self.observed.line(due, self.number, count)
        must(line == wanted, f"it isn't {wanted!r}")
        self.last[due.cpu] = count
        return due.tick


def compare(printed: bytes, observed: Observed, observers: int) -> None:
    """Raises unless `observers` observers may print this output. The samples must be in the order
    of ticks.
    """
    *lines, after = printed.split(b"\n")
    must_be("what stands after the last line", after, b"")
    count = observers * len(observed.due)
    seen, time_ns = [Observer(number, observed) for number in range(observers)], 0
    for number, line in enumerate(lines[:count], 1):
        found = SAMPLE.fullmatch(line)
        if not found or int(found[1]) >= observers:
            raise Wrong(f"line {number} is {line!r}, no sample of one of {observers} observers")
        try:
            tick = seen[int(found[1])].take(line, int(found[2]))
        except Wrong as wrong:
            raise Wrong(f"line {number} is {line!r}: {wrong}") from None
        must(time_ns <= tick.moment,
             f"line {number} is {line!r}: a sample of {tick.moment} after one of {time_ns}")
        time_ns = tick.moment
    must_be("the lines after the samples", lines[count:], observed.last_lines(observers))


def is_too_many(cpus: int, ticks: int, observers: int) -> bool:
    """Returns whether a run with these numbers of processors, ticks and observers is rejected for
    every path, because it may have too many samples.
    """
    return ticks * observers * cpus > MOST_SAMPLES
