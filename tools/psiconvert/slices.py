"""Splits a recording's events into slices, inserts the switches that the kernel didn't write, and
derives the initial states of tasks from the first slices.
"""
from __future__ import annotations

from bisect import bisect_left
from collections.abc import Iterable, Iterator
from dataclasses import dataclass
from operator import itemgetter

from psiread.events import NEVER, Event
from psiread.source import Source
from psiread.window import Window

from .first import LONGEST_READY, Beginning, reports_births
from .unwritten import Chains

# The time (ns) after the start whose events determine the initial state.
LOOK_AHEAD = 60 * 10**9
BY_TIME = itemgetter(0)


@dataclass
class Slice:
    """A slice: consecutive events, with the inserted switches, and the events of the next slice."""

    events: list[Event]
    following: list[Event]

    def __post_init__(self) -> None:
        self.kinds = {*map(type, self.events), *map(type, self.following)}

    def both(self) -> list[Event]:
        """Returns the events of this slice and of the next one."""
        return [*self.events, *self.following]

    def has(self, *kinds: type) -> bool:
        """Returns whether this slice or the next one has an event of one of these kinds."""
        return not self.kinds.isdisjoint(kinds)


class Mender:
    """Inserts the switches that the kernel didn't write. `times_ns` are the times (ns) of all
    inserted switches.
    """

    def __init__(self, source: Source, silent: set[int]) -> None:
        self.chains = Chains(source.events, source.gaps)
        self.chains.silent = silent
        self.times_ns: list[int] = []

    def pairs(self, slices: Iterable[list[Event]]) -> Iterator[Slice]:
        """Yields each slice together with the next slice."""
        before: list[Event] | None = None
        for events in slices:
            whole, late = self.mended(events, before)
            if before is not None:
                if late:
                    before = sorted([*before, *late], key=lambda event: event[0])
                yield Slice(before, whole)
            before = whole
        if before is not None:
            yield Slice(before, [])

    def mended(
        self, events: list[Event], before: list[Event] | None
    ) -> tuple[list[Event], list[Event]]:
        """Inserts the unwritten switches into a slice. Returns the slice's events, and separately
        the inserted switches that belong before the slice. `before` is the previous slice.
        """
        whole, times_ns = self.chains.mended(events)
        if not times_ns:
            return events, []
        self.times_ns += times_ns
        whole.sort(key=BY_TIME)
        first = bisect_left(whole, events[0].time_ns, key=BY_TIME) if before else 0
        return whole[first:], whole[:first]


class Ahead:
    """Derives the initial states of tasks from the first LOOK_AHEAD ns of events, both for the
    recording and for the window.
    """

    def __init__(self, source: Source, window: Window) -> None:
        self.source, self.start = source, window.start
        self.end = min(window.end, window.start + LOOK_AHEAD)
        self.latest_ready = None if reports_births(source.events) else LONGEST_READY
        self.recording, self.window = self.new(source.events[0].time_ns), self.new(window.start)
        self.until = source.events[0].time_ns + LOOK_AHEAD
        self.is_begun = False

    def new(self, time_ns: int) -> Beginning:
        """Returns an initial state without tasks, for events at or after `time_ns`."""
        return Beginning(NEVER if self.latest_ready is None else time_ns + self.latest_ready)

    def take(self, events: list[Event]) -> bool:
        """Derives initial states from the next events. Returns whether further events are needed.
        """
        for event in events:
            time_ns = event[0]
            if time_ns <= self.until:
                self.recording.take(event)
            if self.start <= time_ns <= self.end:
                if not self.is_begun:
                    self.window, self.is_begun = self.new(time_ns), True
                self.window.take(event)
        return not events or events[-1][0] <= max(self.until, self.end)

    def take_late(self) -> None:
        """Derives initial states from the first event of each processor that had no event so far.
        """
        begins_there = self.start <= self.source.start
        for event in self.source.events:
            if event[1] not in self.recording.runs:
                self.recording.take(event)
            if begins_there and self.start <= event[0] and event[1] not in self.window.runs:
                self.window.take(event)


def looked_ahead(
    source: Source, slices: Iterable[list[Event]], silent: set[int], window: Window
) -> Ahead:
    """Reads the events that determine the initial states, and returns these states."""
    ahead = Ahead(source, window)
    for part in Mender(source, silent).pairs(slices):
        if not ahead.take(part.events):
            break
    ahead.take_late()
    return ahead
