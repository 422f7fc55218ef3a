"""Moves wakeups to the time at which psi counts the task as ready. The kernel counts it in
`psi_task_change`, some time before it writes the event of the wakeup. If a recording has the probe
on this function, a wakeup can be written at either time or in the middle. The task really became
ready between the two times, so they bound the start of the task's wait for a processor.
"""
from __future__ import annotations

from bisect import bisect_left
from collections import Counter, defaultdict
from collections.abc import Callable, Iterable, Iterator, Sequence
from enum import Enum
from operator import itemgetter

from psiread.events import Event, FirstWakeup, ReadyProbe, Switch, Wakeup
from psiworld.world import LABEL_STEP

# If a probe is earlier than a wakeup by this time (ns) or more, it doesn't belong to that wakeup.
LONGEST_LAG = 50_000_000
BY_TIME = itemgetter(0)


class Counting(Enum):
    """The times at which a wakeup can be written to the trace."""

    PROBE = "probe"  # when psi counted it
    MIDDLE = "middle"  # halfway from there to its event
    EVENT = "event"  # when its event was written


def counted_at(events: Sequence[Event], probes: dict[int, int] | None = None) -> dict[int, int]:
    """Returns the time (ns) at which psi counted each wakeup, keyed by the event's index. A probe
    without a following wakeup is ignored, since psi also counts a task that moves to another
    processor or group.

    If events are read in parts, pass the same `probes` for each part. It contains the time (ns) of
    each task's last probe.
    """
    probes = {} if probes is None else probes
    found: dict[int, int] = {}
    for place, event in enumerate(events):
        if isinstance(event, ReadyProbe):
            probes[event.task] = event.time_ns
        elif isinstance(event, Switch):
            probes.pop(event.next, None)
        elif isinstance(event, (Wakeup, FirstWakeup)):
            time_ns = probes.pop(event.task, None)
            if time_ns is not None and event.time_ns - time_ns < LONGEST_LAG:
                found[place] = time_ns
    return found


def put_at(events: Sequence[Event], counted: dict[int, int], counting: Counting) -> list[Event]:
    """Moves each wakeup to the requested time, and returns all events in order of time."""
    if counting is Counting.EVENT or not counted:
        return list(events)
    moved: list[Event] = list(events)
    for place, time_ns in counted.items():
        event = events[place]
        moved[place] = event._replace(
            time_ns=time_ns if counting is Counting.PROBE else (time_ns + event.time_ns) // 2
        )
    moved.sort(key=BY_TIME)
    return moved


class Wakeups:
    """Moves the wakeups of a recording to the requested time. `lags` counts wakeups by the time
    (ns) from the probe to the event. `without_probe` is the number of wakeups without a probe.
    """

    def __init__(self, counting: Counting) -> None:
        self.counting = counting
        self.probes: dict[int, int] = {}
        self.lags: Counter[int] = Counter()
        self.without_probe = 0

    def put(self, events: Sequence[Event]) -> list[Event]:
        """Moves the wakeups of the next events to the requested time, and returns these events."""
        counted = counted_at(events, self.probes)
        self.lags.update(events[place].time_ns - time_ns for place, time_ns in counted.items())
        wakeups = sum(isinstance(event, (Wakeup, FirstWakeup)) for event in events)
        self.without_probe += wakeups - len(counted)
        return put_at(events, counted, self.counting)

    def slices(self, slices: Iterable[list[Event]]) -> Iterator[list[Event]]:
        """Moves the wakeups in slices of events, and yields the slices. If a wakeup moves to before
        the first event of its slice, it becomes part of the previous slice.
        """
        before: list[Event] | None = None
        for events in slices:
            moved = self.put(events)
            if before is not None:
                first = bisect_left(moved, events[0].time_ns, key=BY_TIME) if events else 0
                yield sorted([*before, *moved[:first]], key=BY_TIME) if first else before
                moved = moved[first:]
            before = moved
        if before is not None:
            yield before

    def lag_at(self, place: int) -> float:
        """Returns a quantile of the time (us) from a wakeup's probe to its event: the element with
        the index `place` in ascending order.
        """
        for lag, count in sorted(self.lags.items()):
            if place < count:
                return lag / 1000
            place -= count
        raise IndexError(place)

    def text(self) -> str:
        """Returns the line of the report that says at which time wakeups are written, and how long
        the time from the probe to the event is.
        """
        count = sum(self.lags.values())
        if not count:
            return (
                "wakeups at their events, which psi counts somewhat earlier: waits for CPU come out"
                " short by that, and record --wakeups says by how much"
            )
        way = {
            Counting.PROBE: "when psi counts them, and not at their events",
            Counting.MIDDLE: "halfway from when psi counts them to their events",
            Counting.EVENT: "at their events, and not when psi counts them",
        }[self.counting]
        middle, most = (self.lag_at((count - 1) // 2) + self.lag_at(count // 2)) / 2, self.lag_at(
            count * 99 // 100
        )
        return (
            f"wakeups {way}: {middle:.1f} us apart at the median, {most:.1f} at 99 of 100; unknown"
            f" of {self.without_probe}"
        )


# ---------------------------------------------------------------- bounds for the wakeups of a trace

# A function that returns the earliest and the latest time at which psi may have counted a wakeup.
# Its arguments are the task's label and the time of the wakeup's line. All times are in ns from the
# trace's start.
Bounds = Callable[[str, int], tuple[int, int]]


def bounds_of(events: Sequence[Event], start: int) -> Bounds:
    """Returns the bounds of wakeups in a recording whose probes recorded when psi counted each
    wakeup. The trace begins at `start` (ns of the recording's clock).
    """
    pairs: dict[int, list[tuple[int, int]]] = defaultdict(list)
    for place, time_ns in counted_at(events).items():
        event = events[place]
        bounds_ns = time_ns - start, event.time_ns - start
        pairs[event.task].append(bounds_ns)  # type: ignore[union-attr]

    def bounds(label: str, time_ns: int) -> tuple[int, int]:
        own = pairs.get(int(label) % LABEL_STEP, [])
        while own and own[0][1] < time_ns:
            own.pop(0)
        return own[0] if own and own[0][0] <= time_ns else (time_ns, time_ns)

    return bounds


def lag_bounds(lag: int) -> Bounds:
    """Returns bounds for a recording without probes. They assume that psi counted each wakeup at
    most `lag` ns before the wakeup's line.
    """
    return lambda _, time_ns: (time_ns - lag, time_ns)


def with_wakeups(lines: Iterable[str], bounds: Bounds, is_first: bool) -> list[str]:
    """Moves each wakeup in a trace's lines to its earliest possible time if `is_first`, or else to
    its latest. A wakeup stays after the previous line of its task. Returns all lines in order of
    time.
    """
    runs: dict[str, str] = {}
    lasts: dict[str, int] = {}
    found: list[tuple[int, str]] = []
    for line in lines:
        words = line.split()
        time_ns = int(words[0])
        if words[1] == "switch":
            lasts[runs.get(words[2], "")] = lasts[words[3]] = time_ns
            runs[words[2]] = words[3]
        elif words[1] == "wake":
            first, last = bounds(words[2], time_ns)
            time_ns = max(first if is_first else last, lasts.get(words[2], 0))
            line = f"{time_ns} {line.partition(' ')[2]}"
        elif words[1] in ("fork", "move", "stall", "unstall", "migrate"):
            lasts[words[2]] = time_ns
        found.append((time_ns, line))
    found.sort(key=BY_TIME)
    return [line for _, line in found]
