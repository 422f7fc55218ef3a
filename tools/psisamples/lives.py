"""Computes from readings when each group existed, and its totals at any time.

Between two readings a total grows linearly, or as avg10 indicates. A group was removed if it has no
reading in three consecutive rounds. If a group's total falls, the group was removed and created
again.
"""
from __future__ import annotations

import bisect
from collections import deque
from collections.abc import Callable, Iterator
from typing import NamedTuple, Optional

from psicli.fault import Fault

from .block import LEVELS, RESOURCES, TICK
from .rows import AVERAGES, HOST, MEMORY, ROOT, SCANS, Place
from .shape import knots_between
from .store import Plain

US = 1000
# A group counts as removed if more consecutive rounds than this have no reading of it.
MOST_MISSED = 2
# Between two readings a total may grow by at most FASTEST times the elapsed time plus SLACK (ns).
# SLACK is needed because the files of a round aren't read at exactly the same time.
FASTEST, SLACK = 1.5, 2 * 10**9
# The largest number of rounds whose times are stored.
MOST_ROUNDS = 4096


# The totals of a resource at one time: the time (ns since the trace's start), the totals (ns) of
# some and full, and 1 for a sample or 0 for a computed point.
Knot = tuple[int, int, int, int]


def between(one: Knot, other: Knot, time: int) -> tuple[int, int]:
    """Returns the totals (ns) at `time` (ns), interpolated linearly between two points."""
    if time >= other[0]:
        return other[1], other[2]
    if time <= one[0]:
        return one[1], one[2]
    part, whole = time - one[0], other[0] - one[0]
    return (
        one[1] + (other[1] - one[1]) * part // whole, one[2] + (other[2] - one[2]) * part // whole,
    )


class Memory(NamedTuple):
    """A memory sample: its time (ns), the memory and swap in use (bytes), and the count of scanned
    pages (-1 if unknown).
    """

    time: int
    current: int
    swap: int
    scans: int


class Reading:
    """The values of a group that were read at one time, by field."""

    def __init__(self, time: int, path: str, place: tuple[int, int], is_shaped: bool) -> None:
        self.time, self.path, self.place, self.is_shaped = time, path, place, is_shaped
        self.values: dict[int, int] = {}

    def totals(self) -> dict[int, tuple[int, int]]:
        """Returns the totals (ns) of some and full, by the number of the resource. A resource
        without a total of some is left out. A missing total of full is 0.
        """
        get = self.values.get
        return {
            it // 2: (self.values[it] * US, get(it + 1, 0) * US)
            for it in (0, 2, 4)
            if it in self.values
        }

    def shares(self, number: int) -> Optional[tuple[float, float]]:
        """Returns avg10 of some and full (percent) of the resource `number`. Returns None if the
        reading has no averages, or if totals grow linearly between samples.
        """
        place = AVERAGES + 6 * number
        if not self.is_shaped or place not in self.values:
            return None
        return self.values[place] / 100, self.values.get(place + 3, 0) / 100


class Life:
    """A group from its creation to its removal. The trace creates the group after `tick` ticks, and
    removes it after `end_tick` ticks. The group's totals in the trace start at 0; `base` has the
    totals (ns) in the samples at its creation.
    """

    def __init__(self, path: str, tick: int, is_sampled: bool) -> None:
        self.path, self.tick, self.is_sampled = path, tick, is_sampled
        self.number = -1
        self.end_tick: Optional[int] = None
        self.last = -1
        self.knots: list[deque[Knot]] = [deque() for _ in RESOURCES]
        # Totals (ns) by level. `base` has the totals in the samples at the group's creation.
        # `target` has the totals that the trace should have at the last tick, according to the
        # samples, and `achieved` the totals that it has.
        self.base, self.target, self.achieved = [0] * 6, [0] * 6, [0] * 6
        self.memory: deque[Memory] = deque()
        # No memory sample is written before this time (ns).
        self.memory_due = 0
        # `shift` has the root's totals (ns) before they were reset. `is_new` says whether the group
        # was created between two rounds. No total grows until the time `quiet_until` (ns).
        self.shift = [0] * 6
        self.is_new = False
        self.quiet_until = -1
        # The averages of the first reading (hundredths of a percent), three for each level.
        self.averages: list[int] = []
        # avg10 of some and full (percent) in the last reading, by resource. Empty if totals grow
        # linearly between samples.
        self.shares: dict[int, tuple[float, float]] = {}

    def add(self, reading: Reading) -> None:
        """Adds a reading. If a resource occurs for the first time, its totals start at those of the
        reading, or at 0 if the group is new.
        """
        totals = reading.totals()
        for number, (some, full) in totals.items():
            knots = self.knots[number]
            some, full = some + self.shift[2 * number], full + self.shift[2 * number + 1]
            if not knots and self.is_new and some <= reading.time - self.tick * TICK:
                knots.append((self.tick * TICK, 0, 0, 0))
            elif not knots:
                self.base[2 * number : 2 * number + 2] = some, full
            knot = reading.time, some, full, 1
            shares = reading.shares(number)
            before = self.shares.get(number)
            if before is not None and shares is not None and knots:
                knots.extend(knots_between(knots[-1], knot, before, shares))
            if shares is not None:
                self.shares[number] = shares
            knots.append(knot)
        if AVERAGES in reading.values and not self.averages:
            self.averages = [reading.values.get(AVERAGES + it, 0) for it in range(18)]
        if MEMORY in reading.values:
            values, self.memory_due = reading.values, 0
            self.memory.append(
                Memory(
                    reading.time, values[MEMORY], values.get(MEMORY + 1, 0), values.get(SCANS, -1)
                )
            )
        if totals or self.last < 0:
            self.last = reading.time

    def start(self) -> None:
        """Sets `base` to the totals (ns) at the group's creation."""
        for number, knots in enumerate(self.knots):
            if knots:
                self.base[2 * number : 2 * number + 2] = self.totals_at(number, self.tick * TICK)

    def totals_at(self, number: int, time: int) -> tuple[int, int]:
        """Returns the totals (ns) of the resource `number` at `time` (ns) according to the samples.
        """
        knots = self.knots[number]
        last = knots[0]
        for knot in knots:
            if knot[0] >= time:
                return between(last, knot, time)
            last = knot
        return last[1], last[2]

    def grown(self, number: int, one: Knot, other: Knot, start: int, end: int) -> tuple[int, int]:
        """Returns the growth (ns) of a resource's totals in the tick from `start` to `end` (ns),
        and updates `target`. `one` is the last point up to `start`, and `other` the next point.
        """
        target, base, level = self.target, self.base, 2 * number
        if one[0] <= start and end <= other[0]:
            part, whole, some, full = (
                end - one[0], other[0] - one[0], other[1] - one[1], other[2] - one[2],
            )
            if some or full:
                target[level] = one[1] + some * part // whole - base[level]
                target[level + 1] = one[2] + full * part // whole - base[level + 1]
            return some * TICK // whole, full * TICK // whole
        before = target[level], target[level + 1]
        some, full = self.totals_at(number, end)
        target[level], target[level + 1] = some - base[level], full - base[level + 1]
        return target[level] - before[0], target[level + 1] - before[1]

    def is_known_until(self, time: int) -> bool:
        """Whether there is a reading at `time` (ns) or later."""
        return self.last >= time


def limit_text(elapsed: int) -> str:
    """Returns the end of the error message about a total that grows faster than time. It has the
    time `elapsed` (ns) between the two samples, formatted in us, and the expected units.
    """
    return f"{elapsed // US} us: totals are us, or seconds in metrics"


class Lives:
    """All groups of the samples. Reads rows in order of time. `tails` has the last group with each
    path, and `born` the groups that aren't in the trace yet. Times are in ns since `origin`.
    """

    def __init__(
        self, rows: Iterator[Plain], origin: int, every: int,
        places: Callable[[tuple[int, int]], Place], is_shaped: bool = False,
    ) -> None:
        self.rows, self.origin, self.every, self.places, self.is_shaped = (
            rows, origin, every, places, is_shaped,
        )
        self.row = next(rows, None)
        self.tails: dict[str, Life] = {}
        self.born: list[Life] = []
        self.rounds: list[int] = []
        self.host: deque[tuple[int, tuple[int, ...]]] = deque()
        self.time = -1

    # ---------------------------------------------------------------- reading samples

    def reading(self) -> Optional[Reading]:
        """Returns the next reading: all rows with the same group and time, or None at the end."""
        if self.row is None:
            return None
        time, path, _, _, place = self.row
        found = Reading(time - self.origin, path, place, self.is_shaped)
        while self.row is not None and self.row[0] == time and self.row[1] == path:
            for number, value in enumerate(self.row[3]):
                self.put(found, self.row[2] + number, value, self.row[4])
            self.row = next(self.rows, None)
        return found

    def put(self, reading: Reading, field: int, value: int, place: tuple[int, int]) -> None:
        """Sets a value of a reading. Raises a Fault if the reading already has another value."""
        if reading.values.setdefault(field, value) != value:
            raise Fault(
                f"{self.places(place)}: {reading.path} has another value at the same time at"
                f" {self.places(reading.place)}"
            )

    def read_until(self, time: int) -> None:
        """Reads all readings up to `time` (ns), and as many later ones as are needed to know which
        groups were removed by that time.
        """
        while self.row is not None and (self.time < time + self.every or self.is_open(time)):
            self.read_round()
        if self.row is None:
            self.time = max(self.time, time + (MOST_MISSED + 2) * self.every)
        for life in self.tails.values():
            if (
                life.end_tick is None
                and life.last < time
                and life.path != ROOT
                and self.is_absent(life, self.time)
            ):
                self.end(life)

    def read_round(self) -> None:
        """Reads a round: all readings within half an interval."""
        end = self.row[0] - self.origin + self.every // 2 if self.row else 0
        while self.row is not None and self.row[0] - self.origin <= end:
            reading = self.reading()
            if reading is not None:
                self.time = reading.time
                self.take(reading)
        if len(self.rounds) > MOST_ROUNDS:
            oldest = min(
                (it.last for it in self.tails.values() if it.end_tick is None and it.path != ROOT),
                default=self.time,
            )
            del self.rounds[1 : bisect.bisect_left(self.rounds, oldest) - 1]

    def is_open(self, time: int) -> bool:
        """Whether some group has no reading at `time` (ns) or later, but may still have one. Then
        it isn't known yet whether that group was removed.
        """
        return any(
            not life.is_known_until(time)
            and life.end_tick is None
            and (life.path == ROOT or not self.is_absent(life, self.time))
            for life in self.tails.values()
            if life.is_sampled
        )

    def is_absent(self, life: Life, time: int) -> bool:
        """Whether the group missed more than MOST_MISSED rounds before `time` (ns)."""
        first = bisect.bisect_right(self.rounds, life.last + self.every // 2)
        return bisect.bisect_left(self.rounds, time - self.every // 2) - first > MOST_MISSED

    def take(self, reading: Reading) -> None:
        """Adds a reading to the existing group with its path, or creates a new group for it."""
        if HOST in reading.values:
            self.host.append(
                (reading.time, tuple(reading.values.get(HOST + it, 0) for it in range(3)))
            )
        life = self.tails.get(reading.path)
        if (
            reading.path != ROOT
            and reading.totals()
            and (not self.rounds or reading.time > self.rounds[-1] + self.every // 2)
        ):
            self.rounds.append(reading.time)
        if (
            life is not None
            and life.end_tick is None
            and life.path != ROOT
            and self.is_absent(life, reading.time)
        ):
            self.end(life)
        if life is not None and life.end_tick is None and self.has_fallen(life, reading):
            if life.path == ROOT:
                life.shift = [
                    total for knots in life.knots for total in (knots[-1][1:3] if knots else (0, 0))
                ]
            else:
                self.end(life)
        if not reading.totals() and (life is None or life.end_tick is not None):
            return
        if life is None or life.end_tick is not None:
            life = self.begin(reading, life)
        life.add(reading)

    def has_fallen(self, life: Life, reading: Reading) -> bool:
        """Whether a total has fallen since the group's last reading, because the group was created
        again. Raises a Fault if another total is too large to have started at 0 since then, or if a
        total grew faster than time.
        """
        has_fallen = False
        slower: tuple[int, int] | None = None
        for number, new in reading.totals().items():
            if not life.knots[number]:
                continue
            old = life.knots[number][-1]
            limit = FASTEST * (reading.time - old[0]) + SLACK
            for level in (2 * number, 2 * number + 1):
                total = new[level % 2]
                grown = total + life.shift[level] - old[1 + level % 2]
                if grown < 0:
                    has_fallen = True
                elif grown > limit:
                    raise Fault(
                        f"{self.named(reading, level)} grows by {grown // US} us in"
                        f" {limit_text(reading.time - old[0])}"
                    )
                if total > limit and slower is None:
                    slower = level, total
        if has_fallen and slower:
            which, total = slower
            raise Fault(
                f"{self.named(reading, which)} goes on at {total // US} us while another falls: a"
                " reset begins all at 0"
            )
        return has_fallen

    def named(self, reading: Reading, level: int) -> str:
        """Returns a total's name for an error message, with the file and line of its reading."""
        return f"{self.places(reading.place)}: {reading.path} {' '.join(LEVELS[level])}"

    def begin(self, reading: Reading, before: Optional[Life]) -> Life:
        """Creates a group that starts with this reading. `before` is the previous group with the
        same path, or None.
        """
        tick = max(0, -(-(reading.time - self.every) // TICK))
        if before is not None and before.end_tick is not None:
            tick = max(tick, before.end_tick)
        tick = min(tick, max(0, (reading.time - 1) // TICK))
        is_first = reading.path == ROOT or reading.time <= 0 or not (before or self.has_begun())
        life = Life(reading.path, 0 if is_first else tick, True)
        totals = reading.totals()
        life.is_new = not is_first and all(
            some <= reading.time - life.tick * TICK for some, _ in totals.values()
        )
        self.tails[reading.path] = life
        self.born.append(life)
        return life

    def has_begun(self) -> bool:
        """Whether the first round of readings has ended."""
        return bool(self.rounds) and self.rounds[-1] - self.rounds[0] > self.every // 2

    def end(self, life: Life) -> None:
        """Marks a group as removed at the first tick at or after its last reading. Drops a group
        that was removed before the trace starts.
        """
        life.end_tick = max(life.tick + 1, -(-life.last // TICK))
        if life.last <= 0 and life in self.born:
            self.born.remove(life)


def between_samples(samples: deque[Memory], time: int) -> tuple[Memory, bool]:
    """Returns the memory at `time` (ns), interpolated between two samples, and whether a further
    sample has been passed since the last call. Removes samples that are no longer needed.
    """
    is_new = False
    while len(samples) > 1 and samples[1].time <= time:
        samples.popleft()
        is_new = True
    one = samples[0]
    if len(samples) < 2 or time <= one.time:
        return one, is_new
    other = samples[1]
    part, whole = time - one.time, other.time - one.time
    values = (a + (b - a) * part // whole for a, b in zip(one[1:], other[1:]))
    return Memory(time, *values), is_new
