"""Writes a warm-up (option --lead-in): artificial events before the first event of a recording. At
the end of the warm-up, the averages of each group equal those in the machine's pressure files.
Without a warm-up, a trace's averages begin at 0.

The warm-up consists of three stretches of constant pressure, since there are three averages: the
last 20 s, the 100 s before these, and the time before. Each group gets artificial processors for
the warm-up, in addition to the machine's. A few artificial tasks wait, stall and run there, so that
the group has the wanted shares of pressure. The pressure of its descendants counts too. At the end
all artificial tasks exit.
"""
from __future__ import annotations

import re
from collections.abc import Iterable, Sequence
from typing import NamedTuple

from psicli.times import SECOND
from psirec.layout import RESOURCES, escaped_path
from psiworld.groups import ROOT, prefixes_of
from psiworld.world import How, State, World

TICK = 2 * SECOND
# The factor by which an average decays in a tick, keyed by the average's period (s), from
# kernel/sched/psi.c.
FACTORS = {10: 1677 / 2048, 60: 1981 / 2048, 300: 2034 / 2048}
# The lengths, in ticks, of the last stretch and of the one before it.
LAST, MIDDLE = 10, 50
# The first number for artificial tasks. It is larger than any pid of a kernel.
FIRST_NUMBER = 4_000_000_000
# A group gets the smallest number of artificial processors, at most MOST_OWN, with which its shares
# differ from the wanted shares by at most NEAR percent. A group whose averages are all below LEAST
# percent has no warm-up.
NEAR, MOST_OWN, LEAST = 0.5, 48, 0.5
STRETCHES = 3
WHOLE = 100.0
PRESSURES = [(resource, level) for resource in RESOURCES for level in ("some", "full")]
SAMPLE = re.compile(
    r"sample (\d+) (\S+) (io|memory|cpu)\n((?:(?:some|full) avg10=[\d.]+ avg60=[\d.]+ avg300=[\d.]+"
    r" total=\d+\n){2})"
)
LINE = re.compile(r"(some|full) avg10=([\d.]+) avg60=([\d.]+) avg300=([\d.]+)")

# A group's averages by resource and level: percent over 10, 60 and 300 s.
Averages = dict[tuple[str, str], tuple[float, float, float]]


class Shares(NamedTuple):
    """A group's pressure on one processor, in percent of a tick. For each resource, `some` is the
    time in which at least one task is delayed, and `full` the time in which all are.
    """

    io_some: float
    io_full: float
    memory_some: float
    memory_full: float
    cpu_some: float
    cpu_full: float


def averages_in(text: str, number: int) -> dict[str, Averages]:
    """Returns the averages of each group, keyed by path, in the reading `number` of the pressure
    files.
    """
    found: dict[str, Averages] = {}
    for sample in SAMPLE.finditer(text):
        if int(sample[1]) == number:
            for line in LINE.finditer(sample[4]):
                averages = float(line[2]), float(line[3]), float(line[4])
                path = escaped_path(sample[2].encode("utf-8", "surrogateescape"))
                found.setdefault(path, {})[sample[3], line[1]] = averages
    return found


def stretches_of(averages: Sequence[float], ticks: int) -> list[float]:
    """Returns the pressures (0 to 100 percent) of the three stretches, the earliest first. The
    warm-up has `ticks` ticks. At its end, averages that began at 0 are as near as possible to
    `averages` (percent over 10, 60 and 300 s).
    """
    lengths = (ticks - MIDDLE - LAST, MIDDLE, LAST)
    rows = []
    for factor in FACTORS.values():
        first, middle, last = (factor**length for length in lengths)
        rows.append((last * middle * (1 - first), last * (1 - middle), 1 - last))
    found = [WHOLE / 2] * 3
    for _ in range(500):
        for place in range(3):
            gain = sum(row[place] ** 2 for row in rows)
            off = [
                sum(map(float.__mul__, row, found)) - average
                for row, average in zip(rows, averages)
            ]
            step = sum(row[place] * it for row, it in zip(rows, off)) / gain
            found[place] = min(WHOLE, max(0.0, found[place] - step))
    return found


def possible(shares: Iterable[float]) -> Shares:
    """Returns the shares nearest to `shares` that a processor can have: `full` is at most `some`,
    and no task is ready while all tasks wait for IO.
    """
    io_some, io_full, memory_some, memory_full, cpu_some, cpu_full = (
        min(WHOLE, max(0.0, it)) for it in shares
    )
    io_full, memory_full = min(io_full, io_some), min(memory_full, memory_some)
    cpu_some = min(cpu_some, WHOLE - io_full)
    memory_some = min(memory_some, WHOLE - io_full + memory_full)
    return Shares(io_some, io_full, memory_some, memory_full, cpu_some, min(cpu_full, cpu_some))


class Status(NamedTuple):
    """The state of a group's processor in a part of a tick. `waits` says that a task waits for IO,
    `stalls` that a task is in a memory stall, and `all_stall` that all tasks are. `is_ready` says
    that a task is ready or runs, `is_queued` that another task waits for the processor, and
    `is_outside` that a task from outside the group runs.
    """

    waits: bool
    stalls: bool
    all_stall: bool
    is_ready: bool
    is_queued: bool
    is_outside: bool


def timeline(shares: Shares) -> list[tuple[float, Status]]:
    """Returns the states of a processor during a tick, in order, each with the percentage of the
    tick at which it begins. First all tasks wait for IO, and none is ready. Then one task of the
    group runs. Then a second task of the group waits for the processor. At last both wait, because
    a task from outside the group runs.
    """
    begins = shares.io_full
    some = max(begins, shares.memory_full)
    ends = some + shares.memory_some - shares.memory_full
    queued, outside = WHOLE - shares.cpu_some, WHOLE - shares.cpu_full
    places = {0.0, begins, shares.io_some, shares.memory_full, some, ends, queued, outside}
    return [
        (at, Status(at < shares.io_some, at < shares.memory_full or some <= at < ends,
        at < shares.memory_full, at >= begins,
                    at >= queued and at >= begins, at >= outside and at >= begins))
        for at in sorted(it for it in places if it < WHOLE)
    ]  # fmt: skip


class Stage:
    """An artificial processor of a group, with five artificial tasks. The first waits for IO, the
    second sleeps in a memory stall, the third runs, and the fourth waits for the processor. The
    fifth is a task of the root group, which takes the processor from the third and the fourth.
    """

    def __init__(self, world: World, path: str, processor: int, number: int) -> None:
        self.world, self.processor = world, processor
        self.waiter, self.staller, self.runner, self.other, self.outsider = range(
            number, number + 5
        )
        for task in range(number, number + 5):
            world.fork(task, ROOT if task == self.outsider else path, processor, task)
            world.detour(task, How.SLEEP)

    def put(self, task: int, state: State, is_stalled: bool) -> None:
        """Changes the state of a task. A task that changes its state runs in between, possibly for
        zero time.
        """
        world, it = self.world, self.world.tasks[task]
        if it.state is state and it.is_stalled == is_stalled:
            return
        world.run(task, self.processor)
        if is_stalled and not it.is_stalled:
            world.stall(it)
        elif it.is_stalled and not is_stalled:
            world.unstall(it)
        how = {State.ASLEEP: How.SLEEP, State.WAITING: How.WAIT, State.READY: How.PREEMPT}.get(
            state
        )
        if how:
            world.leave(self.processor, how)

    def show(self, status: Status) -> None:
        """Puts all tasks into the states that `status` describes."""
        ready, asleep = State.READY, State.ASLEEP
        stalls_ready = status.all_stall and status.is_ready
        self.put(self.waiter, State.WAITING if status.waits else asleep, False)
        self.put(self.staller, asleep, status.stalls and not stalls_ready)
        self.put(
            self.other, ready if status.is_queued else asleep, status.is_queued and stalls_ready
        )
        if not status.is_outside:
            self.put(self.outsider, asleep, False)
        own = (
            State.RUNNING
            if status.is_ready and not status.is_outside
            else ready if status.is_ready else asleep
        )
        self.put(self.runner, own, stalls_ready)
        if status.is_outside:
            self.put(self.outsider, State.RUNNING, False)

    def end(self) -> None:
        """Ends all artificial tasks of this processor."""
        for task in (self.waiter, self.staller, self.other, self.outsider, self.runner):
            self.put(task, State.ASLEEP, False)
        for task in (self.waiter, self.staller, self.other, self.outsider, self.runner):
            self.world.run(task, self.processor)
            self.world.leave(self.processor, How.EXIT)


class Diffusion:
    """Rounds constant shares to whole percentages that vary from tick to tick and have the same
    mean. The kernel computes its averages from whole percentages.
    """

    def __init__(self) -> None:
        self.rest: dict[tuple[str, tuple[str, str]], float] = {}

    def percent(self, path: str, pressure: tuple[str, str], share: float) -> float:
        """Returns the share (percent) in the next tick: 0, or a whole percentage plus one half,
        which the kernel rounds down to the whole percentage.
        """
        owed = self.rest.get((path, pressure), 0.0) + share
        whole = int(owed)
        self.rest[path, pressure] = owed - whole
        return min(WHOLE, whole + 0.5) if whole else 0.0


class LeadIn:
    """Writes the warm-up into `world`, whose groups must exist. `averages` contains the wanted
    averages by group, and `most` is the largest number of processors. `left_out` counts the groups
    for which no processor remains.
    """

    def __init__(self, world: World, averages: dict[str, Averages], ticks: int, most: int) -> None:
        self.world, self.ticks = world, ticks
        live = {path: it for path, it in averages.items() if path in world.groups.live}
        wanted = {
            path: it for path, it in live.items() if max(max(each) for each in it.values()) >= LEAST
        }
        # Each group follows its descendants.
        self.paths = sorted(
            wanted, key=lambda path: (-path.count("/") if path != ROOT else 1, path)
        )
        self.shares = {
            path: {key: stretches_of(it, ticks) for key, it in wanted[path].items()}
            for path in self.paths
        }
        self.stages: dict[str, list[Stage]] = {}
        self.left_out = 0
        self.make_stages(world.processors, most)

    def make_stages(self, first: int, most: int) -> None:
        """Assigns to each group the smallest number of processors that gives nearly its wanted
        shares. The processors' numbers are `first <= number < most`.
        """
        own: list[dict[str, Shares]] = [{} for _ in range(STRETCHES)]
        for path in list(self.paths):
            if first >= most:
                self.paths.remove(path)
                self.left_out += 1
                continue
            offs = [
                (self.off(path, count, own), count)
                for count in range(1, min(MOST_OWN, most - first) + 1)
            ]
            count = next((count for off, count in offs if off <= NEAR), min(offs)[1])
            number = FIRST_NUMBER + 5 * first
            self.stages[path] = [
                Stage(self.world, path, first + place, number + 5 * place) for place in range(count)
            ]
            for stretch, shares in enumerate(own):
                shares[path] = possible(
                    self.rest_of(path, count, self.wanted(path, stretch), shares)
                )
            first += count
        self.world.processors = max(self.world.processors, first)

    def wanted(self, path: str, stretch: int) -> list[float]:
        """Returns the wanted shares of a group in a stretch, in percent."""
        return [
            self.shares[path][key][stretch] if key in self.shares[path] else 0.0
            for key in PRESSURES
        ]

    def off(self, path: str, count: int, own: list[dict[str, Shares]]) -> float:
        """Returns the largest error (percent) of a group's shares if the group has `count`
        processors. `own` contains, for each stretch, the shares of its descendants' processors.
        """
        worst = 0.0
        for stretch, shares in enumerate(own):
            rest = self.rest_of(path, count, self.wanted(path, stretch), shares)
            missed = max(abs(one - other) for one, other in zip(rest, possible(rest)))
            worst = max(
                worst,
                missed
                * count
                / (count + sum(len(self.stages[it]) for it in shares if is_below(it, path))),
            )
        return worst

    def play(self) -> None:
        """Writes the warm-up, tick by tick."""
        diffusion = Diffusion()
        for tick in range(self.ticks):
            stretch = (
                2 if tick >= self.ticks - LAST else 1 if tick >= self.ticks - LAST - MIDDLE else 0
            )
            changes = []
            own: dict[str, Shares] = {}
            for path in self.paths:
                shares = [
                    diffusion.percent(path, key, it)
                    for key, it in zip(PRESSURES, self.wanted(path, stretch))
                ]
                own[path] = possible(self.rest_of(path, len(self.stages[path]), shares, own))
                changes += [
                    (at, stage, status)
                    for at, status in timeline(own[path])
                    for stage in self.stages[path]
                ]
            for at, stage, status in sorted(changes, key=lambda it: it[0]):
                self.world.now = tick * TICK + int(at * TICK / WHOLE)
                stage.show(status)
        self.world.now = self.ticks * TICK
        for stages in self.stages.values():
            for stage in stages:
                stage.end()

    def rest_of(
        self, path: str, count: int, wanted: Sequence[float], own: dict[str, Shares]
    ) -> list[float]:
        """Returns the shares that each of a group's `count` processors needs. With them, the group
        and its descendants together have the wanted shares. `own` contains the descendants' shares.
        """
        below = [
            (len(self.stages[it]), shares_in(own[it], path)) for it in own if is_below(it, path)
        ]
        whole = count + sum(it for it, _ in below)
        rest = [
            whole * share - sum(number * it[place] for number, it in below)
            for place, share in enumerate(wanted)
        ]
        return [it / count for it in rest]


def is_below(path: str, above: str) -> bool:
    """Returns whether `path` is a descendant of `above`."""
    return path != above and (above == ROOT or above in prefixes_of(path))


def shares_in(shares: Shares, path: str) -> Shares:
    """Returns the shares of the ancestor `path` on a descendant's processor. The task from outside
    belongs to the root. So for the root this task isn't from outside, and it isn't stalled.
    """
    if path != ROOT:
        return shares
    hidden = max(0.0, shares.memory_full - (WHOLE - shares.cpu_full))
    return shares._replace(memory_full=shares.memory_full - hidden, cpu_full=0.0)
