"""Converts rows of samples to a trace, tick by tick. The totals in the trace grow as in the
samples.
"""
from __future__ import annotations

from collections import deque
from itertools import count
from operator import add, itemgetter
from typing import NamedTuple, Optional

from .block import NONE, TICK
from .lives import Life, Lives, Memory, between_samples
from .options import Options
from .past import Past, end_past
from .plan import Plan, Tree
from .rows import ROOT, prefixes
from .trace_file import FIRST, Tasks, TraceFile
from .writer import Event, Key, Processor, Task

US = 1000
TIME = itemgetter(0)
# The number of the first artificial task. It is greater than any pid of a kernel.
FIRST_NUMBER = 4_000_000_000
# If a total grows by less than this (ns) in a tick, the growth is added at the next sample, unless
# a descendant of the group is active. The averages hardly change, since the kernel computes them
# from whole percents of a tick.
LEAST = TICK // 100
# If a total differs from the sample by less than this (ns), the difference is ignored, so that all
# ticks between two samples have the same events.
SMALL = 500
# If a total differs from the sample by at most this (us), the difference isn't reported.
NEAR = 2
# Between readings, a memory sample is written only after scans or a change over 1/PARTS.
PARTS = 20
NEVER = 2**62
# The first word of an internal line `tasks NUMBER`, which marks where the tasks of group NUMBER are
# created.
TASKS = "tasks"


class Off(NamedTuple):
    """How often a group's total was off by more than NEAR, and the largest difference (us)."""

    times: int
    most: int


class Conversion:
    """Converts samples tick by tick. `checks` collects the totals that a replay must print
    according to the samples, as lines `TIME PATH LEVEL TOTAL` (ns, us).
    """

    def __init__(self, lives: Lives, options: Options) -> None:
        self.lives, self.triggers, self.lead = lives, options.triggers, options.lead
        self.checks: list[str] = []
        self.past = Past(self.lead)
        self.file = TraceFile()
        self.live: dict[str, Life] = {}
        self.order: list[Life] = []
        self.tree = Tree({}, {})
        self.numbers, self.groups = count(FIRST_NUMBER), count()
        self.tasks: dict[int, Tasks] = {}
        self.free: dict[Key, list[Task]] = {}
        self.processors: list[Processor] = []
        self.tick = 0
        self.before: dict[int, list[int]] = {}
        self.shares: dict[int, list[int]] = {}
        self.wanted: Optional[list[tuple[int, tuple[int, ...]]]] = None
        self.lines: Optional[list[Event]] = None
        self.repeats = 0
        self.plan: Optional[Plan] = None
        self.off: dict[tuple[str, int], Off] = {}
        self.written: dict[str, Memory] = {}
        self.made_again = self.made_groups = self.first_groups = 0
        self.new: set[int] = set()
        self.ended: set[int] = set()
        self.known_paths: set[str] = set()
        # The groups that have a sample in the current tick, each with the number of a sampled
        # resource.
        self.sampled: list[tuple[Life, int]] = []

    # ---------------------------------------------------------------- creating and removing groups

    def change_groups(self) -> list[str]:
        """Removes and creates groups after the previous tick. Returns the lines, without times."""
        self.lives.read_until((self.tick + 1) * TICK)
        ends = [it for it in self.order if it.end_tick is not None and it.end_tick <= self.tick]
        begins = [it for it in self.lives.born if it.tick <= self.tick]
        self.new = set()
        if not ends and not begins:
            return []
        self.lives.born = [it for it in self.lives.born if it.tick > self.tick]
        lines: list[str] = []
        if ends:
            begins += self.remove(ends, lines)
        for life in sorted(begins, key=lambda it: it.path.count("/") if it.path != ROOT else -1):
            self.make(life, lines)
        self.arrange()
        return lines

    def remove(self, ends: list[Life], lines: list[str]) -> list[Life]:
        """Removes `ends` and their descendants. Returns new groups in place of the descendants."""
        removed = {it.path for it in ends}
        again: list[Life] = []
        for life in sorted(self.order, key=lambda it: -it.path.count("/")):
            if life.path == ROOT or removed.isdisjoint([life.path, *prefixes(life.path)]):
                continue
            self.leave(life, lines)
            if life.path not in removed:
                again.append(goes_on(life, self.tick))
                self.lives.tails[life.path] = again[-1]
        while empty := [
            it for it in self.live.values() if not it.is_sampled and not self.has_below(it.path)
        ]:
            for life in empty:
                self.leave(life, lines)
        return again

    def has_below(self, path: str) -> bool:
        """Whether the group at `path` is the root, or has a descendant that exists."""
        return path == ROOT or any(it.startswith(path + "/") for it in self.live)

    def leave(self, life: Life, lines: list[str]) -> None:
        """Appends the lines that end a group's sleeping tasks, and remove the group."""
        del self.live[life.path]
        numbers = self.tasks.pop(life.number).numbers
        self.ended.add(life.number)
        lines += [f"wake {it} {FIRST}" for it in numbers]
        lines += [
            f"switch {FIRST} {it} {'exit' if place else 'idle'}" for place, it in enumerate(numbers)
        ]
        lines += [f"switch {FIRST} 0 exit"] if numbers else []
        lines.append(f"rmgroup {life.path}")
        self.written.pop(life.path, None)

    def make(self, life: Life, lines: list[str]) -> None:
        """Creates a group, and any of its ancestors that don't exist."""
        for path in prefixes(life.path):
            if path not in self.live:
                self.make(Life(path, self.tick, False), lines)
        known = self.live.get(life.path)
        self.live[life.path] = life
        if known is not None:
            # The group was created as an ancestor of another group, and has samples from now on.
            life.number = known.number
        else:
            life.number = next(self.groups)
            self.new.add(life.number)
            self.made_groups += 1
            self.made_again += life.path in self.known_paths
            self.known_paths.add(life.path)
            self.tasks[life.number] = Tasks(life.path)
            # Rules choose only among groups with a live task, so each group gets a task.
            self.put_back((life.number, "r"), self.task_of((life.number, "r")))
            lines += [f"group {life.path}"] if life.path != ROOT else []
            lines += [
                f"trigger {it.path} {it.fields}" for it in self.triggers if it.path == life.path
            ]
            lines.append(f"{TASKS} {life.number}")
        life.start()

    def arrange(self) -> None:
        """Sorts the groups by depth, the deepest first, and computes their ancestors."""
        self.order = sorted(self.live.values(),
                            key=lambda it: (it.path == ROOT, -it.path.count("/"), it.path))
        chains = {}
        for life in self.order:
            above = [self.live[it].number for it in reversed(prefixes(life.path))]
            chains[life.number] = (life.number, *above)
        self.tree = Tree(chains, {number: frozenset(chain) for number, chain in chains.items()})
        self.wanted = None

    # ---------------------------------------------------------------- converting ticks

    def step(self) -> None:
        """Converts the next tick. Groups are created and removed 1 ns after the end of the previous
        tick, so that the previous tick still counts the stalls of removed groups.
        """
        changes = self.change_groups()
        start = self.tick * TICK
        events = self.events_of(start)
        after = start + 1 if changes and self.tick else start
        first = [f"{start} {text}\n" for at, text in events if not at] if after > start else []
        self.file.write(first)
        self.put_changes(changes, after)
        out: list[str] = []
        self.put_memory(after, out)
        out += [f"{start + at} {text}\n" for at, text in events if at or after == start]
        self.file.write(out)
        for processor in self.processors if self.ended else ():
            processor.forget(self.ended)
        self.ended.clear()
        self.first_groups = self.first_groups or self.made_groups
        self.tick += 1
        self.compare()

    def end(self) -> None:
        """Writes the memory samples that are due at the end of the trace."""
        out: list[str] = []
        self.put_memory(self.tick * TICK, out)
        self.file.write(out)

    def put_changes(self, lines: list[str], time: int) -> None:
        """Writes the lines that create or remove groups. Marks where tasks are created."""
        for line in lines:
            verb, _, number = line.partition(" ")
            if verb == TASKS:
                self.file.put_tasks(self.tasks[int(number)], time)
            else:
                self.file.write([f"{time} {line}\n"])

    def events_of(self, start: int) -> list[Event]:
        """Returns the events of the tick that starts at `start` (ns). The events of the previous
        tick are used again if all groups need the same growth.
        """
        wanted = self.wants(start)
        if wanted == self.wanted and self.plan is not None:
            self.repeats += 1
        else:
            self.plan, self.wanted, self.repeats = self.planned(wanted), wanted, 0
        if self.repeats < 2 or self.lines is None:
            self.lines = self.played(self.plan)
        for life in self.order:
            shares = self.shares.get(life.number)
            if shares is not None:
                life.achieved = list(map(add, life.achieved, shares))
        return self.lines

    def planned(self, wanted: list[tuple[int, tuple[int, ...]]]) -> Plan:
        """Returns a plan for a tick. `wanted` has, for each group's number, the times (ns) by which
        the group's totals must grow in the tick.
        """
        plan = Plan(self.tree, self.before, self.new if self.tick else set())
        for number, times in wanted:
            plan.give(number, times)
        self.shares = {number: plan.shares(number) for number in plan.has}
        self.before = plan.where
        return plan

    def played(self, plan: Plan) -> list[Event]:
        """Returns the events of the blocks, in order of time."""
        while len(self.processors) < len(plan.used):
            self.processors.append(
                Processor(FIRST + 1 + len(self.processors), self.task_of, self.put_back)
            )
            self.file.processors = max(self.file.processors, len(self.processors))
        events: list[Event] = []
        for number, processor in enumerate(self.processors):
            processor.play(plan.blocks[number] if number < len(plan.blocks) else (), events)
        events.sort(key=TIME)
        return events

    def task_of(self, key: Key) -> Task:
        """Returns a sleeping task of a group and kind: an unused task, or a new one."""
        free = self.free.get(key)
        if free:
            return free.pop()
        task = Task(next(self.numbers))
        self.tasks[key[0]].numbers.append(task.number)
        self.file.task_lines += 3
        return task

    def put_back(self, key: Key, task: Task) -> None:
        """Stores a task that no processor uses, so that it can be used again."""
        self.free.setdefault(key, []).append(task)

    # ---------------------------------------------------------------- required growth

    def wants(self, start: int) -> list[tuple[int, tuple[int, ...]]]:
        """Returns the growth (ns) that each group needs in the tick that starts at `start` (ns),
        the deepest groups first. A group is left out if neither it nor a descendant needs growth.
        """
        end, active, found = start + TICK, set[int](), []
        chains = self.tree.chains
        for life in self.order:
            is_active = life.number in active
            if life.quiet_until > end and not is_active:
                continue
            wanted = self.wanted_of(life, start, end, is_active)
            if is_active or any(wanted):
                found.append((life.number, wanted))
                active.update(chains[life.number])
        return found

    def wanted_of(self, life: Life, start: int, end: int, is_active: bool) -> tuple[int, ...]:
        """Returns the growth (ns) of each level that a group needs from `start` to `end` (ns)."""
        if not life.is_sampled:
            return NONE
        if self.tick < self.lead:
            return self.past.wanted(life, self.tick)
        if self.tick == self.lead and self.lead:
            end_past(life)
        found, is_sample, quiet = [0] * 6, False, NEVER
        for number, knots in enumerate(life.knots):
            while len(knots) > 1 and knots[1][0] <= start:
                knots.popleft()
            if not knots:
                continue
            level, one, other = 2 * number, knots[0], knots[1] if len(knots) > 1 else knots[0]
            some_owed = life.target[level] - life.achieved[level]
            full_owed = life.target[level + 1] - life.achieved[level + 1]
            some, full = life.grown(number, one, other, start, end)
            is_flat = one[0] <= start and end <= other[0] and one[1:3] == other[1:3]
            is_even = -SMALL < some_owed < SMALL and -SMALL < full_owed < SMALL
            quiet = min(quiet, other[0] if is_flat and is_even else end)
            some = min(TICK, bounded(some, some_owed))
            found[level], found[level + 1] = some, min(some, bounded(full, full_owed))
            if start < one[0] <= end or other[3] and start < other[0] <= end:
                is_sample = True
                if one[3] and start < one[0] or other[3] and other[0] <= end:
                    self.sampled.append((life, number))
        life.quiet_until = quiet
        if not is_active and not is_sample and max(found) < LEAST:
            return NONE
        return tuple(found)

    # ---------------------------------------------------------------- memory samples

    def put_memory(self, time: int, out: list[str]) -> None:
        """Writes memory samples: at readings, and in between after large changes or scans."""
        host = self.lives.host
        at = self.tick * TICK
        is_first = self.tick == 0
        while host and (host[0][0] <= at or is_first):
            last = host.popleft()
            is_first = False
            if not host or host[0][0] > at:
                out.append(f"{time} host {' '.join(map(str, last[1]))}\n")
        for life in self.order:
            if life.memory and life.memory_due <= at:
                self.put_sample(life, at, time, out)

    def put_sample(self, life: Life, at: int, time: int, out: list[str]) -> None:
        """Appends the memory of a group at `at` (ns), unless the last sample is almost equal."""
        found, is_reading = between_samples(life.memory, at)
        last = self.written.get(life.path)
        if last is None or not is_same(found, last) and (
            is_reading or found.scans != last.scans
            or abs(found.current - last.current) * PARTS > last.current
        ):
            out.append(
                f"{time} mem {life.path} {found.current} {found.swap} {max(0, found.scans)}\n"
            )
            last = self.written[life.path] = found
        life.memory_due = next_due(life.memory, last)

    # ---------------------------------------------------------------- comparison with the samples

    def compare(self) -> None:
        """Stores the totals that a replay must print at this tick, and counts wrong totals."""
        at = self.tick * TICK
        for life, number in self.sampled:
            for level in (2 * number, 2 * number + 1):
                if level == 5 and life.path == ROOT:
                    continue
                target = life.target[level] // US
                self.checks.append(f"{at} {life.path} {level} {target}\n")
                off = abs(life.achieved[level] // US - target)
                if off > NEAR:
                    known = self.off.get((life.path, level), Off(0, 0))
                    self.off[life.path, level] = Off(known.times + 1, max(known.most, off))
        self.sampled.clear()


def is_same(found: Memory, last: Memory) -> bool:
    """Whether two memory samples are equal in everything that a trace contains."""
    return (found.current, found.swap, found.scans) == (last.current, last.swap, last.scans)


def next_due(samples: deque[Memory], last: Memory) -> int:
    """Returns the time (ns) of the next sample, or NEVER if there is none. Returns 0, which means
    at once, if pages are scanned until then, or if the memory in use differs much from `last`.
    """
    if len(samples) < 2:
        return NEVER
    is_near = all(
        it.scans == last.scans and abs(it.current - last.current) * PARTS <= last.current
        for it in (samples[0], samples[1])
    )
    return samples[1].time if is_near else 0


def bounded(growth: int, owed: int) -> int:
    """Returns the growth (ns) of a level in a tick, corrected by `owed` (ns). `owed` is negative if
    the trace's total is too high. The correction raises the growth to at most a tick, and lowers it
    to at least half: with less, an ancestor would need more and more weight.
    """
    if -SMALL < owed < SMALL:
        return growth
    if owed < 0:
        return max(growth // 2, growth + owed)
    return min(TICK, growth + owed)


def goes_on(life: Life, tick: int) -> Life:
    """Returns a new group that continues `life` from `tick` on, after an ancestor was removed."""
    again = Life(life.path, tick, life.is_sampled)
    again.knots, again.memory, again.last = life.knots, life.memory, life.last
    again.shift, again.end_tick = life.shift, life.end_tick
    return again
