"""Checks the folded lines of a window before they are written. Replays the lines with an
implementation of the kernel's accounting, and compares the resulting sums of time with those of the
original window.

The check shares no code with the code that writes the lines. It has its own tasks and counts, and
derives the states of docs/TRACES.md from the counts.
"""
from __future__ import annotations

import functools


from collections import Counter
from collections.abc import Callable
from dataclasses import dataclass, field
from typing import NamedTuple

# The indices of the four counts of a group on a processor: tasks that wait for IO, tasks in a
# memory stall, tasks that are ready or run, and tasks that are ready or run while in a memory
# stall.
WAITING, STALLED, ACTIVE, ACTIVE_STALLED = range(4)
STATES = 7
# The largest allowed error (ns) of a sum of time, added up over all windows so far. Errors up to
# this size can come from rounding times to whole ns.
MOST_OFF = 9
# The longest time (ns) that one interrupt line may report.
MOST_INTERRUPTS = 10**9
READY, RUNNING, ASLEEP, WAITS = "ready", "running", "asleep", "waiting"
AFTER = {"preempt": READY, "sleep": ASLEEP, "iowait": WAITS}


class Different(Exception):
    """Raised if a folded window differs from the original window. The message says how."""


class Key(NamedTuple):
    """The key of a sum of time: the time for which a group was in a state (0 to 6) on a processor,
    if the tasks of the groups `without` are ignored.
    """

    processor: int
    path: str
    state: int
    without: tuple[str, ...] = ()


@dataclass
class Window:
    """An original window from `start` to `end` (ns). `sums` has the sums (ns) of the groups
    `accounted`, and `interrupts` the interrupt time (ns) by processor and by group of the running
    task. `populated` has the groups with tasks at the window's end, or is None if they needn't be
    preserved. `lines` are copied unchanged, and have their times (ns).
    """

    start: int
    end: int
    sums: dict[Key, int] = field(default_factory=dict)
    interrupts: dict[tuple[int, str], int] = field(default_factory=dict)
    accounted: set[str] = field(default_factory=set)
    populated: set[str] | None = None
    lines: list[tuple[int, str]] = field(default_factory=list)


@dataclass
class Task:
    """A task: its group's path, its processor, its state, and whether it is in a memory stall."""

    path: str
    processor: int
    does: str = READY
    is_stalled: bool = False


@functools.lru_cache(maxsize=4096)
def chain_of(path: str) -> tuple[str, ...]:
    """Returns the paths of a group and of all its ancestors."""
    parts = path.split("/")[1:] if path != "/" else []
    return ("/", *("/" + "/".join(parts[: count + 1]) for count in range(len(parts))))


class Clock:
    """A group's counts of tasks on a processor, and the time (ns) for which the group was in each
    state in the current window.
    """

    def __init__(self, start: int) -> None:
        self.counts = [0, 0, 0, 0]
        self.is_on = self.is_on_stalled = False
        self.since = start
        self.times = [0] * STATES

    def go_to(self, time_ns: int) -> None:
        """Adds the time up to `time_ns` to each state in which the group is."""
        length = time_ns - self.since
        if length:
            for state, holds in enumerate(self.states()):
                if holds:
                    self.times[state] += length
            self.since = time_ns

    def states(self) -> tuple[bool, ...]:
        """Returns, for each state, whether the group is in it. The result depends on the counts, on
        whether the running task belongs to the group, and on whether the running task is in a
        stall.
        """
        waiting, stalled, active, active_stalled = self.counts
        return (
            waiting > 0,
            waiting > 0 and not active,
            stalled > 0,
            stalled > 0 and (active == active_stalled or self.is_on_stalled),
            active > self.is_on,
            active > 0 and not self.is_on,
            waiting > 0 or stalled > 0 or active > 0,
        )

    def add(self, task: Task, sign: int) -> None:
        """Adds the task to the counts (`sign` is 1), or removes it (-1)."""
        is_active = task.does in (READY, RUNNING)
        self.counts[WAITING] += sign * (task.does == WAITS)
        self.counts[STALLED] += sign * task.is_stalled
        self.counts[ACTIVE] += sign * is_active
        self.counts[ACTIVE_STALLED] += sign * (is_active and task.is_stalled)
        if task.does == RUNNING:
            self.is_on, self.is_on_stalled = sign > 0, sign > 0 and task.is_stalled


class Clocks:
    """The clocks of all groups on all processors. Tasks in the groups `without` and their
    descendants don't count.
    """

    def __init__(self, without: tuple[str, ...]) -> None:
        self.without = without
        self.start = 0
        self.clocks: dict[tuple[int, str], Clock] = {}

    def change(self, time_ns: int, task: Task, sign: int) -> None:
        """Adds a task in its current state (`sign` is 1) at `time_ns`, or removes it (-1)."""
        chain = chain_of(task.path)
        if any(path in self.without for path in chain):
            return
        for path in chain:
            clock = self.clocks.get((task.processor, path))
            if clock is None:
                clock = self.clocks[task.processor, path] = Clock(self.start)
            clock.go_to(time_ns)
            clock.add(task, sign)

    def sums(self, end: int, accounted: set[str]) -> dict[Key, int]:
        """Returns the sums (ns) of the window that ends at `end` (ns), and begins the next
        window there.
        """
        found: dict[Key, int] = {}
        for (processor, path), clock in self.clocks.items():
            clock.go_to(end)
            if path in accounted and all(
                path != it and path in chain_of(it) for it in self.without
            ):
                found.update(
                    (Key(processor, path, state, self.without), time)
                    for state, time in enumerate(clock.times)
                    if time
                )
            clock.times = [0] * STATES
        self.start = end
        return found

    def forget(self, path: str) -> None:
        """Removes the clocks of a group."""
        for key in [it for it in self.clocks if it[1] == path]:
            del self.clocks[key]


class Check:
    """Replays the folded lines of a trace. Raises Different if a window differs from the original.
    """

    def __init__(self, processors: int) -> None:
        self.processors = processors
        self.tasks: dict[str, Task] = {}
        self.runs: dict[int, str] = {}
        self.now = 0
        self.clocks = [Clocks(())]
        self.interrupts: Counter[tuple[int, str]] = Counter()
        self.interrupted: dict[int, int] = {}
        self.copies: list[str] = []
        # The shortfall (ns) of each sum: by how much the sum of all folded windows so far is too
        # small.
        self.shortfalls: Counter[Key] = Counter()
        # The end (ns) of the last window that may end at a tick, and the groups that must have
        # tasks after all lines of that time.
        self.edge: tuple[int, set[str]] | None = None
        self.most_tasks = 0
        self.verbs: dict[str, Callable[..., None]] = {
            "fork": self.fork, "wake": self.wake, "switch": self.switch, "stall": self.stall,
            "unstall": self.stall, "irq": self.irq,
        }  # fmt: skip

    # ------------------------------------------------------------ replaying lines

    def play(self, line: str) -> None:
        """Replays a line within a time window."""
        time_ns, verb, *fields = line.split(" ")
        self.must(int(time_ns) >= self.now, line)
        self.pass_edge(int(time_ns))
        self.now = int(time_ns)
        play = self.verbs.get(verb)
        if play is None:
            self.copies.append(line)
        else:
            play(line, *fields)

    def must(self, is_right: object, line: str) -> None:
        """Raises Different, with the text of `line`, unless `is_right`."""
        if not is_right:
            raise Different(f"the line '{line}' can't stand there")

    def change(self, task: Task, **values: object) -> None:
        """Changes attributes of a task, and updates the counts."""
        for clocks in self.clocks:
            clocks.change(self.now, task, -1)
        for name, value in values.items():
            setattr(task, name, value)
        for clocks in self.clocks:
            clocks.change(self.now, task, 1)

    def fork(self, line: str, number: str, path: str, processor: str) -> None:
        """Creates a task, which is ready on a processor."""
        self.must(number not in self.tasks and int(processor) < self.processors, line)
        task = self.tasks[number] = Task(path, int(processor))
        self.most_tasks = max(self.most_tasks, len(self.tasks))
        for clocks in self.clocks:
            clocks.change(self.now, task, 1)

    def wake(self, line: str, number: str, processor: str) -> None:
        """Makes a blocked task ready."""
        task = self.tasks.get(number)
        self.must(task and task.does in (ASLEEP, WAITS) and int(processor) < self.processors, line)
        assert task
        self.change(task, does=READY, processor=int(processor))

    def switch(self, line: str, place: str, following: str, how: str) -> None:
        """Switches a processor from its running task to another task, or to idle."""
        processor, leaving = int(place), self.runs.pop(int(place), "0")
        coming = self.tasks.get(following)
        self.must((how == "idle") == (leaving == "0"), line)
        self.must(
            following == "0" or (coming and coming.does == READY and coming.processor == processor),
            line,
        )
        if how in AFTER:
            self.change(self.tasks[leaving], does=AFTER[how])
        elif how == "exit":
            task = self.tasks.pop(leaving)
            self.must(not task.is_stalled, line)
            for clocks in self.clocks:
                clocks.change(self.now, task, -1)
        if coming:
            self.change(coming, does=RUNNING)
            self.runs[processor] = following

    def stall(self, line: str, number: str) -> None:
        """Begins or ends the memory stall of a task, which must be running."""
        task, is_stalled = self.tasks.get(number), line.split(" ")[1] == "stall"
        self.must(task and task.does == RUNNING and task.is_stalled != is_stalled, line)
        assert task
        self.change(task, is_stalled=is_stalled)

    def irq(self, line: str, place: str, length: str) -> None:
        """Counts the time that interrupts took from the running task."""
        processor, time = int(place), int(length)
        self.must(
            time <= min(MOST_INTERRUPTS, self.now - self.interrupted.get(processor, 0))
            and processor in self.runs,
            line,
        )
        self.interrupted[processor] = self.now
        self.interrupts[processor, self.tasks[self.runs[processor]].path] += time

    # ------------------------------------------------------------ comparing windows

    def between(self, line: str) -> None:
        """Replays a line that is between two time windows."""
        time_ns, verb, *fields = line.split(" ")
        self.pass_edge(int(time_ns) + (verb == "end"))
        if verb == "rmgroup":
            left = [number for number, task in self.tasks.items() if task.path == fields[0]]
            if left:
                raise Different(f"task {left[0]} is in {fields[0]}, which is removed")
            for clocks in self.clocks:
                clocks.forget(fields[0])
            for key in [it for it in self.shortfalls if fields[0] in (it.path, *it.without)]:
                del self.shortfalls[key]

    def keep_without(self, removals: list[tuple[str, ...]]) -> None:
        """From the next window on, also compares the sums of time without the tasks of each set of
        groups in `removals`.
        """
        known = {clocks.without: clocks for clocks in self.clocks}
        self.clocks = [known.get(it) or self.new_clocks(it) for it in [(), *removals]]

    def new_clocks(self, without: tuple[str, ...]) -> Clocks:
        """Returns clocks that ignore the tasks of some groups. All other tasks are counted in their
        current states.
        """
        clocks = Clocks(without)
        clocks.start = self.now
        for task in self.tasks.values():
            clocks.change(self.now, task, 1)
        return clocks

    def window(self, window: Window, lines: list[str]) -> None:
        """Replays the lines of a window, and compares the results with the original window."""
        for line in lines:
            self.play(line)
        where = f"of the window from {window.start} to {window.end}"
        self.now = max(self.now, window.end)
        self.compare("a line", where, self.copies, [line for _, line in window.lines])
        self.compare("the moment of a line", where, self.now, window.end)
        self.compare_sums(window, where)
        self.compare("what interrupts took", where, {**self.interrupts}, window.interrupts)
        if window.populated is not None:
            self.compare_tasks(where, window.populated)
            self.edge = window.end, window.populated
        self.copies, self.interrupts = [], Counter()

    def pass_edge(self, time_ns: int) -> None:
        """Compares the groups that have tasks at the end of the last window. Called before the
        first later line is replayed: a tick at the window's end sees the effect of all lines of
        that time.
        """
        if self.edge and time_ns > self.edge[0]:
            self.compare_tasks(f"at a tick at {self.edge[0]}", self.edge[1])
            self.edge = None

    def compare_tasks(self, where: str, wanted: set[str]) -> None:
        """Raises Different if the groups that have tasks aren't the groups `wanted`."""
        self.compare(
            "which groups have tasks", where, {task.path for task in self.tasks.values()}, wanted
        )

    def compare(self, what: str, where: str, found: object, wanted: object) -> None:
        """Raises Different if `found` differs from `wanted`. `what` and `where` are for the
        message.
        """
        if found != wanted:
            raise Different(f"{what} {where} differs: {found}, not {wanted}")

    def compare_sums(self, window: Window, where: str) -> None:
        """Raises Different if an error of a sum is larger than rounding can cause."""
        found: dict[Key, int] = {}
        for clocks in self.clocks:
            found.update(clocks.sums(window.end, window.accounted))
        for key in {*found, *window.sums}:
            off = window.sums.get(key, 0) - found.get(key, 0)
            if off:
                self.shortfalls[key] += off
                if abs(self.shortfalls[key]) > MOST_OFF:
                    name = (
                        f"the time of {key.path} on processor {key.processor} in state"
                        f" {key.state + 1}"
                    )
                    without = f" without {', '.join(key.without)}" if key.without else ""
                    raise Different(f"{name}{without} {where} differs by {self.shortfalls[key]} ns")
