"""Folds a trace: replaces the events in each time window by a few lines that cause the same
pressure.

Pressure depends only on the time for which each group was in each state on each processor between
two ticks. So within a window, whose length divides the length of a tick, other events may replace
the original ones if these times are the same. They need about as many events as there are groups on
the processors. All other lines are copied with their times: memory samples, preferences, triggers,
and the lines that create or remove groups or switch accounting. Each line that changes groups or
accounting ends a window. At each multiple of the window's length, at which a tick may be, the same
groups have tasks as in the original.
"""
from __future__ import annotations

from collections import deque
from collections.abc import Callable, Iterable, Sequence
from dataclasses import dataclass
from heapq import merge
from operator import itemgetter

from psiworld.limits import MOST_TASKS, MOST_TIME

from .check import Check, Key, Window
from .lines import MOST_AT_ONCE, Line
from .processor import Piece, Turn, interrupt_lines
from .sums import Plan, plan_of
from .victims import Victim, Victims
from .workers import Work, Workers
from .world import Catalog, Changes, FoldWorld, NotATrace, path_of_copy, shortened

# The verbs of lines that are copied without ending a window, because they don't affect tasks,
# accounting or the set of groups.
COPIED_VERBS = ("mem", "host", "prefer", "trigger")
# The largest number of windows that are submitted to the workers before the first result is
# awaited.
MOST_WAITING = 3


class TooMany(Exception):
    """Raised if the folded trace would exceed a limit of traces. The message names the limit."""


@dataclass
class Counts:
    """Statistics of a folded trace: the number of lines (events and end line) before and after
    folding (`lines`, `written`), the number of joint states (see joint.py) in all windows and
    processors before and after, and the number of windows.
    """

    lines: int = 0
    written: int = 0
    states_before: int = 0
    states_after: int = 0
    windows: int = 0


@dataclass
class Outcome:
    """The result of folding. The trace is written up to the time `written` (ns). It is exact for up
    to `whole` kills, or for any number if `whole` is None. `changes` counts the tasks that entered
    or left the victims' groups. `unmatched` has the patterns of victims that match no group.
    """

    counts: Counts
    written: int
    whole: int | None
    changes: Changes
    unmatched: list[str]


class Fold:
    """Folds a trace of a machine with `processors` processors in windows of `length` ns, and passes
    the resulting lines to `put`. Sums of time are also preserved for the trace without the tasks of
    `victims`.
    """

    def __init__(
        self,
        processors: int,
        length: int,
        put: Callable[[list[str]], None],
        victims: Sequence[Victim] = (),
    ) -> None:
        self.length, self.put = length, put
        self.world = FoldWorld(processors)
        self.workers = Workers(processors)
        self.victims = Victims(victims)
        self.plan: Plan | None = plan_of(self.world, ())
        self.size = Catalog().size()
        # The time (ns) up to which windows are submitted, the next multiple of the window's length
        # (an edge), and the earliest time at which the next line may be written.
        self.start, self.edge, self.first = 0, length, 0
        # The joint state of each processor at `start`. `present` has the groups with tasks at that
        # time, or is None if `start` isn't an edge.
        self.states = list(self.world.states)
        self.present: set[str] | None = None
        self.interrupted = [0] * processors
        self.copies: list[Line] = []
        self.now = 0
        self.counts = Counts()
        self.is_ended = False
        self.check = Check(processors)
        # The output that isn't written yet, in order: windows, whose lines the workers compute, and
        # single lines between windows. Each single line is paired with sets of groups. After the
        # line, the sums of time without the tasks of each set are preserved too.
        self.due: deque[Window | tuple[str, list[tuple[str, ...]]]] = deque()
        # The time (ns) up to which the output is written.
        self.written = 0

    def outcome(self) -> Outcome:
        """Returns the result of folding the lines so far."""
        return Outcome(
            self.counts, self.written, self.victims.whole, self.world.changes,
            self.victims.unmatched(),
        )  # fmt: skip

    # ------------------------------------------------------------ reading lines of the trace

    def take(self, lines: Iterable[str]) -> None:
        """Folds further lines of the trace. The lines have no newlines."""
        verbs, line, number = self.world.verbs, "", self.counts.lines
        try:
            for number, line in enumerate(lines, number + 1):
                words = line.split(" ")
                time_ns, play = int(words[0]), verbs.get(words[1])
                if time_ns > self.edge:
                    self.go_to(time_ns)
                elif time_ns < self.now:
                    raise NotATrace("its moment is before that of the line above")
                self.now = time_ns
                if play:
                    play(time_ns, words)
                else:
                    self.take_other(time_ns, words, line)
        except (KeyError, IndexError, ValueError, NotATrace) as fault:
            why = str(fault) if isinstance(fault, NotATrace) else "a trace can't have it there"
            raise NotATrace(f"line {number + 1}, '{shortened(line)}': {why}") from None
        self.counts.lines = number

    def take_other(self, time_ns: int, words: list[str], line: str) -> None:
        """Copies a line whose verb doesn't change a task. Ends the window first if the line changes
        groups or accounting.
        """
        verb, world = words[1], self.world
        if self.is_ended:
            raise NotATrace("it stands after the end")
        if verb in COPIED_VERBS:
            world.live[path_of_copy(line.partition(" ")[2])]
            self.copies.append((time_ns, line))
        elif verb == "group":
            self.between(time_ns, line, lambda: world.group(words[2]))
        elif verb == "rmgroup":
            self.between(time_ns, line, lambda: world.rmgroup(words[2]), [words[2]])
        elif verb == "pressure":
            self.between(time_ns, line, lambda: world.pressure(words[2], words[3]))
        elif verb == "end" and len(words) == 2:
            self.flush(time_ns, True)
            self.due.append((line, []))
            self.is_ended = True
            self.write(0)
            self.workers.close()
        else:
            raise NotATrace("there is no such verb")

    def between(
        self, time_ns: int, line: str, change: Callable[[], object], removed: Iterable[str] = ()
    ) -> None:
        """Ends the window, then changes the groups or their accounting by calling `change`, and
        then copies `line`. `removed` has the groups that the line removes.
        """
        self.flush(time_ns, False, removed)
        change()
        removals, paths = self.victims.removals(self.world), self.world.paths
        self.plan = plan_of(self.world, removals)
        self.due.append((line, [tuple(paths[slot] for slot in it) for it in removals]))

    # ------------------------------------------------------------ ending time windows

    def go_to(self, time_ns: int) -> None:
        """Ends all windows that end before `time_ns`. Consecutive windows without events are merged
        into one.
        """
        if time_ns > MOST_TIME:
            raise NotATrace(f"its time is beyond {MOST_TIME} ns")
        self.flush(self.edge, True)
        last = (time_ns - 1) // self.length * self.length
        if last > self.edge:
            self.flush(last, True)
        self.edge = last + self.length

    def flush(self, end: int, is_edge: bool, removed: Iterable[str] = ()) -> None:
        """Submits the window that ends at `end` (ns). With `is_edge` a tick may be at that time;
        without it the groups or their accounting change there. After the window's lines no task is
        in the groups `removed`. At an edge no task is in a group that is empty there in the
        original.
        """
        world, paths = self.world, self.world.paths
        populated = {paths[slot]: slot for slot, count in world.members.items() if count}
        accounted = {paths[slot] for slot in world.live.values() if slot not in world.off}
        window = Window(self.start, end, accounted=accounted)
        window.populated = set(populated) if is_edge else None
        window.lines = self.copies
        spent, interrupts = world.close(end), world.close_interrupts()
        turns = {}
        for processor in range(world.processors):
            last = self.interrupted[processor]
            irqs = interrupt_lines(interrupts[processor], paths, last, self.first)
            for it in irqs:
                self.interrupted[processor] = it.time_ns
                before = window.interrupts.get((processor, it.path), 0)
                window.interrupts[processor, it.path] = before + it.length
            known = populated.items() if is_edge else ()
            needs = {path: self.tasks_needed(slot, processor) for path, slot in known}
            state = set(removed), window.populated, needs, self.states[processor], self.present
            turns[processor] = Turn(self.start, end, spent[processor], irqs, *state)
        self.workers.hand_in(Work(world.catalog.since(self.size), self.plan, turns))
        self.size, self.plan = world.catalog.size(), None
        self.states, self.present = list(world.states), window.populated
        self.due.append(window)
        self.copies, self.start, self.first = [], end, end + is_edge
        self.counts.windows += is_edge
        self.write(MOST_WAITING)

    def tasks_needed(self, slot: int, processor: int) -> int:
        """Returns the number of artificial tasks that a group with tasks needs on this processor.
        Most groups need one, on one of the processors. A group that might be killed needs as many
        as may ever be used, since a task that is created after the kill would survive it.
        """
        return (
            MOST_AT_ONCE
            if slot in self.world.watched
            else int(slot % self.world.processors == processor)
        )

    # ------------------------------------------------------------ writing the folded trace

    def write(self, waiting: int) -> None:
        """Writes the output before the last `waiting` windows. The workers may not have folded
        these windows yet, so neither they nor the lines after them are written.
        """
        while self.due and (
            len(self.workers.waiting) > waiting or not isinstance(self.due[0], Window)
        ):
            due = self.due.popleft()
            if isinstance(due, Window):
                lines = self.lines_of(due, self.workers.take_out())
                self.check.window(due, lines)
                if self.check.most_tasks > MOST_TASKS:
                    raise TooMany(f"{MOST_TASKS} tasks")
            else:
                lines = [due[0]]
                self.check.between(due[0])
                self.check.keep_without(due[1])
            self.put(lines)
            self.counts.written += len(lines)
            if isinstance(due, Window):
                self.written = due.end

    def lines_of(self, window: Window, pieces: dict[int, Piece]) -> list[str]:
        """Returns the lines of a window in order of time. Stores the original sums of time in
        `window`, for the check.
        """
        paths, each = self.world.paths, [window.lines]
        for processor, piece in sorted(pieces.items()):
            each.append(piece.lines)
            self.counts.states_before += piece.states_before
            self.counts.states_after += piece.states_after
            for (slot, state, without), time in piece.sums.items():
                if time:
                    window.sums[
                        Key(processor, paths[slot], state, tuple(paths[it] for it in without))
                    ] = time
        return [line for _, line in merge(*each, key=itemgetter(0))]
