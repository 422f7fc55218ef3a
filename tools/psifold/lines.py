"""Writes the lines of a trace that put a processor into certain joint states (see joint.py) for
certain times.

Each element of a joint state is represented by a task that is created for this purpose, a
*representative*. A representative belongs to the element's group, stays on its processor, and
sleeps while it isn't needed. The change from one joint state to the next takes few lines: a
representative whose state changes runs for zero time and leaves the processor in its new state, and
the previous task runs again.
"""
from __future__ import annotations

from collections.abc import Iterable, Iterator, Sequence
from typing import NamedTuple

from psiworld.world import How

from .joint import IDLE, LEAVES_TO, STALLED, WAY, Element, JointState, Kind

# A line of a trace: its time (ns), and the text after the time.
Line = tuple[int, str]
BLOCKED = (Kind.ASLEEP, Kind.WAITING)
# The largest number of representatives that a group may need at once on a processor. There are
# seven kinds other than ASLEEP, but only one of the two kinds that run can occur at a time.
MOST_AT_ONCE = 6


class Interrupt(NamedTuple):
    """An interrupt: the time (ns) of its line, the group of the interrupted task, and its length
    (ns).
    """

    time_ns: int
    path: str
    length: int


class Move(NamedTuple):
    """A change of a representative: its group's path, its task number, and its kind before and
    after the change. `before` is None if the representative is created, and `after` is None if it
    exits.
    """

    path: str
    task: int
    before: Kind | None
    after: Kind | None

    def wakes(self) -> bool:
        """Whether the representative was asleep or waiting for IO, so that it must be woken first.
        """
        return self.before is not None and self.before & WAY in BLOCKED

    def turns(self) -> bool:
        """Whether the representative must run for zero time. Only a running task can begin to sleep
        or wait for IO, exit, or begin or end a memory stall.
        """
        is_runner = runs(self.before) or runs(self.after)
        return not is_runner and (
            self.after is None or self.after & WAY in BLOCKED or self.changes_stall()
        )

    def changes_stall(self) -> bool:
        """Whether the representative begins or ends a memory stall."""
        return ((self.before or 0) ^ (self.after or 0)) & STALLED != 0

    def stall(self) -> str:
        """Returns the text of the line that begins or ends the representative's memory stall."""
        return f"{'stall' if (self.after or 0) & STALLED else 'unstall'} {self.task}"

    def how(self) -> str:
        """Returns the word in the line of the switch by which the representative leaves the
        processor.
        """
        return How.EXIT.word if self.after is None else LEAVES_TO[Kind(self.after & WAY)]


def is_within(state: JointState, present: set[str] | None) -> bool:
    """Whether all tasks of a joint state belong to the groups `present`. If `present` is None, all
    groups are allowed.
    """
    return present is None or all(element.path in present for element in state)


def runs(kind: Kind | None) -> bool:
    """Whether a task of this kind runs."""
    return kind is not None and kind & WAY == Kind.RUNNING


def cost(before: Kind, after: Kind) -> int:
    """Returns the approximate number of lines in which a task changes from one kind to another."""
    move = Move("", 0, before, after)
    return move.wakes() + move.turns() + move.changes_stall()


COSTS = {(before, after): cost(before, after) for before in Kind for after in Kind}


class Writer:
    """Writes the lines of one processor. The numbers of its tasks differ from the numbers of the
    tasks of all other processors.
    """

    def __init__(self, processor: int, processors: int) -> None:
        self.processor, self.processors = processor, processors
        self.made = 0
        self.state: JointState = IDLE
        # The representatives of each group: `busy` has the task number for each kind except ASLEEP,
        # and `asleep` the numbers of all sleeping tasks.
        self.busy: dict[str, dict[Kind, int]] = {}
        self.asleep: dict[str, list[int]] = {}
        # The number of the running task, or 0 if none runs.
        self.runner = 0

    def write(
        self,
        start: int,
        durations: dict[JointState, int],
        interrupts: Sequence[Interrupt] = (),
        present: set[str] | None = None,
    ) -> list[Line]:
        """Returns lines that put the processor into each joint state for its duration (ns),
        starting at `start` (ns), merged with the lines of `interrupts`. If `present` isn't None,
        the first joint state has tasks only in these groups, if possible.
        """
        lines: list[Line] = []
        time_ns, due = start, list(interrupts)
        # The order of a set may vary between runs. Sorting the states makes the output the same in
        # each run.
        left = {state: durations[state] for state in sorted(durations, key=sorted)}
        while left:
            fitting = (
                left if time_ns > start else [state for state in left if is_within(state, present)]
            )
            state = min(fitting or left, key=self.distance)
            lines += self.change(time_ns, state)
            time_ns += left.pop(state)
            while due and (due[0].time_ns < time_ns or not left):
                lines += self.interrupt(due.pop(0))
        return lines + [line for it in due for line in self.interrupt(it)]

    def distance(self, state: JointState) -> int:
        """Returns the number of elements in which a joint state differs from the current one."""
        return len(self.state ^ state)

    def interrupt(self, wanted: Interrupt) -> list[Line]:
        """Returns the lines for an interrupt. If no task of its group is running, a representative
        of the group runs for zero time.
        """
        runs_there = any(it.path == wanted.path and runs(it.kind) for it in self.state)
        line = f"irq {self.processor} {wanted.length}"
        if runs_there:
            return [(wanted.time_ns, line)]
        lines = []
        if not self.asleep.get(wanted.path):
            lines += self.perform([Move(wanted.path, self.new_task(), None, Kind.ASLEEP)])
        task, before = self.asleep[wanted.path][-1], self.runner
        lines += [
            f"wake {task} {self.processor}",
            f"switch {self.processor} {task} {'preempt' if before else 'idle'}", line,
            f"switch {self.processor} {before} sleep",
        ]  # fmt: skip
        return [(wanted.time_ns, words) for words in lines]

    def groups(self) -> set[str]:
        """Returns the groups that have representatives."""
        return {*self.busy, *self.asleep}

    # ------------------------------------------------------------ changing the joint state

    def change(self, time_ns: int, state: JointState) -> list[Line]:
        """Returns the lines that change the current joint state to `state`."""
        coming: dict[str, list[Kind]] = {}
        for path, kind in sorted(state - self.state):
            coming.setdefault(path, []).append(kind)
        leaving: dict[str, list[Kind]] = {}
        for path, kind in sorted(self.state - state):
            leaving.setdefault(path, []).append(kind)
        moves = [
            move
            for path in sorted({*coming, *leaving})
            for move in self.moves(path, leaving.get(path, []), coming.get(path, []))
        ]
        return [(time_ns, words) for words in self.perform(moves)]

    def moves(self, path: str, leaving: list[Kind], coming: list[Kind]) -> Iterator[Move]:
        """Yields the changes of a group's representatives from the kinds `leaving` to the kinds
        `coming`. Pairs that need few lines are chosen first. The remaining kinds of `coming` use
        sleeping representatives, or new ones if none sleeps.
        """
        busy = self.busy.get(path, {})
        pairs = sorted(
            (COSTS[before, after], before, after) for before in leaving for after in coming
        )
        for _, before, after in pairs:
            if before in leaving and after in coming:
                leaving.remove(before)
                coming.remove(after)
                yield Move(path, busy[before], before, after)
        for before in leaving:
            yield Move(path, busy[before], before, Kind.ASLEEP)
        asleep = list(self.asleep.get(path, ()))
        for after in coming:
            yield (
                Move(path, asleep.pop(), Kind.ASLEEP, after)
                if asleep
                else Move(path, self.new_task(), None, after)
            )

    def new_task(self) -> int:
        """Returns the number of a new task."""
        self.made += 1
        return (self.made - 1) * self.processors + self.processor + 1

    def empty(self, time_ns: int, paths: Iterable[str]) -> list[Line]:
        """Returns the lines that make all representatives of these groups exit."""
        moves = []
        for path in sorted(set(paths) & self.groups()):
            moves += [
                Move(path, task, kind, None) for kind, task in self.busy.get(path, {}).items()
            ]
            moves += [Move(path, task, Kind.ASLEEP, None) for task in self.asleep.get(path, ())]
        return [(time_ns, words) for words in self.perform(moves)]

    def keep(self, time_ns: int, counts: dict[str, int]) -> list[Line]:
        """Returns the lines that create sleeping representatives until each group has at least
        `counts[path]` of them.
        """
        moves = []
        for path, count in sorted(counts.items()):
            made = len(self.busy.get(path, ())) + len(self.asleep.get(path, ()))
            moves += [Move(path, self.new_task(), None, Kind.ASLEEP) for _ in range(made, count)]
        return [(time_ns, words) for words in self.perform(moves)]

    def perform(self, moves: list[Move]) -> list[str]:
        """Returns the lines for these moves, without times. All representatives that run for zero
        time form one chain of switches: the running task leaves, each task switches to the next,
        and the last one switches to the task that keeps running.
        """
        words = [f"fork {it.task} {it.path} {self.processor}" for it in moves if it.before is None]
        words += [f"wake {it.task} {self.processor}" for it in moves if it.wakes()]
        before = self.runner
        leaves = next((it for it in moves if runs(it.before)), None)
        comes = next((it for it in moves if runs(it.after)), None)
        if leaves and leaves.changes_stall():
            words.append(leaves.stall())
        turns = [it for it in moves if it.turns()]
        following = comes.task if comes else 0 if leaves else before
        if turns or following != before:
            how = (
                "idle"
                if not before
                else leaves.how() if leaves and leaves is not comes else How.PREEMPT.word
            )
            words += self.chain(turns, following, how)
        if comes and comes is not leaves and comes.changes_stall():
            words.append(comes.stall())
        self.take(moves, following)
        return words

    def chain(self, turns: list[Move], following: int, how: str) -> Iterator[str]:
        """Yields the lines of switches to each task of `turns`, and then to the task `following`.
        `how` is the last word of the first switch: how the running task leaves the processor.
        """
        for turn in turns:
            yield f"switch {self.processor} {turn.task} {how}"
            if turn.changes_stall():
                yield turn.stall()
            how = turn.how()
        yield f"switch {self.processor} {following} {how}"

    def take(self, moves: list[Move], runner: int) -> None:
        """Updates the kinds of the representatives after these moves. `runner` is the running task.
        """
        for path, task, before, _ in moves:
            if before is Kind.ASLEEP:
                self.asleep[path].remove(task)
            elif before is not None:
                del self.busy[path][before]
        for path, task, _, after in moves:
            if after is Kind.ASLEEP:
                self.asleep.setdefault(path, []).append(task)
            elif after is not None:
                self.busy.setdefault(path, {})[after] = task
        self.runner = runner
        moved = {it.path for it in moves}
        self.busy = {path: tasks for path, tasks in self.busy.items() if tasks or path not in moved}
        self.asleep = {
            path: tasks for path, tasks in self.asleep.items() if tasks or path not in moved
        }
        stays = [it for it in self.state if it.path not in moved]
        self.state = frozenset(
            [*stays, *(Element(path, kind) for path in moved for kind in self.busy.get(path, ()))]
        )
