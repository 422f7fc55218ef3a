"""Writes the event lines of blocks. Some changes of a task's state, such as the start of a sleep,
require that the task runs. The processor switches to such a task and away from it at the same time,
so that the task uses no processor time.
"""
from __future__ import annotations

from collections.abc import Callable, Iterable
from itertools import repeat

from .block import TICK, Span
from .overlays import IN_STALL
from .plan import Block

# The last word of the `switch` line of a task that leaves its processor, keyed by the letter of its
# next state.
HOW = {"w": "iowait", "s": "sleep", "z": "sleep", "r": "preempt", "R": "preempt"}
ASLEEP, RUNNING = "wsz", "xX"

# The key of a task: its group's number, and its kind in a block.
Key = tuple[int, str]
# An event: its time (ns since the start of the tick), and its line without the time.
Event = tuple[int, str]


class Task:
    """A task: its number, and the letters of its current and its next state."""

    __slots__ = ("number", "state", "next")

    def __init__(self, number: int) -> None:
        self.number, self.state, self.next = number, "z", "z"


class Processor:
    """A processor: the tasks that it uses, by group and kind, and its running task."""

    def __init__(
        self, number: int, task_of: Callable[[Key], Task], put_back: Callable[[Key, Task], None]
    ) -> None:
        self.number, self.task_of, self.put_back = number, task_of, put_back
        self.tasks: dict[Key, Task] = {}
        self.runs: Task | None = None

    def changes_of(self, blocks: Iterable[Block]) -> dict[int, dict[Key, str]]:
        """Returns the states that start in a tick, by time (ns since the tick's start). A task that
        the previous tick used falls asleep at the start, unless this tick uses it too.
        """
        found: dict[int, dict[Key, str]] = {}
        begins: dict[int, dict[Key, str]] = {}
        asleep = {key: "z" for key, task in self.tasks.items() if task.state != "z"}
        if asleep:
            found[0] = asleep
        for block in blocks:
            start = block.start
            spans: Iterable[tuple[int, Span]] = zip(repeat(block.group), block.spans)
            if block.others:
                spans = [*spans, *block.others]
            for group, (begin, end, kind, state) in spans:
                key = group, kind
                begins.setdefault(start + begin, {})[key] = state
                if start + end < TICK:
                    found.setdefault(start + end, {})[key] = "z"
        for time, states in begins.items():
            if time in found:
                found[time].update(states)
            else:
                found[time] = states
        return found

    def play(self, blocks: Iterable[Block], out: list[Event]) -> None:
        """Appends the events of a tick to `out`. Tasks that the tick doesn't use become available
        to other processors.
        """
        changes = self.changes_of(blocks)
        used = {key for states in changes.values() for key in states}
        for time in sorted(changes):
            self.change(time, changes[time], out)
        for key in [it for it in self.tasks if it not in used]:
            self.put_back(key, self.tasks.pop(key))

    def forget(self, groups: set[int]) -> None:
        """Removes the tasks of these groups, which are asleep, from this processor."""
        for key in [it for it in self.tasks if it[0] in groups]:
            del self.tasks[key]

    def change(self, time: int, wanted: dict[Key, str], out: list[Event]) -> None:
        """Appends to `out` the events that put tasks into the states `wanted` at `time` (ns in the
        tick). A task that must run to change its state runs for 0 ns."""
        cpu, tasks, runs = self.number, self.tasks, self.runs
        changed, turns, last = list[Task](), list[Task](), None
        for key, state in wanted.items():
            task = tasks.get(key)
            if task is None:
                task = tasks[key] = self.task_of(key)
            before = task.state
            if before == state:
                continue
            task.next = state
            changed.append(task)
            if before in ASLEEP:
                out.append((time, f"wake {task.number} {cpu}"))
            if state in RUNNING:
                last = task
            elif state in ASLEEP or (before in IN_STALL) != (state in IN_STALL):
                turns.append(task)
        if runs is not None and runs.next not in RUNNING:
            turns = [runs, *(it for it in turns if it is not runs)]
        elif last is None:
            last = runs
        how = "idle" if runs is None else "preempt"
        for task in turns if last is None else [*turns, last]:
            if runs is not task:
                out.append((time, f"switch {cpu} {task.number} {how}"))
                runs = task
            state = task.next
            is_stalled = state in IN_STALL
            if (task.state in IN_STALL) != is_stalled:
                out.append((time, f"{'stall' if is_stalled else 'unstall'} {task.number}"))
            how = HOW.get(state, "preempt")
        if last is None and runs is not None:
            out.append((time, f"switch {cpu} 0 {how}"))
            runs = None
        self.runs = runs
        for task in changed:
            task.state = task.next
