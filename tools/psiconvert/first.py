"""Derives the state of each task at the start of a trace. No event reports that state, but the
first event that names a task shows it. The previous task of a switch was running, the next task was
ready, and a task that is woken was asleep.
"""
from __future__ import annotations

from collections.abc import Iterable, Sequence
from typing import NamedTuple

from psiread.events import (
    NEVER,
    Event,
    FirstWakeup,
    Migration,
    NewTask,
    StallBegins,
    StallEnds,
    Switch,
    WaitEnds,
    Wakeup,
)
from psiworld.world import State

# The time (ns) for which a task may be ready before it runs. Few tasks are ready for longer.
LONGEST_READY = 10**9


class First(NamedTuple):
    """The state of a task at the start, its processor, and the time (ns) of the event that shows
    the state. The time is 0 if no event shows it.
    """

    state: State
    processor: int
    time_ns: int = 0


class Beginning:
    """The initial state, derived from the events. If no event reports new tasks, a task that first
    runs after `latest_ready` (ns) counts as new, since few tasks are ready for that long.
    """

    def __init__(self, latest_ready: int) -> None:
        self.latest_ready = latest_ready
        self.tasks: dict[int, First] = {}
        # The task that ran on each processor at the start. 0 is the idle task.
        self.runs: dict[int, int] = {}
        # Tasks that were created after the start.
        self.born: set[int] = set()
        # Tasks that waited for IO at the start, according to `sched_stat_iowait`.
        self.waited: set[int] = set()
        # Whether a task was in a memory stall at the start. Tasks whose state isn't known are
        # absent.
        self.stalled: dict[int, bool] = {}
        self.depths: dict[int, int] = {}
        self.origins: dict[int, int] = {}

    def is_new(self, task: int) -> bool:
        """Returns whether no earlier event named `task`. Always False for 0, the idle task."""
        return task != 0 and task not in self.tasks and task not in self.born

    def name(self, task: int, state: State, processor: int, time_ns: int) -> None:
        """Stores the initial state of a task, if no earlier event named the task. If a migration of
        the task came before, the task's initial processor is the origin of the migration.
        """
        if self.is_new(task):
            self.tasks[task] = First(state, self.origins.get(task, processor), time_ns)

    def take(self, event: Event) -> None:
        """Derives initial states from the next event. Each event also shows which task runs on its
        processor.
        """
        self.runs.setdefault(event.processor, event.current)
        self.name(event.current, State.RUNNING, event.processor, event.time_ns)
        if isinstance(event, Switch):
            self.name(event.previous, State.RUNNING, event.processor, event.time_ns)
            if event.time_ns > self.latest_ready and self.is_new(event.next):
                self.born.add(event.next)
            self.name(event.next, State.READY, event.processor, event.time_ns)
        elif isinstance(event, Wakeup):
            slept = State.WAITING if event.task in self.waited else State.ASLEEP
            self.name(event.task, slept, event.target, event.time_ns)
        elif isinstance(event, Migration):
            if self.is_new(event.task):
                self.origins.setdefault(event.task, event.origin)
        elif isinstance(event, (NewTask, FirstWakeup)):
            if self.is_new(event.task):
                self.born.add(event.task)
        elif isinstance(event, WaitEnds):
            if self.is_new(event.task):
                self.waited.add(event.task)
        elif isinstance(event, (StallBegins, StallEnds)):
            self.take_stall(event)

    def take_stall(self, event: StallBegins | StallEnds) -> None:
        """Derives from the start or end of a memory stall whether the task was in a stall at the
        start. A task that leaves a stall without having entered it was in that stall at the start.
        So was a task that remains in an outer stall, according to the flags, when a nested stall
        ends.
        """
        task = event.current
        if task in self.stalled or task in self.born:
            return
        depth = self.depths.get(task, 0)
        if isinstance(event, StallBegins):
            self.depths[task] = depth + 1
        elif depth <= 1:
            self.stalled[task] = depth == 0 or event.flags != 0
        else:
            self.depths[task] = depth - 1


def reports_births(events: Iterable[Event]) -> bool:
    """Returns whether these events report the creation of tasks."""
    return any(isinstance(event, (NewTask, FirstWakeup)) for event in events)


def beginning_of(events: Sequence[Event], has_births: bool) -> Beginning:
    """Returns the initial state that follows from all these events. `has_births` says whether the
    recording reports the creation of tasks.
    """
    is_open = has_births or not events
    beginning = Beginning(NEVER if is_open else events[0].time_ns + LONGEST_READY)
    for event in events:
        beginning.take(event)
    return beginning
