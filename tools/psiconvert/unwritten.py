"""Finds switches for which the kernel wrote no event.

Some kernels write no switch events for certain tasks. In a virtual machine with Linux 6.18 these
were the threads of process 1, and all idle tasks except the first processor's. If no event shows
that such a task leaves the processor, the next task seems to wait until an event shows that it
runs.

The next event of the processor shows which task runs there. If that task was ready, a switch to it
is inserted at the time of the last event of the task that left. That task may have run a little
longer. The error is small compared to the next task's run time, which is often many ms before its
first event.
"""
from __future__ import annotations

from collections.abc import Iterable, Iterator, Sequence
from operator import itemgetter

from psiread.events import Event, Exec, FirstWakeup, Gap, Migration, Switch, Wakeup
from psiread.window import Window, overlapping

# The name of an inserted switch in the report of repairs.
UNWRITTEN = "switch that wasn't written, put where the task that left was seen last"
# The state letters of a task that leaves the processor: it remains ready, or it sleeps.
STAYS, SLEEPS = "R", "S"


def renamed(events: Sequence[Event]) -> set[tuple[int, int]]:
    """Returns the pairs of numbers that are exchanged by exec, in both orders. The running task
    changes from one number to the other without a switch.
    """
    changes = [
        (event.old, event.task)
        for event in events
        if isinstance(event, Exec) and event.old != event.task
    ]
    return {*changes, *((new, old) for old, new in changes)}


def silent_tasks(events: Sequence[Event]) -> set[int]:
    """Returns the tasks that got a processor by a switch, but never left one according to the
    events.
    """
    switches = [event for event in events if isinstance(event, Switch)]
    return {event.next for event in switches} - {event.previous for event in switches}


class Chains:
    """The running task and the ready tasks of each processor. They are derived from the switches,
    and from the current task of each event. `silent` contains the tasks that leave processors
    without an event.
    """

    def __init__(self, events: Sequence[Event], gaps: Sequence[Gap]) -> None:
        self.gaps, self.renamed, self.silent = gaps, renamed(events), silent_tasks(events)
        self.running: dict[int, int] = {}
        # The time (ns) of each processor's last event.
        self.times_ns: dict[int, int] = {}
        # For each ready task, the processor on which it waits, and the time (ns) since which that
        # is known.
        self.ready: dict[int, tuple[int, int]] = {}

    def mended(self, events: Iterable[Event]) -> tuple[list[Event], list[int]]:
        """Inserts the unwritten switches into the next events, each before the first event that
        shows that a switch is missing. Returns all events, and the times (ns) of the inserted
        switches.
        """
        whole: list[Event] = []
        times_ns: list[int] = []
        running = self.running
        for event in events:
            processor, runs = event[1], event[3] if isinstance(event, Switch) else event[2]
            if running.get(processor, runs) != runs:
                missing = self.missing(event, running[processor], runs)
                times_ns += (it.time_ns for it in missing)
                whole += missing
            running[processor] = runs
            self.take(event)
            whole.append(event)
        return whole, times_ns

    def missing(self, event: Event, known: int, runs: int) -> list[Switch]:
        """Returns the unwritten switches before an event, on its processor. They lead from the task
        `known`, which was known to run, to the task `runs`, which runs at the event. If `runs`
        wasn't known to be ready, the switch to it isn't returned.
        """
        if (known, runs) in self.renamed or self.is_gap(event):
            return []
        follows = [runs] if runs in self.ready or not runs else []
        return list(
            self.switches(
                event.processor, [known, *self.waiting(event.processor, {known, runs}), *follows]
            )
        )

    def waiting(self, processor: int, others: set[int]) -> list[int]:
        """Returns the ready tasks on the processor whose switches the kernel doesn't write, except
        `others`. These tasks may have run in between. The one that became ready first comes first.
        """
        waiting = [
            it for it in self.silent - others if it in self.ready and self.ready[it][0] == processor
        ]
        return sorted(waiting, key=lambda it: self.ready[it][1])

    def is_gap(self, event: Event) -> bool:
        """Returns whether events of the processor were lost right before this event."""
        since = Window(self.times_ns[event.processor], event.time_ns)
        return any(gap.processor == event.processor for gap in overlapping(self.gaps, since))

    def switches(self, processor: int, route: Sequence[int]) -> Iterator[Switch]:
        """Yields a switch from each task in `route` to the next one, each at the earliest possible
        time.
        """
        time_ns = self.times_ns[processor]
        for previous, following in zip(route, route[1:]):
            self.ready.pop(previous, None)
            time_ns = max(time_ns, self.ready.pop(following)[1] if following else 0)
            yield Switch(
                time_ns, processor, previous, previous, SLEEPS if previous else STAYS, following
            )

    def take(self, event: Event) -> None:
        """Updates the running and the ready tasks after a written event."""
        time_ns, processor = event[:2]
        self.times_ns[processor] = time_ns
        if isinstance(event, Switch):
            _, _, _, previous, state, following = event
            self.running[processor] = following
            self.ready.pop(following, None)
            self.ready.pop(previous, None)
            if state == STAYS and previous:
                self.ready[previous] = processor, time_ns
        elif isinstance(event, (Wakeup, FirstWakeup)) or (
            isinstance(event, Migration) and event.task in self.ready
        ):
            self.ready[event.task] = event.target, time_ns


def with_unwritten(events: Sequence[Event], gaps: Sequence[Gap]) -> tuple[list[Event], list[int]]:
    """Inserts the unwritten switches into a recording's events. Returns all events, and the times
    (ns) of the inserted switches. No switch is inserted right after a gap, since it isn't known
    which tasks ran during the gap.
    """
    whole, times_ns = Chains(events, gaps).mended(events)
    whole.sort(key=itemgetter(0))
    return whole, times_ns
