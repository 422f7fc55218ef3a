"""Finds the sleeps that were waits for IO. The kernel counts a sleep as a wait for IO only if the
task's bit `in_iowait` is set. State D alone doesn't show this: on a journaling file system the bit
isn't set in a third to a half of the sleeps in state D.
"""
from __future__ import annotations

from collections.abc import Callable, Sequence
from enum import Enum

from .events import Event, Switch, SwitchProbe, WaitEnds

# The state of tasks in an uninterruptible sleep.
UNINTERRUPTIBLE = "D"


class Method(Enum):
    """The methods by which a wait for IO is recognized, the most exact first."""

    PROBE = "probe"  # the bit that psi itself reads, by a probe on psi_task_switch
    STATISTICS = "stat"  # sched_stat_iowait, which needs kernel.sched_schedstats=1
    STATE = "D"  # every sleep in state D


def best_method(events: Sequence[Event], has_probe: bool) -> Method:
    """Returns the most exact method that the recording supports. `has_probe` says that the probe
    was switched on. Its method then applies even if the recording has no event of the probe, since
    in this case no task waited for IO.
    """
    kinds = {type(event) for event in events}
    if has_probe or SwitchProbe in kinds:
        return Method.PROBE
    return Method.STATISTICS if WaitEnds in kinds else Method.STATE


def by_probe(events: Sequence[Event], probes: dict[int, SwitchProbe] | None = None) -> set[int]:
    """Returns the indices of the switches that begin a wait for IO, according to the probe before
    each switch on the same processor.

    If events are read in parts, pass the same `probes` for each part. It contains the last probe of
    each processor, until the probe's switch has been read.
    """
    waits: set[int] = set()
    probes = {} if probes is None else probes
    for place, event in enumerate(events):
        if isinstance(event, SwitchProbe):
            probes[event.processor] = event
        elif isinstance(event, Switch):
            probe = probes.pop(event.processor, None)
            if probe and probe.task == event.previous and probe.waits:
                waits.add(place)
    return waits


def by_statistics(events: Sequence[Event]) -> set[int]:
    """Returns the indices of the switches that begin a wait for IO. The event `sched_stat_iowait`,
    which precedes the wakeup, reports that the sleep was a wait for IO.
    """
    waits: set[int] = set()
    asleep: dict[int, int] = {}
    for place, event in enumerate(events):
        if isinstance(event, Switch):
            asleep.pop(event.next, None)
            if event.state == UNINTERRUPTIBLE:
                asleep[event.previous] = place
        elif isinstance(event, WaitEnds) and event.task in asleep:
            waits.add(asleep[event.task])
    return waits


def by_state(events: Sequence[Event]) -> set[int]:
    """Returns the indices of the switches that begin a sleep in state D."""
    return {
        place
        for place, event in enumerate(events)
        if isinstance(event, Switch) and event.state == UNINTERRUPTIBLE
    }


def waits_for_io(events: Sequence[Event], method: Method) -> set[int]:
    """Returns the indices of the switches that begin a wait for IO, according to `method`."""
    ways: dict[Method, Callable[[Sequence[Event]], set[int]]] = {
        Method.PROBE: by_probe, Method.STATISTICS: by_statistics, Method.STATE: by_state,
    }  # fmt: skip
    return ways[method](events)
