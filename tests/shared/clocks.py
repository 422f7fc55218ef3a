"""Computes the ticks of a trace, and the state times of each group that had a given path, after
each change of each processor. It follows only the rules of the documentation.
"""
from __future__ import annotations

import dataclasses
from collections.abc import Iterable

from shared.machine import Machine

NO_TIMES = [0] * 7
# The times (ns) of a group's seven states, and whether each state holds. The key is the group's
# number.
Times = dict[int, list[int]]
States = dict[int, list[bool]]


@dataclasses.dataclass
class Tick:
    """A tick: its time (ns), the number of the group that has the observed path at this time (None
    if no group has it), and the number of changes of each processor before the tick.
    """

    moment: int
    group: int | None
    counts: list[int]


class Clocks:
    """The ticks of a trace, and the state times (ns) of each group that had the path `path`. The
    times are kept for each processor, after each of its changes. `tick` is the length of a tick
    (ns).
    """

    def __init__(self, trace: str, path: str, tick: int) -> None:
        header, *lines = trace.splitlines()
        cpus = range(int(header.partition("cpus=")[2]))
        machine, last = Machine(len(cpus)), 0
        times: list[Times] = [{} for _ in cpus]
        states: list[States] = [{} for _ in cpus]
        self.changes: list[list[tuple[int, Times, States]]] = [[(0, {}, {})] for _ in cpus]
        self.ticks: list[Tick] = []
        for time_ns, *event in (line.split(" ") for line in lines):
            now = int(time_ns)
            while (len(self.ticks) + 1) * tick < now:
                self.end_tick(tick, machine, path)
            for cpu in cpus:
                for group, holds in states[cpu].items():
                    times[cpu][group] = opened(times[cpu][group], holds, now - last)
            changed, last = machine.take(*event), now
            if event[0] == "group" and event[1] == path or not times[0] and path == "/":
                for cpu in cpus:
                    times[cpu][machine.live[path]] = NO_TIMES
            for cpu in cpus:
                states[cpu] = {group: machine.holds(cpu, group) for group in times[cpu]}
            for cpu in changed:
                self.changes[cpu].append((now, dict(times[cpu]), states[cpu]))
        while (len(self.ticks) + 1) * tick <= last:
            self.end_tick(tick, machine, path)

    def end_tick(self, tick: int, machine: Machine, path: str) -> None:
        """Appends the next tick to the list. Ticks are `tick` ns long. `path` is observed."""
        counts = [len(changes) - 1 for changes in self.changes]
        self.ticks.append(Tick((len(self.ticks) + 1) * tick, machine.live.get(path), counts))

    def times(self, tick: Tick, cpu: int, count: int, at: int) -> list[int]:
        """Returns the state times (ns) of the tick's group on the processor `cpu` after `count` of
        its changes. States that hold after the last of these changes continue until `at` (ns).
        """
        time_ns, times, states = self.changes[cpu][count]
        group = -1 if tick.group is None else tick.group
        return opened(times.get(group, NO_TIMES), states.get(group, NO_TIMES), at - time_ns)


def opened(times: list[int], holds: Iterable[int], length: int) -> list[int]:
    """Returns the state times (ns) after `length` more ns. Only the times of states that hold
    increase.
    """
    return [time + length if is_held else time for time, is_held in zip(times, holds)]
