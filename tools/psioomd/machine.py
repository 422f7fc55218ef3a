"""Models the machine as oomd sees it at an evaluation: the trace's last samples, and the pressure
at the last tick.
"""
from __future__ import annotations

from dataclasses import dataclass, field

from psioomd.patterns import ROOT, Patterns
from psireplay.groups import Group, Host, Sample
from psireplay.world import World, Task

KIB = 1 << 10
NO_SAMPLE = Sample(0, 0, 0)
NO_HOST = Host(0, 0, 0)
RANKS = {"prefer": 1, "none": 0, "avoid": -1}


@dataclass(frozen=True)
class Averages:
    """Averages of full pressure over 10, 60 and 300 s, in hundredths of a percent."""

    avg10: int = 0
    avg60: int = 0
    avg300: int = 0


NO_PRESSURE = Averages()
# The averages of a group, keyed by resource.
Pressure = dict[str, Averages]


@dataclass(eq=False)
class Extras:
    """Values that a trace lacks. Each is a number, keyed by a group's path and by the name of a
    file, such as memory.low. An absent value is 0.
    """

    numbers: dict[tuple[str, str], int] = field(default_factory=dict)

    def of(self, path: str, file: str) -> int:
        return self.numbers.get((path, file), 0)


class Machine:
    """The groups and their memory at one time. `totals` contains the sizes of the host's memory and
    swap at the start of oomd.
    """

    def __init__(self, extras: Extras, totals: Host) -> None:
        self.world = World(Task)
        self.extras, self.totals = extras, totals
        self.pressures: dict[Group, Pressure] = {}
        self.matched: dict[Patterns, list[str]] = {}
        self.paths: list[str] = []

    def refresh(self) -> None:
        """Updates the list of groups. If it has changed, discards the cached matches of patterns.
        """
        paths = sorted(self.world.live)
        if paths != self.paths:
            self.paths, self.matched = paths, {}

    def take_pressure(self, reports: dict[str, Pressure]) -> None:
        """Stores the pressure of live groups at a tick."""
        for path, pressure in reports.items():
            group = self.world.live.get(path)
            if group:
                self.pressures[group] = pressure

    def host(self) -> Host:
        return self.world.host or self.totals

    def among(self, patterns: Patterns) -> list[str]:
        """Returns the live groups that match the patterns, sorted by path."""
        if patterns not in self.matched:
            self.matched[patterns] = patterns.among(self.paths)
        return self.matched[patterns]

    def group(self, path: str) -> Group:
        return self.world.live[path]

    def sample(self, path: str) -> Sample:
        return self.group(path).sample or NO_SAMPLE

    def pressure(self, path: str, resource: str) -> Averages:
        """Returns the group's averages. They are 0 if the group's accounting is off, since the
        group has no pressure files then.
        """
        group = self.group(path)
        if not group.is_accounted:
            return NO_PRESSURE
        return self.pressures.get(group, {}).get(resource, NO_PRESSURE)

    def current(self, path: str) -> int:
        """Returns the memory in use (bytes). For the root this is MemTotal minus MemFree, both in
        whole KiB.
        """
        used = self.sample(path).memory
        if path != ROOT:
            return used
        total = self.host().memory // KIB
        return (total - max(0, total - used // KIB)) * KIB

    def swap(self, path: str) -> int:
        """Returns the swap in use (bytes). It is 0 for the root, which has no file with this value.
        """
        return 0 if path == ROOT else self.sample(path).swap

    def scanned(self, path: str) -> int:
        """Returns the number of pages scanned up to the last sample."""
        return self.sample(path).scanned

    def preference(self, path: str) -> str:
        return self.group(path).preference

    def rank(self, path: str) -> int:
        """Returns the rank of the group's preference. `prefer` ranks first, then `none`, then
        `avoid`.
        """
        return RANKS[self.preference(path)]

    def is_populated(self, path: str) -> bool:
        return path == ROOT or self.group(path).has_tasks()

    def ends_as_a_whole(self, path: str) -> bool:
        return self.extras.of(path, "memory.oom.group") == 1

    def children(self, path: str) -> list[str]:
        """Returns the paths of the group's children, except those whose name begins with a dot."""
        front = "" if path == ROOT else path
        names = sorted(it.rpartition("/")[2] for it in self.group(path).children)
        return [f"{front}/{it}" for it in names if it[0] != "."]

    def raw_protection(self, path: str) -> int:
        low, least = (self.extras.of(path, it) for it in ("memory.low", "memory.min"))
        return min(self.current(path), max(low, least))

    def protection(self, path: str) -> int:
        """Returns the number of bytes that memory.low and memory.min protect. Siblings share the
        protection of their parent.
        """
        if path == ROOT:
            return self.current(path)
        if not self.extras.numbers:
            return 0
        above = path.rpartition("/")[0] or ROOT
        raw = self.raw_protection(path)
        if above == ROOT:
            return raw
        total = sum(map(self.raw_protection, self.children(above)))
        return int(raw * min(1.0, self.protection(above) / total)) if total else 0

    def effective(self, path: str) -> int:
        """Returns a group's memory in use (bytes) minus its protected memory."""
        return self.current(path) - self.protection(path)
