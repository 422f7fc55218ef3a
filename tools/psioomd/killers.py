"""Emulates oomd's kill actions, each of which ranks groups to choose a victim."""
from __future__ import annotations

import itertools
import math
from abc import abstractmethod
from typing import Any

from psioomd.configuration import PluginUse
from psioomd.detectors import average
from psioomd.faults import Crash
from psioomd.machine import Machine
from psioomd.numbers import float32
from psioomd.outcome import Candidate, Victim
from psioomd.plugin import Look, Plugin, Result
from psisystemd.told import size
from psisystemd.values import percent

DEFAULT_SIZE, DEFAULT_PERCENTILE, DEFAULT_RATIO = 50, 80, 1.25
WHOLE = 100
# A key by which candidates are compared. The candidate with the largest key is ranked first.
Key = tuple[float, ...]
# The candidates of an action, keyed by path: the key of each candidate, and a text that explains
# its rank.
Ranked = dict[str, tuple[Key, str]]


class Killer(Plugin):
    """An action that kills the highest-ranked candidate with a live task."""

    def __init__(self, use: PluginUse, args: dict[str, Any]) -> None:
        super().__init__(use, args)
        self.is_recursive = args.get("recursive", False)
        self.delay = args.get("post_action_delay")
        self.paths: list[str] = []
        self.seen: list[Candidate] = []

    @abstractmethod
    def ranks(self, look: Look, paths: list[str]) -> Ranked:
        """Ranks sibling groups. `paths` are their paths."""

    def run(self, look: Look) -> Result:
        self.paths = look.machine.among(self.args["cgroup"])
        found = self.victims(look, self.paths)
        if not found:
            self.seen = self.ranked(look, self.paths)[1]
            return Result.CONTINUE
        (path, candidates), *others = found
        is_dry = self.args.get("dry", False)
        look.victims.append(Victim(path, [it for it, _ in others], candidates, is_dry))
        if self.args.get("always_continue", False):
            return Result.CONTINUE
        if look.ruleset and self.delay is not None:
            look.ruleset.pause(self.delay)
        return Result.STOP

    def victims(self, look: Look, paths: list[str]) -> list[tuple[str, list[Candidate]]]:
        """Returns the groups that may be killed, each with its sibling candidates. All these groups
        have the same rank, and oomd doesn't define which of them it kills.
        """
        order, candidates = self.ranked(look, paths)
        best = [it.path for it in candidates]
        for _, equals in itertools.groupby(best, key=lambda it: order[it]):
            found = [it for path in sorted(equals) for it in self.at(look, path, candidates)]
            if found:
                return found
        return []

    def ranked(self, look: Look, paths: list[str]) -> tuple[dict[str, Key], list[Candidate]]:
        """Returns the key of each sibling candidate, and the candidates in order of rank."""
        ranked = self.ranks(look, paths)
        order = {path: (look.machine.rank(path), *ranked[path][0]) for path in sorted(ranked)}
        best = sorted(order, key=lambda it: order[it], reverse=True)
        return order, [self.candidate(look.machine, it, ranked[it][1]) for it in best]

    def nobody(self) -> str:
        """Returns why the last evaluation found no victim."""
        if not self.paths:
            return f"no live group matches {self.args['cgroup'].text}"
        if self.seen and all(it.passed_over for it in self.seen):
            return "no candidate has a live task"
        return "no candidate is enough"

    def at(
        self, look: Look, path: str, candidates: list[Candidate]
    ) -> list[tuple[str, list[Candidate]]]:
        """Returns the groups that may be killed if the group at `path` is chosen: the group itself
        or, if the action is recursive, some of its descendants. Each is returned with its sibling
        candidates. The list is empty if none of these groups has a task.
        """
        machine = look.machine
        if self.is_recursive and not machine.ends_as_a_whole(path):
            children = machine.children(path)
            if children:
                return self.victims(look, children)
        return [(path, candidates)] if machine.is_populated(path) else []

    def candidate(self, machine: Machine, path: str, rank: str) -> Candidate:
        passed_over = "" if machine.is_populated(path) else "no task"
        return Candidate(path, rank, machine.preference(path), passed_over)


class BySwap(Killer):
    """The plugin `kill_by_swap_usage`. It ranks the groups whose swap is at least the threshold, by
    their swap.
    """

    def ranks(self, look: Look, paths: list[str]) -> Ranked:
        least = self.args.get("threshold", 1)
        found = {path: look.machine.swap(path) for path in paths}
        return {path: ((n,), f"swap {size(n)}") for path, n in found.items() if n >= least}


class ByPressure(Killer):
    """The plugin `kill_by_pressure`. It ranks groups by the mean of avg10 and avg60 in whole
    percent. Groups with the mean 0 are ranked, too.
    """

    def ranks(self, look: Look, paths: list[str]) -> Ranked:
        ranked: Ranked = {}
        for path in paths:
            pressure = look.machine.pressure(path, self.args["resource"])
            mean = float32(average(pressure.avg10) / 2 + average(pressure.avg60) / 2)
            both = f"avg10 {percent(pressure.avg10)}, avg60 {percent(pressure.avg60)}"
            ranked[path] = ((int(mean),), f"{both}, half of both {int(mean)} %")
        return ranked


class ByScans(Killer):
    """The plugin `kill_by_pg_scan`. It ranks groups by the number of pages scanned since the
    previous evaluation, even if that number is 0. It kills only if it also ran at the previous
    evaluation, and otherwise returns PAUSED.
    """

    def __init__(self, use: PluginUse, args: dict[str, Any]) -> None:
        super().__init__(use, args)
        self.last: int | None = None

    def run(self, look: Look) -> Result:
        is_second, self.last = self.last == look.number - 1, look.number
        return super().run(look) if is_second else Result.PAUSED

    def ranks(self, look: Look, paths: list[str]) -> Ranked:
        ranked: Ranked = {}
        for path in paths:
            pages = look.machine.scanned(path)
            rise = pages - look.scanned.get(look.machine.group(path), pages)
            ranked[path] = ((rise,), f"scanned {rise} pages since the look before")
        return ranked


class BySize(Killer):
    """The plugin `kill_by_memory_size_or_growth`. It ranks large groups first, by size. Groups that
    have grown enough follow, ranked by growth, and then all other groups by size.
    """

    def __init__(self, use: PluginUse, args: dict[str, Any]) -> None:
        super().__init__(use, args)
        self.threshold = args.get("size_threshold", DEFAULT_SIZE)
        self.percentile = args.get("growing_size_percentile", DEFAULT_PERCENTILE)
        self.ratio = float32(args.get("min_growth_ratio", DEFAULT_RATIO))

    def least_to_grow(self, machine: Machine, paths: list[str]) -> int:
        """Returns the least memory use (bytes, without the protected part) with which a group may
        be ranked by growth.
        """
        place = math.ceil(len(paths) * (WHOLE - float(self.percentile)) / WHOLE) - 1
        if place < 0:
            raise Crash(
                f"{self.place}: growing_size_percentile {self.percentile} makes oomd 0.5.0 crash"
            )
        return sorted(map(machine.effective, paths), reverse=True)[place]

    def ranks(self, look: Look, paths: list[str]) -> Ranked:
        if not paths:
            return {}
        machine = look.machine
        total = sum(map(machine.current, paths))
        limit, least = int(total * (self.threshold / WHOLE)), self.least_to_grow(machine, paths)
        ranked: Ranked = {}
        for path in paths:
            used, effective = machine.current(path), machine.effective(path)
            mean = look.average.get(machine.group(path), 0)
            growth = float32(used / mean) if mean else 0.0
            is_large = used >= limit
            is_growing = growth >= self.ratio and effective >= least
            key = (effective if is_large else 0, growth if is_growing else 0.0, effective)
            ranked[path] = (key, self.words(machine, path, total, growth, is_large, is_growing))
        return ranked

    def words(
        self,
        machine: Machine,
        path: str,
        total: int,
        growth: float,
        is_large: bool,
        is_growing: bool,
    ) -> str:
        used, protected = machine.current(path), machine.protection(path)
        share = f", {used * WHOLE // total} % of all" if total else ""
        guarded = f", {size(protected)} of it protected" if protected else ""
        if is_large:
            why = f", at least {self.threshold} %"
        else:
            why = f", grew {growth:.2f} times" if is_growing else ""
        return f"memory {size(used)}{share}{guarded}{why}"
