"""Computes the values of detectors from a trace and from the output of a replay. The computation
follows docs/RULES.md and docs/TRACES.md, and uses no code of the tools.
"""
from __future__ import annotations

import fnmatch
from collections.abc import Iterator
from dataclasses import dataclass, field
from typing import Any, Optional

SECOND = 10**9


def covers(patterns: str, path: str) -> bool:
    """Returns whether one of the patterns of an argument `cgroup` matches a path."""
    names = [it for it in path.split("/") if it]
    for pattern in patterns.split(","):
        parts = [it for it in pattern.split("/") if it]
        if len(parts) == len(names) and all(map(fnmatch.fnmatchcase, names, parts)):
            return True
    return False


@dataclass
class Group:
    """A group since its creation. `memory` and `swap` (bytes) and `scanned` (pages) are from its
    last sample. `tasks` counts the group's own tasks, without those of its descendants. `sizes` has
    its memory (bytes) at up to four earlier evaluations, newest first. `before` has its scanned
    pages at the previous evaluation.
    """

    memory: int = 0
    swap: int = 0
    scanned: int = 0
    preference: str = "none"
    tasks: int = 0
    sizes: list[int] = field(default_factory=list)
    before: Optional[int] = None


@dataclass
class Look:
    """The state at an evaluation of the rules: the time (ns), the groups by path, the host's
    memory, swap and free swap (bytes), and the averages of `full` (hundredths of a percent) by
    path, resource and average.
    """

    moment: int
    groups: dict[str, Group]
    host: Optional[tuple[int, int, int]]
    full: dict[tuple[str, str, str], int]

    def matching(self, patterns: str) -> list[str]:
        return sorted(path for path in self.groups if covers(patterns, path))

    def is_live(self, path: str) -> bool:
        front = path.rstrip("/") + "/"
        return any(
            it.tasks for name, it in self.groups.items() if name == path or name.startswith(front)
        )

    def rise(self, path: str) -> int:
        group = self.groups[path]
        return max(0, group.scanned - group.before) if group.before is not None else 0

    def growth(self, path: str) -> Optional[float]:
        group = self.groups[path]
        total = sum(group.sizes)
        return group.memory * len(group.sizes) / total if total else None


def reports_of(printed: str) -> dict[int, dict[tuple[str, str, str], int]]:
    """Returns the averages of `full` in a replay's reports (hundredths of a percent). The first key
    is the time (ns), and the second is the path, the resource and the average's name.
    """
    found: dict[int, dict[tuple[str, str, str], int]] = {}
    head: list[str] = []
    for line in printed.splitlines():
        words = line.split()
        if words[0] == "report":
            head = words
        elif words[0] == "full":
            for word in words[1:4]:
                name, _, value = word.partition("=")
                found.setdefault(int(head[1]), {})[head[2], head[3], name] = (
                    int(value.replace(".", ""))
                )
    return found


class Replayed:
    """Applies the lines of a trace one by one, and stops at each evaluation of the rules."""

    def __init__(self, trace: str) -> None:
        self.lines = [line.split() for line in trace.splitlines()[1:]]
        self.groups = {"/": Group()}
        self.homes: dict[str, str] = {}
        self.running: dict[str, str] = {}
        self.host: Optional[tuple[int, int, int]] = None

    def take(self, verb: str, *fields: str) -> None:
        if verb == "group":
            self.groups[fields[0]] = Group()
        elif verb == "rmgroup":
            del self.groups[fields[0]]
        elif verb == "prefer":
            self.groups[fields[0]].preference = fields[1]
        elif verb == "host":
            self.host = int(fields[0]), int(fields[1]), int(fields[2])
        elif verb == "mem":
            group = self.groups[fields[0]]
            group.memory, group.swap, group.scanned = map(int, fields[1:])
        elif verb in ("fork", "move"):
            self.leave(fields[0])
            self.homes[fields[0]] = fields[1]
            self.groups[fields[1]].tasks += 1
        elif verb == "switch":
            if fields[2] == "exit":
                self.leave(self.running[fields[0]])
            self.running[fields[0]] = fields[1]

    def leave(self, task: str) -> None:
        if task in self.homes:
            self.groups[self.homes.pop(task)].tasks -= 1

    def looks(self, printed: str, tick: int, interval: int) -> Iterator[Look]:
        """Yields the state at each evaluation. `tick` is the length of a tick and `interval` the
        time between evaluations (ns). `printed` is the output of the replay.
        """
        place = 0
        for time_ns, full in sorted(reports_of(printed).items()):
            if time_ns // interval == (time_ns - tick) // interval:
                continue
            while place < len(self.lines) and int(self.lines[place][0]) <= time_ns:
                self.take(*self.lines[place][1:])
                place += 1
            yield Look(time_ns, self.groups, self.host, full)
            for group in self.groups.values():
                group.sizes = [group.memory, *group.sizes][:4]
                group.before = group.scanned


class Detector:
    """A detector, with a row for each evaluation: the time (ns), the value (None if there is none),
    the group with this value, and whether the value is beyond the limit.
    """

    def __init__(self, plugin: dict[str, Any]) -> None:
        self.name, self.args = plugin["name"], plugin["args"]
        self.rows: list[tuple[int, Optional[float], str, bool]] = []

    def take(self, look: Look) -> None:
        """Appends the row for an evaluation. If several groups match, the row has the greatest
        value. The detector `exists` has no rows.
        """
        if self.name == "exists":
            return
        if self.name == "swap_free":
            _, total, free = look.host or (0, 0, 0)
            share = 100 * free / total if total else None
            self.rows.append(
                (look.moment, share, "",
                 share is not None and share < int(self.args["threshold_pct"]))
            )
            return
        best: Optional[float] = None
        whose = ""
        for path in look.matching(self.args["cgroup"]):
            value = self.value(look, path)
            if best is None or value > best:
                best, whose = value, path
        self.rows.append((look.moment, best, whose, best is not None and best > self.limit(look)))

    def value(self, look: Look, path: str) -> float:
        if self.name == "memory_above":
            return look.groups[path].memory
        if self.name == "memory_reclaim":
            return look.rise(path)
        average = "avg60" if self.name == "pressure_rising_beyond" else "avg10"
        return look.full.get((path, self.args["resource"], average), 0) / 100

    def limit(self, look: Look) -> float:
        if self.name == "memory_reclaim":
            return 0
        text = self.args["threshold"]
        if text.endswith("%"):
            return (look.host or (0, 0, 0))[0] * int(text[:-1]) / 100
        return float(text)

    def extreme(self) -> Optional[tuple[float, int, str]]:
        """Returns the value that came nearest to the limit, or was farthest beyond it, with the
        time (ns) at which it was first reached and its group. Returns None if there is no value.
        """
        found = [
            (value, time_ns, whose) for time_ns, value, whose, _ in self.rows if value is not None
        ]
        sign = -1 if self.name == "swap_free" else 1
        return max(found, key=lambda it: (sign * it[0], -it[1])) if found else None

    def hold(self) -> int:
        """Returns the length (ns) of the longest series of consecutive evaluations at which the
        value was beyond the limit.
        """
        longest, since = 0, None
        for time_ns, _, _, is_above in self.rows:
            since = (time_ns if since is None else since) if is_above else None
            longest = max(longest, time_ns - since) if since is not None else longest
        return longest

    def is_close(self) -> bool:
        """Returns whether a printed value equals the limit. Digits that aren't printed then decide
        whether the value is beyond the limit.
        """
        return self.name.startswith("pressure") and any(
            value == float(self.args["threshold"]) for _, value, _, _ in self.rows
        )
