"""Defines which thresholds and durations of detectors `suggest` varies, and finds the kills for
each set of values.
"""
from __future__ import annotations

import copy
import json
from abc import ABC, abstractmethod
from collections.abc import Iterator, Mapping
from dataclasses import dataclass, replace
from typing import Any

from psicli.fault import Fault
from psicli.times import SECOND
from psicli.wording import quoted
from psirules import by_oomd, by_systemd
from psirules.by_oomd import ByOomd
from psirules.by_systemd import BySystemd
from psirules.program import Kill, Program
from psirules.relaxed import Reading
from psirules.replays import Traces, accepted
from psirules.rules_file import RulesFile, bytes_of, temporary_rules
from psisystemd.replayed import kills_of, replayed
from psisystemd.settings import Settings

PRESSURE = ("pressure_above", "pressure_rising_beyond")
MOST_PERCENT = 100
# The largest number of rulesets in a rules file of psi_oomd.
MOST_RULESETS = 64
# An action of oomd that kills only after a second evaluation, so an earlier firing may lead to a
# later kill.
WAITS = "kill_by_pg_scan"
Found = list[list[Kill] | Fault]


@dataclass(frozen=True)
class Knob:
    """A number of a detector that is varied: a description of its place, its argument, the largest
    sensible value, the value in the file, and the unit. `way` is the path of keys and indices to
    the number.
    """

    place: str
    argument: str
    most: int
    present: int
    unit: str
    way: tuple[int | str, ...]

    def spelled(self) -> str:
        return f"{self.place} {self.argument}"


Values = Mapping[Knob, int]


class Subject(ABC):
    """Rules whose numbers are varied, together with the program that evaluates them."""

    rules: RulesFile
    # The number of sets of values that one replay can evaluate.
    at_once = 1

    @abstractmethod
    def knobs(self, longest: int) -> Iterator[Knob]:
        """Yields the numbers that can be varied. `longest` is the length (s) of the longest trace,
        and the largest sensible duration.
        """

    @abstractmethod
    def kills(self, values: Values, traces: Traces) -> Found:
        """Returns the kills in each trace if the numbers have these values."""

    def kills_of_each(self, many: list[Values], traces: Traces) -> list[Found]:
        """Returns the kills in each trace, for each set of values."""
        return [self.kills(values, traces) for values in many]

    @abstractmethod
    def text(self, values: Values) -> bytes:
        """Returns the bytes of the rules file with these values."""

    def is_monotone(self) -> bool:
        """Whether a lower threshold or duration never delays the first kill."""
        return True


def detector_knobs(rulesets: Any, longest: int) -> Iterator[Knob]:
    """Yields the percentage thresholds and the durations of detectors for pressure and memory."""
    for number, ruleset in enumerate(rulesets):
        for group, items in enumerate(ruleset["detectors"]):
            for item, plugin in enumerate(items):
                if not isinstance(plugin, dict) or plugin.get("name") not in (
                    *PRESSURE,
                    "memory_above",
                ):
                    continue
                place = f"ruleset {number} {quoted(str(ruleset['name']))}, {plugin['name']}"
                place += f" of {plugin['args'].get('cgroup', '')}"
                way = (number, "detectors", group, item, "args")
                threshold = str(plugin["args"].get("threshold", ""))
                if plugin["name"] in PRESSURE or threshold.endswith("%"):
                    present = int(threshold.rstrip("%"))
                    yield Knob(place, "threshold", MOST_PERCENT, present, "%", (*way, "threshold"))
                duration = int(plugin["args"]["duration"])
                yield Knob(
                    place, "duration", max(longest, duration), duration, "s", (*way, "duration")
                )


def changed(data: Any, values: Values) -> bytes:
    """Returns the bytes of a rules file: its parsed contents `data` with the new numbers `values`.
    """
    data = copy.deepcopy(data)
    for knob, value in values.items():
        at = data["rulesets"]
        for step in knob.way[:-1]:
            at = at[step]
        before = str(at[knob.way[-1]])
        at[knob.way[-1]] = f"{value}%" if before.endswith("%") else str(value)
    return json.dumps(data, indent=1).encode() + b"\n"


class OwnRules(Subject):
    """Rules that psi_oomd evaluates."""

    def __init__(self, program: Program, rules: RulesFile) -> None:
        self.program, self.rules = program, rules
        self.at_once = max(1, MOST_RULESETS // max(1, len(rules.rulesets)))

    def knobs(self, longest: int) -> Iterator[Knob]:
        return detector_knobs(self.rules.rulesets, longest)

    def kills(self, values: Values, traces: Traces) -> Found:
        (found,) = self.kills_of_each([values], traces)
        return found

    def kills_of_each(self, many: list[Values], traces: Traces) -> list[Found]:
        """Returns the kills in each trace, for each set of values. One replay evaluates many sets,
        since neither rulesets nor kills affect other rulesets in a replay.
        """
        step = self.at_once
        parts = [many[start : start + step] for start in range(0, len(many), step)]
        return [found for part in parts for found in self.kills_side_by_side(part, traces)]

    def kills_side_by_side(self, many: list[Values], traces: Traces) -> list[Found]:
        """Returns the kills in each trace, for each set of values, from a single replay. The
        rulesets of all sets must fit into one rules file.
        """
        rulesets = [it for values in many for it in json.loads(self.text(values))["rulesets"]]
        data = {**self.rules.data, "rulesets": rulesets}
        with temporary_rules(json.dumps(data).encode(), self.rules.name) as file:
            (found,) = traces.replays(self.program, [file])
        return [
            [own_kills(of_trace, number, len(self.rules.rulesets)) for of_trace in found]
            for number in range(len(many))
        ]

    def text(self, values: Values) -> bytes:
        return changed(self.rules.data, values)


def own_kills(found: list[Kill] | Fault, number: int, count: int) -> list[Kill] | Fault:
    """Selects the kills of copy `number` from a replay with several copies of `count` rulesets.
    Restores the rulesets' numbers in the original file.
    """
    if isinstance(found, Fault):
        return found
    return [
        replace(it, ruleset=it.ruleset % count) for it in found if it.ruleset // count == number
    ]


class OomdRules(Subject):
    """A configuration of oomd, evaluated by oomd's algorithm."""

    def __init__(self, program: Program, name: str, interval: int | None) -> None:
        self.program, self.interval = program, interval
        self.rules = ByOomd(name)
        self.data = Reading(bytes_of(name)).data

    def knobs(self, longest: int) -> Iterator[Knob]:
        return detector_knobs(self.data["rulesets"], longest)

    def kills(self, values: Values, traces: Traces) -> Found:
        with temporary_rules(self.text(values), self.rules.name) as file:
            return by_oomd.replays(self.program, file.path, self.interval, traces)

    def text(self, values: Values) -> bytes:
        return changed(self.data, values)

    def is_monotone(self) -> bool:
        actions = [it for ruleset in self.rules.rulesets for it in ruleset["actions"]]
        return all(it["name"] != WAITS for it in actions)


class SystemdSettings(Subject):
    """The memory pressure limits and durations of systemd-oomd for each watched group of some
    traces.
    """

    def __init__(
        self, program: Program, folder: str, version: int | None, groups: set[str]
    ) -> None:
        self.program, self.folder, self.version = program, folder, version
        self.rules = BySystemd(folder)
        settings = Settings(folder, version)
        self.watched = {
            path: settings.watched(path)
            for path in sorted(groups)
            if settings.watched(path).pressure
        }

    def knobs(self, longest: int) -> Iterator[Knob]:
        for path, it in self.watched.items():
            yield Knob(
                path,
                "ManagedOOMMemoryPressureLimit",
                MOST_PERCENT,
                it.limit // 100,
                "%",
                (path, "limit"),
            )
            seconds = it.duration // SECOND
            yield Knob(
                path,
                "ManagedOOMMemoryPressureDurationSec",
                max(longest, seconds),
                seconds,
                "s",
                (path, "duration"),
            )

    def settings(self, values: Values) -> Settings:
        """Returns the settings with these limits and durations."""
        found = Settings(self.folder, self.version)
        for knob, value in values.items():
            path, field = str(knob.way[0]), str(knob.way[1])
            number = value * 100 if field == "limit" else max(1, value) * SECOND
            found.watches[path] = replace(found.watched(path), **{field: number})
        return found

    def kills(self, values: Values, traces: Traces) -> Found:
        def replay(trace: str, threads: int) -> list[Kill]:
            return kills_of(replayed(self.program, trace, self.settings(values), threads).decisions)

        return traces.each(replay)

    def text(self, values: Values) -> bytes:
        lines = [
            f"# {knob.place}\n{knob.argument}={value}{knob.unit}" for knob, value in values.items()
        ]
        return "\n".join([*lines, ""]).encode()


def subject(
    program: Program,
    by: str,
    name: str,
    interval: int | None,
    version: int | None,
    groups: set[str],
    files: Any,
) -> Subject:
    """Returns the rules in the file or folder `name`. `by` is the name of the program that
    evaluates them. `interval` is oomd's evaluation interval (s), or None for its default. For
    systemd-oomd, `version` is the version of systemd, and `groups` has the paths of the traces'
    groups.
    """
    if by == by_systemd.NAME:
        return SystemdSettings(program, name, version, groups)
    if by == by_oomd.NAME:
        return OomdRules(program, name, interval)
    rules, _ = accepted(
        program, name, files, "RULES --incidents TRACE .., with a rules file for RULES"
    )
    return OwnRules(program, rules)
