"""Finds the argument of a rules file that a text such as `ruleset/plugin.argument` refers to. The
text gives the ruleset and the plugin by name or by number, counted from 0.
"""
import copy
import json
import re
from collections.abc import Iterator
from dataclasses import dataclass
from typing import Any

from psicli.fault import Fault
from psicli.wording import listed, quoted
from psirules.plugins import ACTIONS, DETECTORS, Plugin
from psirules.rules_file import RulesFile

ACTIONS_WORD = "actions"
DELAY = "post_action_delay"


@dataclass(frozen=True)
class Place:
    """A plugin or a ruleset in a rules file. `way` is the path of keys and indices to it. `numbers`
    and `names` identify it: by its ruleset and, for a plugin, also by its detector group or
    `actions` and by the plugin itself. `plugin` is None for a ruleset.
    """

    way: tuple[str | int, ...]
    numbers: tuple[str, ...]
    names: tuple[str, ...]
    plugin: Plugin | None

    def spelled(self) -> str:
        return "/".join(self.numbers)

    def text(self) -> str:
        return f"{self.spelled()} ({' / '.join(map(quoted, self.names))})"

    def is_meant(self, parts: list[str]) -> bool:
        """Whether `parts` identify this place. They are the ruleset, the detector's group or
        `actions` (which may be left out), and the plugin, each by name or number.
        """
        own = list(zip(self.names, self.numbers))
        ways = [own] if len(own) != 3 else [own, [own[0], own[2]]]
        return any(
            len(parts) == len(way) and all(part in it for part, it in zip(parts, way))
            for way in ways
        )

    def arguments(self) -> list[str]:
        return self.plugin.arguments() if self.plugin else [DELAY]

    def put(self, rules: dict[str, Any], argument: str, value: str) -> None:
        """Sets an argument of this place in `rules`."""
        at: Any = rules
        for step in self.way:
            at = at[step]
        (at.setdefault("args", {}) if self.plugin else at)[argument] = value


def places(rules: RulesFile) -> Iterator[Place]:
    """Yields the places of all rulesets and plugins in the file."""
    for number, ruleset in enumerate(rules.rulesets):
        way: tuple[str | int, ...] = ("rulesets", number)
        yield Place(way, (str(number),), (ruleset["name"],), None)
        for group, (name, *items) in enumerate(ruleset["detectors"]):
            for item, plugin in enumerate(items):
                numbers = (str(number), str(group), str(item))
                names = (ruleset["name"], name, plugin["name"])
                yield Place(
                    (*way, "detectors", group, item + 1), numbers, names, DETECTORS[plugin["name"]]
                )
        for item, plugin in enumerate(ruleset["actions"]):
            numbers = (str(number), ACTIONS_WORD, str(item))
            names = (ruleset["name"], ACTIONS_WORD, plugin["name"])
            yield Place((*way, "actions", item), numbers, names, ACTIONS[plugin["name"]])


def splits(text: str) -> Iterator[list[str]]:
    """Yields all ways to split `text` at up to two of its slashes, since names may contain slashes.
    """
    pieces = text.split("/")
    yield [text]
    for one in range(1, len(pieces)):
        yield ["/".join(pieces[:one]), "/".join(pieces[one:])]
        for two in range(one + 1, len(pieces)):
            yield ["/".join(pieces[:one]), "/".join(pieces[one:two]), "/".join(pieces[two:])]


def find(rules: RulesFile, text: str) -> tuple[Place, str]:
    """Finds the place and the argument that a text `ruleset/plugin.argument` refers to. Raises a
    Fault unless exactly one place matches, and has such an argument.
    """
    name, _, argument = text.rpartition(".")
    if not name:
        raise Fault(f"{quoted(text)} names no argument: write 'ruleset/detector.threshold'")
    parts = list(splits(name))
    found = [place for place in places(rules) if place.spelled() == name]
    found = found or [place for place in places(rules) if any(place.is_meant(it) for it in parts)]
    if len(found) > 1:
        choices = "; ".join(f"{place.spelled()}.{argument} for {place.text()}" for place in found)
        raise Fault(f"{quoted(name)} is ambiguous in {rules.name}: write {choices}")
    if not found:
        choices = "; ".join(place.text() for place in places(rules) if place.plugin)
        raise Fault(f"{rules.name} has no {quoted(name)}: it has {choices or 'no plugin'}")
    if argument not in found[0].arguments():
        known = listed(found[0].arguments())
        raise Fault(f"{found[0].text()} has no argument {quoted(argument)}: it has {known}")
    return found[0], argument


def changed(rules: RulesFile, values: list[tuple[Place, str, str]]) -> bytes:
    """Returns the bytes of the rules file with new values of some arguments."""
    data = copy.deepcopy(rules.data)
    for place, argument, value in values:
        place.put(data, argument, value)
    return json.dumps(data).encode()


def is_number(text: str) -> bool:
    return bool(re.fullmatch(r"[0-9]{1,15}(?:\.[0-9]{1,3})?", text))
