"""Reads a rules file: the names of its rulesets and plugins, and the thresholds that a chart can
show.

The program validates the file first, so the file has the form that docs/RULES.md describes.
"""
from __future__ import annotations

import fnmatch
import json
from typing import Any, NamedTuple, Optional

from psicli.fault import Fault

from .lines import Kill
from .program import accepted_rules

TRUTHS = ("true", "True", "1")
POWERS = {"K": 1, "M": 2, "G": 3, "T": 4}


class Plugin(NamedTuple):
    """A detector or an action, with its arguments as strings."""

    name: str
    args: dict[str, str]

    def covers(self, path: str) -> bool:
        """Returns whether one of the plugin's patterns matches `path`."""
        return any(does_match(pattern, path) for pattern in self.args["cgroup"].split(","))

    def may_kill(self, path: str) -> bool:
        """Returns whether this action can choose the group `path`. This requires that one of its
        patterns matches the path or, if the action is recursive, the path of an ancestor.
        """
        above = [path[:place] for place, letter in enumerate(path) if letter == "/" and place]
        goes_down = self.args.get("recursive", "false") in TRUTHS
        return self.covers(path) or goes_down and any(self.covers(it) for it in ["/", *above])


class Ruleset(NamedTuple):
    """A ruleset: its name, the detectors of all its groups, and its actions."""

    name: str
    detectors: list[Plugin]
    actions: list[Plugin]


class Killer(NamedTuple):
    """The source of a kill: the name of the ruleset, and the name of the action's plugin."""

    ruleset: str
    plugin: str


def printable(text: str) -> str:
    """Replaces each unprintable character by U+FFFD."""
    return "".join(it if it.isprintable() else "\N{REPLACEMENT CHARACTER}" for it in text)


def does_match(pattern: str, path: str) -> bool:
    """Returns whether `pattern` matches `path`. Both must have the same number of components, and
    `*` matches any text within a component.

    fnmatch also interprets `?` and `[`, but a pattern that the program accepts contains neither.
    """
    if pattern == "/" or path == "/":
        return pattern == path
    parts, names = pattern.lstrip("/").split("/"), path[1:].split("/")
    return len(parts) == len(names) and all(map(fnmatch.fnmatchcase, names, parts))


def argument(value: Any) -> str:
    """Returns an argument as a string. Whole numbers and booleans are written as in JSON."""
    return value if isinstance(value, str) else json.dumps(value)


def plugin_of(value: Any) -> Plugin:
    args = value.get("args", {})
    return Plugin(printable(value["name"]), {key: argument(it) for key, it in args.items()})


def ruleset_of(value: Any) -> Ruleset:
    detectors = [plugin_of(it) for group in value["detectors"] for it in group[1:]]
    return Ruleset(printable(value["name"]), detectors, [plugin_of(it) for it in value["actions"]])


def unmatched(rulesets: list[Ruleset], paths: set[str]) -> list[str]:
    """Returns each pattern that matches none of `paths`, with the name of its ruleset. A detector
    or action has no effect if all its patterns are in this list.
    """
    found = []
    for ruleset in rulesets:
        patterns = [
            it
            for plugin in [*ruleset.detectors, *ruleset.actions]
            for it in plugin.args.get("cgroup", "").split(",")
            if it
        ]
        for pattern in dict.fromkeys(patterns):
            if not any(does_match(pattern, path) for path in paths):
                found.append(f"'{pattern}' of ruleset '{ruleset.name}'")
    return found


class Rules:
    """The rulesets of a rules file, in order of their numbers."""

    def __init__(self, name: str) -> None:
        """Reads a rules file. Raises a Fault if the file can't be read, or if the program rejects
        it.
        """
        self.name = name
        self.rulesets = [ruleset_of(it) for it in json.loads(accepted_rules(name))["rulesets"]]

    def killer(self, kill: Kill) -> Killer:
        """Returns the ruleset and the plugin that made a kill. Raises a Fault if these rules have
        no such action, because the replay used other rules.
        """
        ruleset = self.rulesets[kill.ruleset] if kill.ruleset < len(self.rulesets) else None
        which = f"ruleset {kill.ruleset}, action {kill.action}"
        if not ruleset or kill.action >= len(ruleset.actions):
            raise Fault(
                f"{self.name} has no {which}, which kills {kill.path}: give the rules file of this"
                " replay"
            )
        action = ruleset.actions[kill.action]
        if not action.may_kill(kill.path):
            cgroup = action.args.get("cgroup", "")
            raise Fault(
                f"{self.name}: {which} is of '{cgroup}', and the replay's kills {kill.path}: give"
                " the rules file of this replay"
            )
        return Killer(ruleset.name, action.name)


def size(text: str, host: Optional[int]) -> Optional[int]:
    """Parses a size, and returns bytes. A percentage refers to `host`, the host's memory (bytes).
    Returns None for a percentage if `host` is None.
    """
    if text.endswith("%"):
        return None if host is None else host * int(text[:-1]) // 100
    power = POWERS.get(text[-1].upper(), 0)
    whole, _, part = (text[:-1] if power else text).partition(".")
    thousandths = int(whole + part.ljust(3, "0"))
    return int(thousandths * 1024**power // 1000)
