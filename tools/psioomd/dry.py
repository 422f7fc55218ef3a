"""Makes a dry copy of a configuration: no action kills, and the name of each ruleset contains the
ruleset's number.
"""
from __future__ import annotations

import json
from typing import Any

from psioomd.configuration import Configuration, items

HARMLESS = {
    "continue", "stop", "exists", "pressure_above", "pressure_rising_beyond", "memory_above",
    "memory_reclaim", "swap_free", "dump_cgroup_overview", "nr_dying_descendants", "senpai",
}  # fmt: skip
"""The plugins that can't kill. Each other plugin gets the argument `dry`."""
SILENCES = "silence-logs"


def numbered(number: int, name: object) -> str:
    return f"#{number} {name}"


def make_dry(plugin: Any) -> Any:
    """Returns the plugin, with the argument `dry` unless the plugin is in HARMLESS."""
    if not isinstance(plugin, dict) or plugin.get("name") in HARMLESS:
        return plugin
    args = plugin.get("args")
    return {**plugin, "args": {**(args if isinstance(args, dict) else {}), "dry": "true"}}


def dry_group(number: int, group: Any) -> Any:
    if not isinstance(group, list) or not group or not isinstance(group[0], str):
        return group
    return [numbered(number, group[0]), *map(make_dry, group[1:])]


def dry_ruleset(ruleset: Any, name: str) -> Any:
    """Returns a copy of a ruleset with the name `name`. The copy doesn't silence logs, since the
    kills are parsed from oomd's log.
    """
    if not isinstance(ruleset, dict):
        return ruleset
    found = {key: value for key, value in ruleset.items() if key != SILENCES}
    found["name"] = name
    groups = [dry_group(at, it) for at, it in enumerate(items(ruleset.get("detectors")))]
    actions = [make_dry(it) for it in items(ruleset.get("actions"))]
    for key, value in (("detectors", groups), ("actions", actions)):
        if key in found:
            found[key] = value
    return found


def copy(base: Configuration) -> bytes:
    """Returns the dry copy of a configuration, without prekill hooks."""
    data = base.data if isinstance(base.data, dict) else {}
    names = [numbered(at, it.name) for at, it in enumerate(base.rulesets)]
    rulesets = [dry_ruleset(it, name) for it, name in zip(items(data.get("rulesets")), names)]
    return json.dumps({"rulesets": rulesets}).encode()


def drop_in_copy(base: Configuration, part: Configuration) -> bytes:
    """Returns the dry copy of a drop-in file. It uses the new names of the rulesets."""
    names: dict[str, str] = {}
    for at, it in enumerate(base.rulesets):
        names.setdefault(it.name, numbered(at, it.name))
    found = items(part.data.get("rulesets")) if isinstance(part.data, dict) else []
    rulesets = [
        dry_ruleset(it, names.get(use.name, use.name)) for it, use in zip(found, part.rulesets)
    ]
    return json.dumps({"rulesets": rulesets}).encode()
