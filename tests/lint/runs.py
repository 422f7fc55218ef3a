"""Runs tools/rules lint, and makes rules files for these runs."""
from __future__ import annotations

import json
import os
from collections.abc import Mapping

from shared.program import TOP
from shared.rooms import Done, Room

RULES = "tools/rules"
EMPTY = "psitrace 1 cpus=1\n0 end\n"
DEBIAN = os.path.join(TOP, "tests", "oomd", "oomd.json")
BARE = {"cgroup": "a", "duration": "1"}
DEFAULTS: dict[str, dict[str, str]] = {
    "pressure_above": {**BARE, "resource": "io", "threshold": "1"},
    "pressure_rising_beyond": {**BARE, "resource": "io", "threshold": "1"},
    "memory_above": {**BARE, "threshold": "1G"},
    "memory_reclaim": BARE,
    "swap_free": {"threshold_pct": "1"},
    "exists": {"cgroup": "a"},
    "kill_by_memory_size_or_growth": {"cgroup": "a"},
    "kill_by_swap_usage": {"cgroup": "a"},
    "kill_by_pressure": {"cgroup": "a", "resource": "io"},
    "kill_by_pg_scan": {"cgroup": "a"},
}


def rules_of(plugin: str, args: Mapping[str, object], **more: object) -> str:
    """Returns a rules file whose only plugin is `plugin` with the arguments `args`. `more` adds
    keys to the ruleset.
    """
    it = {"name": plugin, "args": args}
    is_action = plugin.startswith("kill_")
    detectors = ["g", {"name": "exists", "args": {"cgroup": "a"}} if is_action else it]
    ruleset: dict[str, object] = {
        "name": "r", "detectors": [detectors], "actions": [it] if is_action else []
    }
    ruleset.update(more)
    return json.dumps({"rulesets": [ruleset]})


def lint(room: Room, text: str | bytes, *words: str) -> Done:
    return room.run(RULES, "lint", room.file("rules.json", text), *words)


def is_taken(room: Room, text: str | bytes) -> bool:
    """Returns whether psi_oomd accepts this rules file."""
    return room.run(
        "psi_oomd", "replay", "-", "--rules", room.file("taken.json", text), stdin=EMPTY
    ).status == 0
