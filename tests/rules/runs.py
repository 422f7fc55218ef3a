"""Runs tools/rules expect, and makes the rules files for these runs."""
from __future__ import annotations

import json

from shared.rooms import RUNAWAY, RUNAWAY_RULES, Done, Room

RULES = "tools/rules"
KILLER = "ruleset 0 'memory', action 0 'kill_by_memory_size_or_growth'"


def rules_text(**changes: object) -> str:
    """Returns the rules of the example `runaway`, with the ruleset name `memory`. `changes`
    replaces arguments of the detector and keys of the ruleset.
    """
    with open(RUNAWAY_RULES, encoding="utf-8") as file:
        rules = json.load(file)
    ruleset = rules["rulesets"][0]
    ruleset["name"] = "memory"
    for name, value in changes.items():
        (ruleset if name in ruleset else ruleset["detectors"][0][1]["args"])[name] = value
    return json.dumps(rules)


def memory_rules(name: str, pattern: str, delay: int) -> str:
    """Returns a ruleset that fires at each evaluation and kills the largest group that matches
    `pattern`. `delay` is the time (s) after a kill in which it doesn't kill again.
    """
    action = {
        "name": "kill_by_memory_size_or_growth",
        "args": {"cgroup": pattern, "post_action_delay": delay},
    }
    return json.dumps(
        {"rulesets": [{"name": name, "detectors": [["always"]], "actions": [action]}]}
    )


def expect(room: Room, want: str, *words: str, rules: str = "rules.json", **more: str) -> Done:
    room.file("want.txt", want)
    return room.run(RULES, "expect", "want.txt", *(words or (RUNAWAY,)), "--rules", rules, **more)
