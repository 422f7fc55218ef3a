"""Finds when rulesets of psi_oomd fired, and what their actions did at these times."""
from __future__ import annotations

import collections
from collections.abc import Iterator
from typing import NamedTuple, Optional

from psicli.times import SECOND
from psireplay.lines import Kill
from psireplay.rules import TRUTHS, Plugin

from .choice import Choice, choice
from .evaluations import Evaluation, evaluations
from .judged import Judged
from .truths import Place


class Firing(NamedTuple):
    """A firing of a ruleset at `time_ns`: the numbers of the groups of detectors that were true,
    and what the actions did. If the ruleset was in the pause after a kill, `paused_until` is the
    end of the pause (ns), and no action ran.
    """

    time_ns: int
    ruleset: int
    groups: list[int]
    paused_until: Optional[int]
    choices: list[Choice]


class Chains:
    """The actions of each ruleset, its kills by time (ns), and the end (ns) of its pause."""

    def __init__(self, judged: Judged, kills: list[Kill]) -> None:
        self.actions = [
            [Plugin(it["name"], it["args"]) for it in ruleset["actions"]] for ruleset in judged.json
        ]
        self.kills: dict[tuple[int, int], dict[int, str]] = collections.defaultdict(dict)
        for kill in kills:
            self.kills[kill.ruleset, kill.time_ns][kill.action] = kill.path
        self.pauses: dict[int, int] = {}

    def run(self, ruleset: int, now: Evaluation) -> Iterator[Choice]:
        """Yields what each action of a firing ruleset did, up to the action that ended the firing.
        """
        kills = self.kills[ruleset, now.time_ns]
        for number, plugin in enumerate(self.actions[ruleset]):
            victim = kills.get(number)
            yield choice(number, plugin, now, victim)
            if victim is not None and plugin.args["always_continue"] not in TRUTHS:
                delay = int(plugin.args["post_action_delay"]) * SECOND
                self.pauses[ruleset] = now.time_ns + delay
                return

    def pause_end(self, ruleset: int, time_ns: int) -> Optional[int]:
        """Returns the end (ns) of the ruleset's pause, or None if it isn't in a pause at `time_ns`.
        """
        until = self.pauses.get(ruleset, 0)
        return until if time_ns < until else None


def firings(judged: Judged, kills: list[Kill]) -> list[Firing]:
    """Returns all firings in order of time. Firings at the same time are in the order of their
    rulesets.
    """
    fired = {number: set(judged.truths[Place(number)]) for number in range(len(judged.json))}
    if not any(fired.values()):
        return []
    chains, found = Chains(judged, kills), []
    for now in evaluations(judged.run.lines(), judged.of):
        for number, times_ns in fired.items():
            if now.time_ns not in times_ns:
                continue
            groups = range(len(judged.json[number]["detectors"]))
            true = [it for it in groups if now.time_ns in judged.truths[Place(number, it)]]
            until = chains.pause_end(number, now.time_ns)
            choices = [] if until else list(chains.run(number, now))
            found.append(Firing(now.time_ns, number, true, until, choices))
    return found
