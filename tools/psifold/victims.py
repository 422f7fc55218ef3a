"""Selects the groups that might be killed, by patterns like those in rules files. A folded trace
also preserves the pressure that remains without these groups.
"""
from __future__ import annotations

import json
from collections.abc import Iterator, Sequence
from itertools import combinations
from typing import Any, NamedTuple

from psicli.fault import Fault
from psiread.source import Unreadable
from psirules.patterns import is_pattern, matches

from .world import FoldWorld

# The largest number of sets of groups that are excluded. For each set, the sums take about as long
# to compute as the sums without exclusions.
MOST_REMOVALS = 64
TRUE = ("true", "True", "1", "TRUE")


class Victim(NamedTuple):
    """A pattern for the paths of groups that might be killed, and whether descendants of these
    groups might be killed too.
    """

    pattern: str
    is_recursive: bool = False

    def matches(self, path: str) -> bool:
        """Whether the group at `path` might be killed."""
        if not self.is_recursive:
            return matches(self.pattern, path)
        parts = path.split("/")
        return any(
            matches(self.pattern, "/".join(parts[:count]) or "/")
            for count in range(1, len(parts) + 1)
        )


def victims_of(text: str) -> list[Victim]:
    """Parses comma-separated patterns of groups' paths."""
    patterns = text.split(",")
    wrong = next((it for it in patterns if not is_pattern(it)), None)
    if wrong is not None:
        raise Fault(f"--victims: '{wrong}' is no pattern of groups' paths")
    return [Victim(it) for it in patterns]


def victims_of_rules(name: str) -> list[Victim]:
    """Returns patterns for the groups that the actions of a rules file may kill."""
    try:
        with open(name, "rb") as file:
            return list(victims_in(json.loads(file.read())))
    except OSError as fault:
        raise Unreadable(f"{name}: {fault.strerror}") from None
    except (ValueError, KeyError, TypeError, AttributeError):
        raise Fault(f"--rules: {name} is no rules file: psi_oomd rules says why") from None


def victims_in(rules: dict[str, Any]) -> Iterator[Victim]:
    """Yields the patterns of each action's victims."""
    for ruleset in rules["rulesets"]:
        for action in ruleset["actions"]:
            is_recursive = str(action["args"].get("recursive", "false")) in TRUE
            yield from (
                victim._replace(is_recursive=is_recursive)
                for victim in victims_of(action["args"]["cgroup"])
            )


class Victims:
    """The groups that might be killed: those that match a pattern in `wanted`. The sums of the
    remaining groups are exact for up to `whole` kills, or for any number if `whole` is None.
    """

    def __init__(self, wanted: Sequence[Victim]) -> None:
        self.wanted, self.known = wanted, dict[str, bool]()
        self.whole: int | None = None

    def matches(self, path: str) -> bool:
        """Whether the group at `path` might be killed."""
        if path not in self.known:
            self.known[path] = any(victim.matches(path) for victim in self.wanted)
        return self.known[path]

    def unmatched(self) -> list[str]:
        """Returns the patterns that have matched no group so far."""
        paths = {"/", *self.known}
        return [it.pattern for it in self.wanted if not any(map(it.matches, paths))]

    def removals(self, world: FoldWorld) -> list[tuple[int, ...]]:
        """Returns the sets of groups to exclude: all single groups, then all pairs, and so on, as
        long as there are at most MOST_REMOVALS sets. No set contains a group and its ancestor,
        since excluding the ancestor excludes both. Also sets the groups that `world` watches, and
        lowers `whole` if there are too many sets.
        """
        slots = (
            sorted(slot for path, slot in world.live.items() if self.matches(path))
            if self.wanted
            else []
        )
        world.watch(slots)
        # If the root is killed, no task remains, so the root isn't excluded.
        slots = [slot for slot in slots if slot]
        found: list[tuple[int, ...]] = []
        above = {slot: world.catalog.above(slot) for slot in slots}
        for size in range(1, len(slots) + 1):
            sets = [
                it
                for it in combinations(slots, size)
                if not any(one in above[other] for one in it for other in it)
            ]
            if len(found) + len(sets) > MOST_REMOVALS:
                self.whole = min(size - 1, self.whole if self.whole is not None else size)
                return found or [(slot,) for slot in slots[:MOST_REMOVALS]]
            found += sets
        return found
