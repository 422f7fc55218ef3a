"""Finds the times at which detectors were true. psi_oomd replays the trace with one ruleset per
detector, which kills whenever the detector is true.

In a replay a kill changes nothing else, and an action with a post-action delay of 0 s kills at each
evaluation. So a ruleset kills exactly when its detector is true. The victim is the root, which is a
candidate as long as some task is live. Without a live task no rule can kill.
"""
from __future__ import annotations

import json
import os
import tempfile
from collections.abc import Iterator
from typing import Any, NamedTuple

from psireplay.lines import Kill, read

from psireplay.runs import Runs

# The largest number of rulesets that a rules file may have.
MOST = 64
KILL = {"name": "kill_by_memory_size_or_growth", "args": {"cgroup": "/", "post_action_delay": "0"}}
Detector = dict[str, Any]


class Place(NamedTuple):
    """Identifies a ruleset, one of its groups of detectors, or one detector of the group. Numbers
    count from 0, and -1 means all. With `held`, the detector's condition counts even if it holds
    for less than the duration. The page of a report shows these field names.
    """

    ruleset: int
    group: int = -1
    detector: int = -1
    held: bool = False


ALWAYS = Place(-1)
# For each ruleset, group of detectors and detector, the times (ns) of the evaluations at which it
# was true.
Truths = dict[Place, list[int]]


def without_duration(detector: Detector) -> Detector:
    return {**detector, "args": {**detector["args"], "duration": "0"}}


def has_duration(detector: Detector) -> bool:
    """Whether a detector's condition must hold for a duration. In memory_reclaim the argument
    `duration` has another meaning: the time for which a rise counts.
    """
    return bool(
        detector["name"] != "memory_reclaim" and detector["args"].get("duration", "0") != "0"
    )


def questions(rulesets: list[dict[str, Any]]) -> Iterator[tuple[Place, list[list[Any]]]]:
    """Yields the places to evaluate: rulesets, groups of detectors, and detectors with and without
    their durations. Each place comes with the detectors of the ruleset that is replayed for it.
    """
    yield ALWAYS, [["always"]]
    for number, ruleset in enumerate(rulesets):
        yield Place(number), ruleset["detectors"]
        for place, (name, *detectors) in enumerate(ruleset["detectors"]):
            yield Place(number, place), [[name, *detectors]]
            for which, detector in enumerate(detectors):
                yield Place(number, place, which), [[name, detector]]
                if has_duration(detector):
                    yield Place(number, place, which, True), [[name, without_duration(detector)]]


def truths(runs: Runs, rulesets: list[dict[str, Any]], trace: str, pace: list[str]) -> Truths:
    """Returns the times (ns) at which each ruleset, group of detectors and detector was true in a
    trace.
    """
    asked = list(questions(rulesets))
    found: Truths = {place: [] for place, _ in asked}
    with tempfile.TemporaryDirectory() as folder:
        for first in range(0, len(asked), MOST):
            part = asked[first : first + MOST]
            rules = {
                "rulesets": [
                    {"name": str(it), "detectors": it[1], "actions": [KILL]} for it in part
                ]
            }
            name = os.path.join(folder, "detectors.json")
            with open(name, "w", encoding="utf-8") as file:
                json.dump(rules, file)
            done = runs.program("replay", "--report-s=0", f"--rules={name}", *pace, "--", trace)
            for line in read(done.lines()):
                if isinstance(line, Kill):
                    found[part[line.ruleset][0]].append(line.time_ns)
            rules_text = json.dumps(rules)
            runs.done[-1] = done._replace(
                words=done.words.replace(name, "DETECTORS.json"), rules_text=rules_text
            )
    return found


def spans(times_ns: list[int], evaluations: list[int]) -> list[tuple[int, int]]:
    """Joins the times of consecutive evaluations into spans. Returns the first and last time (ns)
    of each span.
    """
    places = {time_ns: place for place, time_ns in enumerate(evaluations)}
    found: list[tuple[int, int]] = []
    last = -2
    for time_ns in times_ns:
        place = places[time_ns]
        found = (
            [*found[:-1], (found[-1][0], time_ns)]
            if place == last + 1
            else [*found, (time_ns, time_ns)]
        )
        last = place
    return found


def longest(times_ns: list[int], evaluations: list[int]) -> int:
    """Returns the length (ns) of the longest span of consecutive evaluations. `times_ns` are the
    times at which a detector was true.
    """
    return max((end - start for start, end in spans(times_ns, evaluations)), default=0)
