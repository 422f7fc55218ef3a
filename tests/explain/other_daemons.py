"""Compares `tools/rules explain --by oomd` and `--by systemd-oomd` with values computed from a
replay and the trace alone.

The computation follows docs/OOMD.md and docs/SYSTEMD.md, for the detectors and settings of the
examples.
"""
from __future__ import annotations

import json
import os
import re
from typing import Any, Optional

from harness import must, must_be
from shared.plain_systemd import decisions, state_at
from shared.program import TOP
from shared.rooms import LOW, LOW_RULES, RUNAWAY, RUNAWAY_RULES, Room
from explain.plain import SECOND, Look, Replayed, reports_of

SYSTEMD = os.path.join(TOP, "examples", "runaway-systemd")
# The pressure limit (hundredths of a percent) and the duration (s) for /batch in the example's
# settings of systemd-oomd.
LIMIT, LENGTH = 5000, 20
INTERVAL = 5
Share = tuple[int, int, str]


def text_of(path: str) -> str:
    with open(path, encoding="ascii") as file:
        return file.read()


def printed_of(room: Room, trace: str) -> str:
    """Returns the output of a replay with a report each second."""
    return room.run("psi_oomd", "replay", trace, "--tick-ms=1000", "--report-s=1").output


def explained(room: Room, rules: str, trace: str, by: str) -> Any:
    done = room.run("tools/rules", "explain", rules, trace, "--json", "--by", by)
    must_be(f"the status of explain --by {by}, which said {done.error}", done.status, 0)
    return done.json()


class Detector:
    """A detector of oomd, and what it found at the evaluations so far. `best` has its greatest
    value with time (ns) and group. `since` is the time (ns) since which its condition holds, or
    None. `longest` is the longest time (ns) for which the condition held.
    """

    def __init__(self, plugin: Any) -> None:
        self.name, self.args = plugin["name"], plugin["args"]
        self.best: Optional[Share] = None
        self.since: Optional[int] = None
        self.longest, self.pages, self.scanned_at = 0, 0, -(10**18)
        self.is_true = False

    def take(self, look: Look) -> None:
        paths = look.matching(self.args["cgroup"])
        duration = int(self.args["duration"])
        if self.name == "memory_reclaim":
            pages = sum(look.groups[it].scanned for it in paths)
            self.scanned_at = look.moment if pages > self.pages else self.scanned_at
            self.pages = pages
            self.is_true = (look.moment - self.scanned_at) // SECOND <= duration
            return
        value, path = self.watched(look, paths)
        if self.best is None or value > self.best[0]:
            self.best = value, look.moment, path
        is_above = value > self.limit(look)
        self.since = (look.moment if self.since is None else self.since) if is_above else None
        self.longest = max(
            self.longest, look.moment - self.since
        ) if self.since is not None else self.longest
        self.is_true = self.since is not None and look.moment - self.since >= duration * SECOND

    def watched(self, look: Look, paths: list[str]) -> tuple[int, str]:
        """Returns the detector's value and the group with that value. The value is the largest
        memory (bytes), or avg10 (hundredths of a percent) of the group with the greatest weighted
        sum of averages.
        """
        if self.name == "memory_above":
            return max(((look.groups[it].memory, it) for it in paths), key=lambda it: it[0],
                       default=(0, ""))
        resource = self.args["resource"]
        full = {
            it: [look.full.get((it, resource, f"avg{length}"), 0) for length in (10, 60, 300)]
            for it in paths
        }
        chosen = max(paths, key=lambda it: 3 * full[it][0] + 2 * full[it][1] + full[it][2],
                     default="")
        return (full[chosen][0], chosen) if chosen and any(full[chosen]) else (0, "")

    def limit(self, look: Look) -> float:
        text = self.args["threshold"]
        return (
            look.host or (0, 0, 0)
        )[0] * int(text[:-1]) / 100 if text.endswith("%") else 100 * int(text)


def compare_detector(one: Any, it: Detector) -> None:
    """Compares a detector's greatest value, the time and the group of this value, and the longest
    time for which the condition held.
    """
    must_be("the detector", one["plugin"], it.name)
    if it.name == "memory_reclaim":
        must_be("the pages", one["absent"], f"scanned {it.pages} pages at its last look")
        return
    value = one["value"] * (100 if it.name.startswith("pressure") else 1)
    must(it.best is not None, "it has a value")
    must_be(f"the greatest value of {it.name}", (round(value), one["at_ns"], one["path"]), it.best)
    must_be(f"the longest hold of {it.name}", one["longest_hold_ns"], it.longest)


def compare_act(act: Any, look: Any, args: Any) -> None:
    """Compares the share of memory that is printed for each candidate of an action with the share
    computed from the groups' memory. If the largest group reaches the action's size threshold, it
    must be the victim.
    """
    memory: dict[str, int] = {it["path"]: look[it["path"]] for it in act["candidates"]}
    total = sum(memory.values())
    for it in act["candidates"]:
        found = re.match(r"memory \S+, (\d+) % of all", it["rank"])
        must(found, f"{it} has a share")
        share = memory[it["path"]] * 100 // total
        must_be(f"the share of {it['path']}", int(found[1]), share)  # type: ignore[index]
    largest = max(memory, key=lambda path: memory[path])
    if memory[largest] * 100 >= int(args.get("size_threshold", "50")) * total:
        must_be("the victim", act["victim"], largest)


def compare_oomd(room: Room, rules: str, trace: str) -> int:
    """Compares all numbers of an explanation with the computed ones. Returns how often rulesets
    fired.
    """
    with open(rules, encoding="utf-8") as file:
        rulesets = json.load(file)["rulesets"]
    found = explained(room, rules, trace, "oomd")
    groups = [
        [[Detector(it) for it in group[1:]] for group in ruleset["detectors"]]
        for ruleset in rulesets
    ]
    true: list[list[int]] = [[] for _ in rulesets]
    memory = {}
    for look in Replayed(text_of(trace)).looks(printed_of(room, trace), SECOND, INTERVAL * SECOND):
        memory[look.moment] = {path: it.memory for path, it in look.groups.items()}
        for number, ruleset in enumerate(groups):
            for it in (it for group in ruleset for it in group):
                it.take(look)
            if any(all(it.is_true for it in group) for group in ruleset):
                true[number].append(look.moment)
    for number, part in enumerate(found["rulesets"]):
        for group, printed in zip(groups[number], part["groups"]):
            for it, one in zip(group, printed["detectors"]):
                compare_detector(one, it)
        must_be("when it fired", [it["moment_ns"] for it in part["firings"]], true[number])
        compare_rests(part["firings"],
                      int(rulesets[number].get("post_action_delay", "15")) * SECOND)
        for firing in part["firings"]:
            for act in firing["actions"]:
                compare_act(act, memory[firing["moment_ns"]],
                            rulesets[number]["actions"][act["action"]]["args"])
    return sum(map(len, true))


def compare_rests(firings: Any, delay: int) -> None:
    """After a kill the ruleset's actions don't run until its delay (ns) is over."""
    until = 0
    for it in firings:
        is_resting = it["moment_ns"] < until
        must_be(f"the rest at {it['moment_ns']}", it["rests_until_ns"],
                until if is_resting else None)
        must_be("whether actions ran", bool(it["actions"]), not is_resting)
        if any(act["victim"] for act in it["actions"]):
            until = it["moment_ns"] + delay


def check_by_oomd_from_a_replay(room: Room) -> None:
    """The explanation for oomd has the detectors, firings, delays and candidates that follow from a
    replay with ticks of one second.
    """
    must(compare_oomd(room, RUNAWAY_RULES, RUNAWAY) > 3, "the import's rules fired")
    must(compare_oomd(room, LOW_RULES, LOW) > 0, "the rules for memory fired")
    with open(RUNAWAY_RULES, encoding="utf-8") as file:
        rules = json.load(file)
    rules["rulesets"][0]["post_action_delay"] = "30"
    rules["rulesets"][0]["detectors"][0][1]["args"].update(threshold="30", duration="7")
    room.file("rules.json", json.dumps(rules))
    must(compare_oomd(room, os.path.join(room.path, "rules.json"), RUNAWAY) > 16,
         "other rules fired more often")


def compare_course(one: Any, shares: dict[int, int], path: str) -> None:
    """Compares the highest pressure, the time at which it was first reached, and the longest time
    for which the pressure was above the limit. `shares` has the pressure (hundredths of a percent)
    by time (ns).
    """
    highest = max(shares.values())
    at = next(time_ns for time_ns, share in sorted(shares.items()) if share == highest)
    longest, since = 0, None
    for time_ns, share in sorted(shares.items()):
        since = (time_ns if since is None else since) if share > LIMIT else None
        longest = max(longest, time_ns - since) if since is not None else longest
    must_be("the highest pressure", (round(one["value"] * 100), one["at_ns"], one["path"]),
            (highest, at, path))
    must_be("the longest hold", (one["longest_hold_ns"], one["duration_ns"]),
            (longest, LENGTH * SECOND))


def compare_candidates(firing: Any, text: str) -> None:
    """Compares the numbers of the candidates with the trace. A candidate has the memory and the
    swap of its last sample, and the number of pages that were scanned since the sample before.
    """
    lines = [(int(it.split()[0]), it.split()[1:]) for it in text.splitlines()[1:-1]]
    state = state_at(lines, firing["moment_ns"])
    for it in firing["actions"][0]["candidates"]:
        sample = state.read(it["path"])
        must(sample is not None, f"{it['path']} has a sample")
        sizes = [it["memory_bytes"], it["swap_bytes"]]
        must_be(f"memory and swap of {it['path']}", sizes, (sample or [])[:2])
        scans = [
            int(words[4])
            for at, words in lines
            if words[:2] == ["mem", it["path"]] and at <= firing["moment_ns"]
        ]
        must_be(f"new scans of {it['path']}", it["scanned_pages"],
                scans[-1] - (scans[-2] if len(scans) > 1 else 0))
    paths = [it["path"] for it in firing["actions"][0]["candidates"]]
    must(set(paths) == {it for it in state.leaves() if it.startswith("/batch/")},
         f"the candidates: {paths}")


def check_by_systemd_oomd_from_a_replay(room: Room) -> None:
    """The explanation for systemd-oomd has the limit, kills and candidates that follow from a
    replay with ticks of one second.
    """
    text, printed = text_of(RUNAWAY), printed_of(room, RUNAWAY)
    found = explained(room, SYSTEMD, RUNAWAY, "systemd-oomd")
    part = found["rulesets"][0]
    shares = {
        time_ns: full.get(("/batch", "memory", "avg10"), 0)
        for time_ns, full in reports_of(printed).items()
    }
    compare_course(part["groups"][0]["detectors"][0], shares, "/batch")
    fired = [it for it in part["firings"] if it["actions"]]
    killed = [(it["moment_ns"], it["actions"][0]["victim"]) for it in fired]
    wanted = kills_below(text, printed)
    must_be("the kills", killed, wanted)
    must(len(killed) > 2, f"there are some: {killed}")
    for it in fired:
        compare_candidates(it, text)


def kills_below(text: str, printed: str) -> list[tuple[int, Optional[str]]]:
    """Returns the time (ns) and the victim of each decision about memory pressure by the reference
    implementation. The reference implementation applies one limit to all groups, so the pressure of
    groups other than /batch is first set to 0.
    """
    only = re.sub(r"^(report \d+ (?!/batch memory).* memory\nsome .*\nfull) avg10=\d+\.\d\d",
                  r"\1 avg10=0.00", printed, flags=re.MULTILINE)
    return [
        (at, victim) for at, victim, why in decisions(
            text, only, LIMIT, LENGTH * SECOND
        ) if why == "memory pressure"
    ]
