"""Explains why systemd-oomd killed a group or didn't. It explains the memory pressure of each
watched group, and the use of swap.
"""
from __future__ import annotations

from typing import Optional

from psicli.times import seconds
from psisystemd.engine import Engine
from psisystemd.settings import Settings
from psisystemd.told import MEMORY_PRESSURE, SWAP, Candidate, Course, Decision
from psisystemd.values import percent

from . import choice
from .explanation import Extreme, Firing, Measure, Miss, Part

KILL = "kill"


def candidate(it: Candidate, decision: Decision) -> choice.Candidate:
    """Describes a candidate of a decision, with the reason why systemd-oomd chose it or didn't."""
    is_chosen = it.path == decision.victim
    wish = "" if it.preference == "none" else it.preference
    reason = (
        "ranked first"
        if is_chosen
        else it.passed_over or ("ranked lower" if decision.victim else "")
    )
    text = it.text(decision.by, decision.span).removesuffix(f", {it.passed_over or wish}")
    numbers: choice.Numbers = {
        "scanned_pages": it.scanned, "memory_bytes": it.memory, "swap_bytes": it.swap,
        "preference": it.preference,
    }  # fmt: skip
    return choice.Candidate(
        it.path, ", ".join(filter(None, [text, wish])), numbers, is_chosen, reason
    )


def firing(decision: Decision) -> Firing:
    """Describes a decision: the killed group, or the reason why no group was killed."""
    found = sorted(
        (candidate(it, decision) for it in decision.candidates), key=lambda it: not it.is_chosen
    )
    why, _, nobody = decision.why.partition("; but ")
    outcome = choice.Choice(0, KILL, decision.victim, nobody, found)
    return Firing(decision.time_ns, [why], None, [outcome])


def course_measure(it: Course) -> Measure:
    """Describes how near the memory pressure of a watched group came to its limit."""
    limit, name = percent(it.limit), f"full memory pressure over 10 s of {it.path}"
    found = Extreme(
        "highest",
        it.most / 100,
        percent(it.most),
        it.limit / 100,
        limit,
        "percent",
        it.most_at,
        it.path,
    )
    wanted = f"{name} above {limit} for {seconds(it.duration)} s"
    return Measure(MEMORY_PRESSURE, wanted, found, "", it.longest or 0, it.duration, None)


def course_miss(it: Course) -> Miss:
    """Returns how near a watched group came to a kill, for a group that never led to a decision."""
    part = min(1.0, it.most / it.limit) if it.limit else 1.0
    duration_part = min(1.0, (it.longest or 0) / it.duration) if it.duration else 0.0
    far = (
        f"{percent(it.limit - it.most)} below"
        if it.most <= it.limit
        else f"{seconds(it.duration - (it.longest or 0))} s too short"
    )
    return Miss(part, duration_part, f"{course_measure(it).line()}: {far}")


def pressure_part(engine: Engine, path: str) -> Part:
    """Describes the memory pressure of the watched group at `path`: its course, the kills that
    systemd-oomd decides on because of it, and the times at which such a kill is delayed by a pause
    after an earlier kill.
    """
    course = engine.pressure.courses[path]
    decided = [
        firing(it) for it in engine.decisions if it.by == MEMORY_PRESSURE and it.watched == path
    ]
    paused = [
        Firing(time_ns, [f"memory pressure of {path}"], until, [])
        for time_ns, whose, until in engine.pressure.paused
        if whose == path
    ]
    fired = sorted([*decided, *paused], key=lambda it: it.time_ns)
    miss = None if fired else course_miss(course)
    return Part(f"{MEMORY_PRESSURE} of {path}", [("", [course_measure(course)])], fired, miss)


def swap_part(engine: Engine, settings: Settings) -> Optional[Part]:
    """Describes the use of swap. Returns None if no unit is watched for swap."""
    rule, limit = engine.swap, settings.limits.swap_used
    if not rule.was_watched:
        return None
    share, memory, time_ns = rule.most
    absent = "the machine has no swap" if rule.is_absent else "the trace doesn't contain it"
    wanted = f"more than {percent(limit)} of memory and of swap are used"
    found = Extreme(
        "highest",
        share / 100,
        f"{percent(share)} of swap",
        limit / 100,
        percent(limit),
        "percent",
        time_ns,
        "",
    )
    at_most = f"with {percent(memory)} of memory" if share >= 0 else ""
    measure = Measure(
        SWAP,
        ", ".join(filter(None, [wanted, at_most])),
        found if share >= 0 else None,
        absent,
        None,
        None,
        None,
    )
    fired = [firing(it) for it in engine.decisions if it.by == SWAP]
    part = min(1.0, share / limit) if limit and share > 0 else 0.0
    miss = None if fired else Miss(part, 0.0, measure.line())
    return Part(SWAP, [("", [measure])], fired, miss)


def parts(engine: Engine, settings: Settings) -> list[Part]:
    """Describes the memory pressure of each watched group, and then the use of swap."""
    found = [pressure_part(engine, path) for path in sorted(engine.pressure.courses)]
    swap = swap_part(engine, settings)
    return [*found, swap] if swap else found
