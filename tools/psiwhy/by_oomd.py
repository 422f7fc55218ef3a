"""Explains why rulesets of oomd 0.5.0 fired or didn't."""
from __future__ import annotations

from typing import Optional

from psicli.times import SECOND, time_text
from psicli.wording import quoted
from psioomd.detectors import Above, MemoryAbove, Nearest, Reclaim, Rising, SwapFree
from psioomd.engine import Engine, Ruleset
from psioomd.outcome import Act, Fired
from psioomd.plugin import Duration, Plugin
from psisystemd.told import size
from psisystemd.values import percent

from .choice import Candidate, Choice
from .explanation import Extreme, Firing, Measure, Miss, Part

NO_VALUE = "oomd never looked"


def extreme(
    most: Nearest, shown: str, limit: Optional[float], limit_shown: str, unit: str
) -> Optional[Extreme]:
    """Returns the value of a detector that came nearest to its limit, or None if the detector was
    never evaluated.
    """
    if most.value is None:
        return None
    word = "highest" if most.sign > 0 else "lowest"
    value = most.value / 100 if unit == "percent" else most.value
    return Extreme(word, value, shown, limit, limit_shown, unit, most.time_ns, most.path)


def lasting(duration: Duration) -> str:
    return f" for {duration.seconds} s" if duration.seconds else ""


def measure(it: Plugin) -> Measure:
    """Describes a detector, with the value that came nearest to its threshold."""
    cgroup = it.args["cgroup"].text if "cgroup" in it.args else ""
    if isinstance(it, Above):
        average = "60 s, and over 10 s," if isinstance(it, Rising) else "10 s"
        limit = f"above {it.threshold} %{lasting(it.duration)}"
        wanted = f"{cgroup}: full {it.resource} pressure over {average} {limit}"
        shown = percent(it.most.value or 0)
        found = extreme(it.most, shown, it.threshold, f"{it.threshold} %", "percent")
        return timed_measure(it, wanted, found, it.duration)
    if isinstance(it, MemoryAbove):
        wanted = f"{cgroup}: memory above {size(it.threshold)}{lasting(it.duration)}"
        found = extreme(
            it.most, size(it.most.value or 0), it.threshold, size(it.threshold), "bytes"
        )
        return timed_measure(it, wanted, found, it.duration)
    if isinstance(it, SwapFree):
        shown, wanted = size(it.least.value or 0), f"less than {size(it.limit)} of the swap is free"
        found = extreme(it.least, f"{shown} free", it.limit, size(it.limit), "bytes")
        return Measure(it.name, wanted, found, "" if found else NO_VALUE, None, None, None)
    if isinstance(it, Reclaim):
        wanted = f"{cgroup}: pages were scanned within {it.args['duration']} s"
        return Measure(
            it.name, wanted, None, f"scanned {it.pages} pages at its last look", None, None, None
        )
    return Measure(it.name, cgroup, None, "it measures nothing", None, None, None)


def timed_measure(it: Plugin, wanted: str, found: Optional[Extreme], duration: Duration) -> Measure:
    absent = "" if found else NO_VALUE
    return Measure(
        it.name, wanted, found, absent, duration.longest, duration.seconds * SECOND, None
    )


def miss_at(it: Measure) -> Optional[Miss]:
    """Returns how near a detector came to being true. Returns None if the detector has no
    threshold, or never had a value.
    """
    if it.extreme is None or not it.extreme.limit:
        return None
    value, limit = it.extreme.value, it.extreme.limit
    part = value / limit if it.extreme.word == "highest" else limit / value if value else 1.0
    part = min(1.0, part)
    duration = it.duration or 0
    hold = min(1.0, (it.hold or 0) / duration) if duration else float(part >= 1.0)
    return Miss(part, hold, f"{it.plugin}: {it.line()}")


def miss_of(ruleset: Ruleset, groups: list[tuple[str, list[Measure]]]) -> Optional[Miss]:
    """Returns how near a ruleset came to firing, or None if it fired. A ruleset came as near as its
    nearest group of detectors. A group came as near as the detector that was farthest from being
    true.
    """
    if ruleset.fired:
        return None
    near = [[miss for miss in map(miss_at, measures) if miss] for _, measures in groups]
    farthest = [min(it, key=lambda miss: miss.key) for it in near if it]
    if not farthest:
        return Miss(0.0, 0.0, "nothing that it watches has a distance")
    best = max(farthest, key=lambda miss: miss.key)
    if best.key == (1.0, 1.0):
        return best._replace(
            text="its detectors were each true at some time, or measure nothing, but not at once"
        )
    return best


def choice(act: Act) -> Choice:
    """Describes an action with its candidates. The victim is the first of them."""
    found = []
    for it in act.candidates:
        is_chosen = act.victim is not None and it.path == act.victim.path
        equal = act.victim is not None and it.path in act.victim.equals
        other = (
            "equal in rank, so oomd may kill it instead"
            if equal
            else "ranked lower"
            if act.victim
            else ""
        )
        reason = "ranked first" if is_chosen else it.passed_over or other
        wish = "" if it.preference == "none" else it.preference
        text = ", ".join(filter(None, [it.rank, wish]))
        found.append(
            Candidate(
                it.path, text, {"rank": it.rank, "preference": it.preference}, is_chosen, reason
            )
        )
    ordered = sorted(found, key=lambda it: not it.is_chosen)
    return Choice(
        act.action, act.plugin, act.victim.path if act.victim else None, act.nobody, ordered
    )


def firing(it: Fired) -> Firing:
    return Firing(it.time_ns, it.why, it.paused_until, [choice(act) for act in it.acts])


def part(ruleset: Ruleset) -> Part:
    """Describes a ruleset with its detectors and firings."""
    groups = [
        (f"group {number} {quoted(name)}", [measure(it) for it in detectors])
        for number, (name, detectors) in enumerate(ruleset.groups)
    ]
    name = f"ruleset {ruleset.number} {quoted(ruleset.name)}"
    name += f", of {ruleset.drop_in}" if ruleset.drop_in else ""
    fired = [firing(it) for it in ruleset.fired]
    return Part(name, groups, fired, miss_of(ruleset, groups))


def parts(engine: Engine) -> list[Part]:
    """Describes all rulesets that `engine` evaluated."""
    return [part(it) for it in engine.rulesets]


def notes(engine: Engine) -> list[str]:
    """Returns notes that limit the explanation's validity, for example a crash of oomd."""
    crash = [f"oomd crashes at {time_text(engine.last)}: {engine.crash}"] if engine.crash else []
    return [*engine.notes.texts, *crash]
