"""Explains why rulesets of psi_oomd fired or didn't."""
from __future__ import annotations

from typing import Any, NamedTuple, Optional

from psicli.times import SECOND, time_text
from psicli.wording import quoted
from psireplay.lines import Kill
from psireplay.rules import printable, size

from .explanation import Extreme, Firing, Measure, Miss, Part
from .firings import firings
from .judged import Judged
from .nearness import PRESSURE, Watch, mebibytes, share
from .truths import Place, has_duration, longest, spans


class Near(NamedTuple):
    """How near a detector, a group of detectors or a ruleset came to being true. `part` and
    `duration_part` are the reached fractions of the threshold and of the duration, from 0 to 1.
    `watch` is the detector that was farthest from being true, and `hold` the longest time (ns) for
    which its condition held. The nearer of two has the greater `key`.
    """

    part: float
    duration_part: float
    watch: Optional[Watch] = None
    hold: int = 0

    @property
    def key(self) -> tuple[float, float]:
        return self.part, self.duration_part


NEVER, TRUE = Near(0.0, 0.0), Near(1.0, 1.0)


def hold_of(judged: Judged, place: Place, detector: dict[str, Any]) -> int:
    """Returns the longest time (ns) for which a detector's condition held. Ignores the detector's
    duration.
    """
    if detector["name"] == "pressure_rising_beyond":
        return judged.watches[place[:3]].hold
    instant = place._replace(held=True) if has_duration(detector) else place
    return longest(judged.truths[instant], judged.evaluations)


def detector_near(judged: Judged, place: Place, detector: dict[str, Any]) -> Near:
    """Returns how near a detector came to being true. The detector must not be `exists`, which has
    no threshold.
    """
    watch = judged.watches[place[:3]]
    if judged.truths[place]:
        return TRUE._replace(watch=watch)
    hold = hold_of(judged, place, detector)
    duration = int(detector["args"].get("duration", "0")) * SECOND
    duration_part = min(1.0, hold / duration) if duration else 0.0
    return Near(watch.part(judged.host), duration_part, watch, hold)


def group_near(judged: Judged, ruleset: int, group: int) -> Near:
    """Returns how near a group of detectors came to being true: as near as the detector that was
    farthest from it. Ignores detectors `exists`.
    """
    detectors = judged.json[ruleset]["detectors"][group][1:]
    found = [
        detector_near(judged, Place(ruleset, group, which), it)
        for which, it in enumerate(detectors)
        if it["name"] != "exists"
    ]
    return min(found, key=lambda it: it.key, default=NEVER)


def ruleset_near(judged: Judged, ruleset: int) -> Near:
    """Returns how near a ruleset came to firing: as near as its nearest group of detectors."""
    groups = range(len(judged.json[ruleset]["detectors"]))
    near = (group_near(judged, ruleset, group) for group in groups)
    return max(near, key=lambda it: it.key, default=NEVER)


def miss_of(judged: Judged, ruleset: int) -> Optional[Miss]:
    """Returns how near a ruleset came to firing, or None if it fired."""
    if judged.truths[Place(ruleset)]:
        return None
    near = ruleset_near(judged, ruleset)
    if near.watch is None or not near.part:
        return Miss(0.0, 0.0, "nothing that it watches came near a threshold")
    if near.key == TRUE.key:
        return Miss(1.0, 1.0, "its detectors were each true at some time, but not at once")
    return Miss(near.part, near.duration_part, near.watch.nearest_text(judged.host, near.hold))


def extreme(watch: Watch, host: Optional[int]) -> Optional[Extreme]:
    """Returns the value of a detector that came nearest to its threshold, or None if the detector
    never had a value.
    """
    name, args = watch.plugin
    if watch.nearest is None or name == "exists":
        return None
    value, time_ns, path = watch.nearest
    if name in PRESSURE:
        limit = float(args["threshold"])
        return Extreme(
            "highest",
            value / 100,
            f"{share(value)} %",
            limit,
            f"{limit:g} %",
            "percent",
            time_ns,
            path,
        )
    if name == "memory_above":
        level = size(args["threshold"], host)
        shown = f"{mebibytes(value)} MiB"
        asked = args["threshold"] if level is None else f"{mebibytes(level)} MiB"
        return Extreme("highest", value, shown, level, asked, "bytes", time_ns, path)
    if name == "swap_free":
        limit = float(args["threshold_pct"])
        return Extreme(
            "lowest",
            -value / 100,
            f"{share(-value)} % free",
            limit,
            f"{limit:g} %",
            "percent",
            time_ns,
            "",
        )
    return Extreme("highest", value, f"rise {value} pages", None, "", "pages", time_ns, path)


def measure(judged: Judged, place: Place, detector: dict[str, Any]) -> Measure:
    """Describes a detector: the value that came nearest to its threshold, and the times at which it
    was true.
    """
    watch = judged.watches[place[:3]]
    true = spans(judged.truths[place], judged.evaluations)
    is_measured = detector["name"] != "exists"
    hold = hold_of(judged, place, detector) if is_measured else None
    duration = detector["args"].get("duration") if detector["name"] != "memory_reclaim" else None
    found = extreme(watch, judged.host)
    return Measure(
        detector["name"], watch.wanted(), found, "" if found else watch.came(judged.host),
        hold, None if duration is None else int(duration) * SECOND, true,
    )  # fmt: skip


def part(judged: Judged, number: int, fired: list[Firing]) -> Part:
    """Describes a ruleset with its detectors and firings."""
    groups = [
        (
            f"group {place} {quoted(name)}",
            [
                measure(judged, Place(number, place, which), it)
                for which, it in enumerate(detectors)
            ],
        )
        for place, (name, *detectors) in enumerate(judged.json[number]["detectors"])
    ]
    name = f"ruleset {number} {quoted(judged.json[number]['name'])}"
    return Part(name, groups, fired, miss_of(judged, number))


def parts(judged: Judged, kills: list[Kill]) -> list[Part]:
    """Describes all rulesets. `kills` are those of the replay."""
    found: list[list[Firing]] = [[] for _ in judged.json]
    for it in firings(judged, kills):
        names = [judged.json[it.ruleset]["detectors"][group][0] for group in it.groups]
        by = [f"group {group} {quoted(name)}" for group, name in zip(it.groups, names)]
        found[it.ruleset].append(Firing(it.time_ns, by, it.paused_until, it.choices))
    return [part(judged, number, fired) for number, fired in enumerate(found)]


def verdict(judged: Judged, found: list[Part]) -> str:
    """Returns a sentence that says why the rules killed nothing: it names the ruleset that fired
    without a victim, or else the ruleset that came nearest to firing.
    """
    names = [f"ruleset {number} ‘{printable(it['name'])}’" for number, it in enumerate(judged.json)]
    for name, it in zip(names, found):
        if it.firings:
            first = it.firings[0]
            why = first.choices[0].nobody if len(first.choices) == 1 else "no action found a victim"
            return f"{name} fired at {time_text(first.time_ns)}, and {why}"
    misses = [it.miss for it in found if it.miss]
    best = max(misses, key=lambda it: it.key, default=None)
    if best is None or not best.part:
        return "nothing that they watch came near a threshold"
    return f"nearest was {names[misses.index(best)]}: {best.text}"
