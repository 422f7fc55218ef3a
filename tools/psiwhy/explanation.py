"""Formats explanations of rulesets as lines and as JSON, for the rules of psi_oomd, oomd and
systemd-oomd.
"""
from __future__ import annotations

from typing import NamedTuple, Optional


from psicli.times import seconds, time_text
from psinames.known import Span as Selected
from psireplay.part import within

from .choice import Candidate, Choice

# The largest number of candidates that are printed for an action, and the largest number of lines
# that are printed about a ruleset's firings.
MOST_CANDIDATES, MOST_FIRINGS = 8, 40
Span = tuple[int, int]


class Extreme(NamedTuple):
    """The value that came nearest to a limit, the time (ns) at which it was first reached, the path
    of the group that reached it, and the limit. `value` and `limit` are in `unit`, and `shown` and
    `limit_shown` are the printed texts. `word` is `highest` or `lowest`.
    """

    word: str
    value: float
    shown: str
    limit: Optional[float]
    limit_shown: str
    unit: str
    time_ns: int
    path: str

    def line(self) -> str:
        whose = f" ({self.path})" if self.path else ""
        limit = f", threshold {self.limit_shown}" if self.limit_shown else ""
        return f"{self.word} {self.shown} at {time_text(self.time_ns)}{whose}{limit}"


class Measure(NamedTuple):
    """A detector: its condition in words (`wanted`), the value nearest to its threshold or the
    reason why there is none (`absent`), the longest time (ns) for which the condition held, the
    time (ns) for which it must hold, and the spans (ns) in which the detector was true. A property
    that the detector doesn't have is None.
    """

    plugin: str
    wanted: str
    extreme: Optional[Extreme]
    absent: str
    hold: Optional[int]
    duration: Optional[int]
    true: Optional[list[Span]]

    def line(self) -> str:
        found = [self.extreme.line() if self.extreme else self.absent]
        if self.hold is not None:
            asked = f", duration {seconds(self.duration)} s" if self.duration is not None else ""
            found.append(f"longest hold {seconds(self.hold)} s{asked}")
        if self.true is not None:
            found.append(f"true {spans_text(self.true)}" if self.true else "never true")
        return "; ".join(filter(None, found))

    def record(self) -> dict[str, object]:
        extreme = self.extreme
        value: dict[str, object] = {"value": None, "absent": self.absent}
        if extreme:
            value = {
                "value": extreme.value, "threshold": extreme.limit, "unit": extreme.unit,
                "at_ns": extreme.time_ns, "path": extreme.path or None,
            }  # fmt: skip
        return {
            "plugin": self.plugin, "wanted": self.wanted, **value,
            "longest_hold_ns": self.hold, "duration_ns": self.duration, "true_ns": self.true,
        }  # fmt: skip


class Firing(NamedTuple):
    """A firing of a ruleset at `time_ns`: the groups of detectors that were true, and what the
    actions did. No action ran if the ruleset was in a pause, until `paused_until` (ns).
    """

    time_ns: int
    by: list[str]
    paused_until: Optional[int]
    choices: list[Choice]

    def record(self) -> dict[str, object]:
        choices = [
            {
                "action": it.action, "plugin": it.plugin, "victim": it.victim,
                "nobody": it.nobody or None,
                "candidates": [candidate_record(one) for one in it.candidates],
            }
            for it in self.choices
        ]  # fmt: skip
        return {
            "moment_ns": self.time_ns, "by": self.by, "rests_until_ns": self.paused_until,
            "actions": choices,
        }  # fmt: skip


class Miss(NamedTuple):
    """How near a ruleset that never fired came to firing: the fractions of the threshold and of the
    duration that were reached, from 0 to 1, and the nearest value in words.
    """

    part: float
    duration_part: float
    text: str

    @property
    def key(self) -> tuple[float, float]:
        """The sort key: the ruleset that came nearest to firing has the greatest key."""
        return self.part, self.duration_part


class Part(NamedTuple):
    """A ruleset, or a rule of systemd-oomd: its name, its groups of detectors by name, its firings
    and, if it never fired, how near it came to firing.
    """

    name: str
    groups: list[tuple[str, list[Measure]]]
    firings: list[Firing]
    miss: Optional[Miss]

    def victims(self) -> list[tuple[int, str]]:
        """Returns the kills as pairs of a time (ns) and a path."""
        return [(it.time_ns, one.victim) for it in self.firings for one in it.choices if one.victim]

    def within(self, part: Optional[Selected]) -> Part:
        """Returns a copy that has only the firings within the selected part of the trace."""
        return self._replace(firings=within(self.firings, part))

    def record(self) -> dict[str, object]:
        groups = [
            {"name": name, "detectors": [it.record() for it in found]}
            for name, found in self.groups
        ]
        miss = self.miss and {
            "part": self.miss.part,
            "held": self.miss.duration_part,
            "text": self.miss.text,
        }
        return {
            "name": self.name, "groups": groups,
            "firings": [it.record() for it in self.firings], "miss": miss,
        }  # fmt: skip


def candidate_record(it: Candidate) -> dict[str, object]:
    return {"path": it.path, "chosen": it.is_chosen, "reason": it.reason or None, **it.numbers}


def spans_text(spans: list[Span], most: int = 3) -> str:
    """Formats up to `most` spans (ns), such as `from 146 s to 214 s`. Appends the number of the
    others.
    """
    found = [
        f"at {time_text(start)}" if start == end else f"from {time_text(start)} to {time_text(end)}"
        for start, end in spans[:most]
    ]
    more = f" and {len(spans) - most} times more" if len(spans) > most else ""
    return ", ".join(found) + more


def head_of(part: Part) -> str:
    """Returns the first line about a ruleset, which says how often it fired and what it killed."""
    if not part.firings:
        return f"{part.name}: {'never fired' if part.miss else 'fired at other times only'}"
    killed = [f"{path} at {time_text(time_ns)}" for time_ns, path in part.victims()]
    more = f" and {len(killed) - 3} more" if len(killed) > 3 else ""
    whom = f"killed {', '.join(killed[:3])}{more}" if killed else "killed nobody"
    times = len(part.firings)
    return f"{part.name}: fired {times} time{'' if times == 1 else 's'}, {whom}"


def choice_lines(it: Choice, is_all: bool) -> list[str]:
    """Returns the lines that describe an action and its candidates."""
    lines = [f"action {it.action} {it.plugin}: {f'killed {it.victim}' if it.victim else it.nobody}"]
    shown = it.candidates if is_all else it.candidates[:MOST_CANDIDATES]
    for one in shown:
        why = f"chosen, {one.reason}" if one.is_chosen else f"not: {one.reason}"
        lines.append(f"  {one.path}  {one.text}; {why}")
    if it.candidates[len(shown) :]:
        lines.append(f"  {len(it.candidates) - len(shown)} more, which --all shows")
    return lines


def firing_lines(found: list[Firing], is_all: bool) -> list[str]:
    """Returns the lines that describe firings and their actions. Consecutive firings during the
    same pause share a line.
    """
    lines: list[str] = []
    place = 0
    while place < len(found):
        first = found[place]
        last = place
        while (
            first.paused_until
            and last + 1 < len(found)
            and found[last + 1].paused_until == first.paused_until
        ):
            last += 1
        when = time_text(first.time_ns)
        if first.paused_until:
            many = (
                f" to {time_text(found[last].time_ns)}  fired {last - place + 1} times"
                if last > place
                else "  fired"
            )
            lines.append(f"{when}{many}, resting until {time_text(first.paused_until)}")
        else:
            lines.append(f"{when}  fired by {first.by[0]}")
            lines += [f"    and {it}" for it in first.by[1:]]
            lines += [f"  {line}" for it in first.choices for line in choice_lines(it, is_all)]
        place = last + 1
    return lines


def part_lines(part: Part, is_all: bool) -> list[str]:
    """Returns the lines that describe a ruleset, its detectors and its firings."""
    lines = [head_of(part)]
    for name, measures in part.groups:
        lines += [f"  {name}"] if name else []
        for it in measures:
            lines += [f"    {it.plugin}: {it.wanted}", f"      {it.line()}"]
    fired = firing_lines(part.firings, is_all)
    shown = fired if is_all else fired[:MOST_FIRINGS]
    lines += [f"  {it}" for it in shown]
    if fired[len(shown) :]:
        lines.append(f"  {len(fired) - len(shown)} lines more, which --all shows")
    if part.miss:
        lines.append(f"  {part.miss.text}")
    return lines


def nearest(parts: list[Part]) -> Optional[Part]:
    """Returns the ruleset that came nearest to firing among those that never fired. Returns None if
    there is none with a value near its threshold.
    """
    missed = [it for it in parts if it.miss and it.miss.part]
    order = sorted(missed, key=lambda it: it.miss.key if it.miss else (0.0, 0.0))
    return order[-1] if order else None


def lines_of(parts: list[Part], is_all: bool) -> list[str]:
    """Returns the lines of a complete explanation."""
    lines = [line for part in parts for line in part_lines(part, is_all)]
    best = nearest(parts)
    if best and best.miss:
        lines.append(f"nearest miss: {best.name}: {best.miss.text}")
    return lines


def record_of(parts: list[Part]) -> dict[str, object]:
    best = nearest(parts)
    return {"rulesets": [it.record() for it in parts], "nearest_miss": best.name if best else None}
