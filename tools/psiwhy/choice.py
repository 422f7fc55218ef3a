"""Explains why an action chose a group or didn't, with the values of all candidates."""
from __future__ import annotations

from fractions import Fraction
from typing import NamedTuple, Optional

from psireplay.rules import TRUTHS, Plugin, size
from psisystemd.told import size as shown_size
from psisystemd.values import percent

from .evaluations import Evaluation

WHOLE = 100
PREFERENCES = ("prefer", "none", "avoid")
Numbers = dict[str, object]


class Candidate(NamedTuple):
    """A group that an action matches. `text` has its measured values in words, and `numbers` has
    the values by name. `reason` says why the action chose the group or didn't.
    """

    path: str
    text: str
    numbers: Numbers
    is_chosen: bool
    reason: str


class Choice(NamedTuple):
    """What an action did: its number and plugin, the path of its victim (or None), and its
    candidates. `nobody` says why it killed nothing. For a recursive action, `candidates` has those
    at each level of the tree, down to the victim.
    """

    action: int
    plugin: str
    victim: Optional[str]
    nobody: str
    candidates: list[Candidate]


class Measured(NamedTuple):
    """The value by which a candidate is ranked, as a number and in words. `lack` says why the value
    is too small for the action, and is empty if it is large enough.
    """

    value: int
    text: str
    numbers: Numbers
    lack: str = ""


def by_swap(args: dict[str, str], now: Evaluation, path: str) -> Measured:
    swap, text = now.at(path).swap, args.get("threshold", "1")
    total = now.world.host.swap if now.world.host else 0
    is_share = text.endswith("%")
    is_less = swap * WHOLE < int(text[:-1]) * total if is_share else swap < (size(text, None) or 0)
    lack = (
        f"less than the threshold of {text if is_share else shown_size(int(text))}"
        if is_less
        else ""
    )
    return Measured(swap, f"swap {shown_size(swap)}", {"swap_bytes": swap}, lack)


def by_pressure(args: dict[str, str], now: Evaluation, path: str) -> Measured:
    value, resource = now.pressure(path, args["resource"]), args["resource"]
    text = f"full {resource} pressure over 10 s and 60 s together {percent(value)}"
    return Measured(
        value, text, {"pressure_percent": value / WHOLE}, "" if value else "it didn't stall"
    )


def by_scans(_: dict[str, str], now: Evaluation, path: str) -> Measured:
    rise = now.rise(path)
    text = f"scanned {rise} pages since the evaluation before"
    return Measured(rise, text, {"scanned_pages": rise}, "" if rise else "none")


MEASURES = {
    "kill_by_swap_usage": by_swap,
    "kill_by_pressure": by_pressure,
    "kill_by_pg_scan": by_scans,
}


def preference(now: Evaluation, path: str) -> int:
    return PREFERENCES.index(now.world.live[path].preference)


def has_task(now: Evaluation, path: str) -> bool:
    return now.world.live[path].has_tasks()


def compared(
    plugin: Plugin, now: Evaluation, paths: list[str], victim: Optional[str]
) -> list[Candidate]:
    """Returns the candidates of an action that ranks groups by one value. They are in order of
    rank.
    """
    measured = {path: MEASURES[plugin.name](plugin.args, now, path) for path in paths}
    order = sorted(paths, key=lambda it: (preference(now, it), -measured[it].value, it))
    found = []
    for path in order:
        it, wish = measured[path], wish_of(now, path)
        text = ", ".join(filter(None, [it.text, wish]))
        if path == victim:
            found.append(Candidate(path, text, it.numbers, True, "the greatest"))
            continue
        reason = it.lack if has_task(now, path) else "no live task"
        if not reason and victim:
            reason = why_ranked_lower(now, path, victim, it.value, measured[victim].value)
        found.append(Candidate(path, text, it.numbers, False, reason))
    return found


def why_ranked_lower(now: Evaluation, path: str, victim: str, value: int, most: int) -> str:
    """Says why the victim ranks before another candidate that also has a sufficient value."""
    if preference(now, path) > preference(now, victim):
        return f"{victim} is preferred"
    if value < most:
        return "less"
    return (
        "equal, and its path comes later" if path > victim else "less by digits that aren't printed"
    )


def wish_of(now: Evaluation, path: str) -> str:
    wish = now.world.live[path].preference
    return "" if wish == "none" else wish


class Sizes:
    """The candidates of `kill_by_memory_size_or_growth`. `live` has those with a live task. `first`
    has those of `live` with the best preference, by descending size. Only the first `few` groups of
    `first` can be chosen for their growth.
    """

    def __init__(self, plugin: Plugin, now: Evaluation, paths: list[str]) -> None:
        args = plugin.args
        self.now = now
        self.share = int(args.get("size_threshold", "50"))
        self.ratio = Fraction(args.get("min_growth_ratio", "1.25"))
        self.live = [path for path in paths if has_task(now, path)]
        self.total = sum(now.at(path).memory for path in self.live)
        best = min((preference(now, path) for path in self.live), default=0)
        first = [path for path in self.live if preference(now, path) == best]
        self.first = sorted(first, key=lambda it: (-now.at(it).memory, it))
        above = WHOLE - int(args.get("growing_size_percentile", "80"))
        self.few = max(1, -(-len(first) * above // WHOLE))

    def is_large(self, path: str) -> bool:
        return self.now.at(path).memory * WHOLE >= self.share * self.total

    def growth(self, path: str) -> Optional[Fraction]:
        size_, past = self.now.growth(path)
        return Fraction(size_, past) if past else None

    def is_growing(self, path: str) -> bool:
        growth = self.growth(path)
        return growth is not None and growth >= self.ratio

    def text(self, path: str) -> str:
        memory, growth = self.now.at(path).memory, self.growth(path)
        share = (
            f", {memory * WHOLE / self.total:.0f} % of all"
            if self.total and path in self.live
            else ""
        )
        grown = f", {float(growth):.2f} times its mean before" if growth is not None else ""
        return f"memory {shown_size(memory)}{share}{grown}"

    def numbers(self, path: str) -> Numbers:
        growth = self.growth(path)
        return {
            "memory_bytes": self.now.at(path).memory,
            "of_all_percent": self.now.at(path).memory * WHOLE / self.total if self.total else None,
            "growth": None if growth is None else float(growth),
        }

    def best(self) -> Optional[str]:
        """Returns the group that the action chooses, or None without candidates. It is the largest
        group if that is large enough. If not, it is the group that grew most among those that grew
        enough, or the largest group if none did.
        """
        if not self.first or self.is_large(self.first[0]):
            return next(iter(self.first), None)
        growing = [it for it in self.first[: self.few] if self.is_growing(it)]
        order = sorted(
            growing, key=lambda it: (-(self.growth(it) or 0), -self.now.at(it).memory, it)
        )
        return [*order, self.first[0]][0]

    def why(self, victim: str) -> str:
        """Says why the victim was chosen."""
        if self.is_large(victim):
            return f"the largest, with at least {self.share} % of all"
        few = f"the {self.few} largest" if self.few > 1 else "the largest alone"
        if self.is_growing(victim) and victim in self.first[: self.few]:
            return f"grew most among {few}"
        grown = f"of {few} none grew {float(self.ratio):g} times"
        return f"the largest: none has {self.share} % of all, and {grown}"

    def why_not(self, path: str, victim: str) -> str:
        """Says why a candidate with a live task wasn't chosen."""
        if path not in self.first:
            return f"{victim} is preferred"
        if self.is_large(victim) or not self.is_growing(victim):
            is_equal = self.now.at(path).memory == self.now.at(victim).memory
            return "as large, and its path comes later" if is_equal else "smaller"
        if not self.is_growing(path):
            return f"grew less than {float(self.ratio):g} times"
        return (
            "grew less" if path in self.first[: self.few] else f"not among the {self.few} largest"
        )


def by_size(
    plugin: Plugin, now: Evaluation, paths: list[str], victim: Optional[str]
) -> list[Candidate]:
    """Returns the candidates of `kill_by_memory_size_or_growth`, in order of rank."""
    sizes = Sizes(plugin, now, paths)
    rest = [path for path in sizes.live if path not in sizes.first]
    dead = [path for path in paths if path not in sizes.live]
    found = []
    for path in [*sizes.first, *sorted(rest), *sorted(dead)]:
        text = ", ".join(filter(None, [sizes.text(path), wish_of(now, path)]))
        if path in dead:
            reason = "no live task"
        elif victim is None:
            reason = ""
        else:
            reason = sizes.why(path) if path == victim else sizes.why_not(path, victim)
        found.append(Candidate(path, text, sizes.numbers(path), path == victim, reason))
    return found


def candidates(
    plugin: Plugin, now: Evaluation, paths: list[str], victim: Optional[str]
) -> list[Candidate]:
    """Returns the candidates among the groups `paths`. The chosen group is the first."""
    make = compared if plugin.name in MEASURES else by_size
    return sorted(make(plugin, now, paths, victim), key=lambda it: not it.is_chosen)


def best(plugin: Plugin, now: Evaluation, paths: list[str]) -> Optional[str]:
    """Returns the candidate that ranks first by the printed values. Returns None if no candidate's
    value is large enough.
    """
    if plugin.name not in MEASURES:
        return Sizes(plugin, now, paths).best()
    enough = (it for it in compared(plugin, now, paths, None) if not it.reason)
    return next((it.path for it in enough), None)


def step_to(plugin: Plugin, now: Evaluation, paths: list[str], victim: str) -> Optional[str]:
    """Returns the group in `paths` through which an action reached its victim: the victim itself,
    or an ancestor of the victim if the action is recursive.
    """
    if plugin.args.get("recursive", "false") not in TRUTHS:
        return victim
    above = [it for it in paths if f"{victim}/".startswith(f"{it.rstrip('/')}/")]
    first = best(plugin, now, paths)
    return first if first in above or not above else above[0]


def choice(number: int, plugin: Plugin, now: Evaluation, victim: Optional[str]) -> Choice:
    """Describes what an action did at an evaluation. `victim` is the path of the group that the
    action killed, or None.
    """
    paths = sorted(path for path in now.world.live if plugin.covers(path))
    if victim is None:
        return Choice(number, plugin.name, None, *nobody(plugin, now, paths))
    found: list[Candidate] = []
    while paths:
        chosen = step_to(plugin, now, paths, victim)
        found += candidates(plugin, now, paths, chosen)
        is_last = chosen is None or chosen == victim
        children = [] if is_last else now.world.live[chosen or ""].children.values()
        paths = sorted(it.path for it in children)
    return Choice(number, plugin.name, victim, "", found)


def nobody(plugin: Plugin, now: Evaluation, matches: list[str]) -> tuple[str, list[Candidate]]:
    """Says why an action found no victim. Also returns the groups that the action matched, as
    candidates.
    """
    found = candidates(plugin, now, matches, None)
    if not matches:
        return f"no live group matches '{plugin.args['cgroup']}'", found
    if not any(has_task(now, path) for path in matches):
        return "no matching group has a live task", found
    return "no candidate is enough", found
