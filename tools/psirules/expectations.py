"""Parses the WANT file of `tools/rules expect`, and checks its expectations against the kills of a
replay.
"""
import difflib
import re
from abc import ABC, abstractmethod
from dataclasses import dataclass

from psicli.fault import Fault
from psicli.times import seconds, time_text
from psicli.values import nanoseconds
from psicli.wording import counted, listed, quoted, suggested
from psirules.patterns import is_pattern, matches
from psirules.program import Kill
from psirules.rules_file import RulesFile

FORMS = (
    "first PATH from S to S",
    "kill PATH by RULESET",
    "no kill of PATTERN",
    "at most N kills",
    "no kill before S",
)
ABSENT = " if present"
"""The end of a line `no kill of PATTERN` that also passes on a trace without a matching group."""
MOST_MOMENTS = 10


@dataclass(frozen=True)
class Verdict:
    """Whether an expectation holds, and a description of the kills that decide it."""

    holds: bool
    text: str


def victims(kills: list[Kill]) -> str:
    """Describes kills for people: their number, and each victim with the times of its kills."""
    if not kills:
        return "no kill"
    times: dict[str, list[str]] = {}
    for kill in kills:
        times.setdefault(kill.path, []).append(time_text(kill.time_ns))
    parts = [
        f"{path} at {', '.join(it[:MOST_MOMENTS])}{' and later' * bool(it[MOST_MOMENTS:])}"
        for path, it in times.items()
    ]
    return "; ".join([", ".join([counted(len(kills), "kill"), *parts[:1]]), *parts[1:]])


def killed(kills: list[Kill], rules: RulesFile) -> str:
    """Describes the first of these kills, and says how many others there are."""
    return rules.killed(kills[0]) + (f", and {len(kills) - 1} more" if kills[1:] else "")


@dataclass(frozen=True)
class Expectation(ABC):
    """An expectation: the number of its line in the WANT file, and the line's text without a
    comment.
    """

    line: int
    text: str

    @abstractmethod
    def verdict(self, kills: list[Kill], rules: RulesFile) -> Verdict:
        """Returns whether the kills meet the expectation. The kills are in the order in which they
        were printed.
        """

    def check(self, rules: RulesFile) -> None:
        """Raises a Fault if the expectation can't be checked with these rules."""

    def pattern_needed(self) -> str | None:
        """Returns the path or pattern that must match a group of each trace, or None if the
        expectation has none. If no group matches it, the expectation can't be checked on that
        trace.
        """
        return None

    def missing(self, groups: set[str]) -> str | None:
        """Returns an error message if no group of a trace matches the expectation's pattern, and
        None if one matches. The message suggests similar groups.
        """
        pattern = self.pattern_needed()
        if pattern is None or any(matches(pattern, path) for path in groups):
            return None
        return f"no group of it matches {pattern}: it has {suggested(pattern, sorted(groups))}"


@dataclass(frozen=True)
class First(Expectation):
    """The expectation that the first kill, or another kill at the same time, is of a group that
    matches `path`, and at a time from `start` to `end` (ns), both inclusive.
    """

    path: str
    start: int
    end: int

    def pattern_needed(self) -> str | None:
        return self.path

    def verdict(self, kills: list[Kill], rules: RulesFile) -> Verdict:
        if not kills:
            return Verdict(False, "no kill")
        found = [
            kill
            for kill in kills
            if kill.time_ns == kills[0].time_ns and matches(self.path, kill.path)
        ]
        if not found:
            return Verdict(False, f"the first is {kills[0].path}, {rules.killed(kills[0])}")
        when = found[0].time_ns
        late = f", {seconds(when - self.end)} s late" if when > self.end else ""
        early = f", {seconds(self.start - when)} s early" if when < self.start else ""
        return Verdict(not late and not early, rules.killed(found[0]) + late + early)


@dataclass(frozen=True)
class KilledBy(Expectation):
    """The expectation that a ruleset with the name (or the number, from 0) `ruleset` killed a group
    that matches `path`.
    """

    path: str
    ruleset: str

    def pattern_needed(self) -> str | None:
        return self.path

    def check(self, rules: RulesFile) -> None:
        if not rules.numbers_of(self.ruleset):
            raise Fault(
                f"{rules.name} has no ruleset"
                f" {quoted(self.ruleset)}{nearest(self.ruleset, rules.ruleset_names())}"
            )

    def verdict(self, kills: list[Kill], rules: RulesFile) -> Verdict:
        of_path = [kill for kill in kills if matches(self.path, kill.path)]
        numbers = rules.numbers_of(self.ruleset)
        by_ruleset = [kill for kill in of_path if kill.ruleset in numbers]
        if by_ruleset:
            return Verdict(True, killed(by_ruleset, rules))
        return Verdict(
            False, killed(of_path, rules) if of_path else f"not killed: {victims(kills)}"
        )


@dataclass(frozen=True)
class NoKillOf(Expectation):
    """The expectation that no killed group matches the pattern. With `may_be_absent`, it also holds
    on a trace without a matching group.
    """

    pattern: str
    may_be_absent: bool

    def pattern_needed(self) -> str | None:
        return None if self.may_be_absent else self.pattern

    def missing(self, groups: set[str]) -> str | None:
        found = super().missing(groups)
        return (
            f"{found}; `no kill of {self.pattern}{ABSENT}` says that this is intended"
            if found
            else None
        )

    def verdict(self, kills: list[Kill], rules: RulesFile) -> Verdict:
        found = [kill for kill in kills if matches(self.pattern, kill.path)]
        if found:
            return Verdict(False, f"{found[0].path} {killed(found, rules)}")
        return Verdict(True, victims(kills))


@dataclass(frozen=True)
class AtMost(Expectation):
    """The expectation that there are at most `most` kills."""

    most: int

    def verdict(self, kills: list[Kill], rules: RulesFile) -> Verdict:
        return Verdict(len(kills) <= self.most, victims(kills))


@dataclass(frozen=True)
class NoKillBefore(Expectation):
    """The expectation that no kill is before the time `start` (ns)."""

    start: int

    def verdict(self, kills: list[Kill], rules: RulesFile) -> Verdict:
        early = [kill for kill in kills if kill.time_ns < self.start]
        if early:
            return Verdict(False, f"{early[0].path} {killed(early, rules)}")
        return Verdict(True, victims(kills))


def nearest(word: str, names: list[str]) -> str:
    """Returns the end of an error message: the name most similar to `word`, or all names if none is
    similar.
    """
    found = difflib.get_close_matches(word, names, 1)
    if found:
        return f": did you mean {quoted(found[0])}?"
    return f": it has {listed([quoted(it) for it in names])}" if names else ""


def pattern(word: str) -> str:
    if not is_pattern(word):
        raise Fault(f"{word} is no path and no pattern of paths: write /batch/import or /batch/*")
    return word


def read_line(line: int, text: str) -> Expectation:
    """Parses the text of a line of a WANT file, without its comment. `line` is the line's number.
    """
    if found := re.fullmatch(r"first (\S+) from (\S+) to (\S+)", text):
        start, end = nanoseconds(found[2]), nanoseconds(found[3])
        if start > end:
            raise Fault(f"{found[2]} is above {found[3]}: the earlier moment stands first")
        return First(line, text, pattern(found[1]), start, end)
    if found := re.fullmatch(r"kill (\S+) by (.+)", text):
        return KilledBy(line, text, pattern(found[1]), found[2])
    if found := re.fullmatch(rf"no kill of (\S+)({ABSENT})?", text):
        return NoKillOf(line, text, pattern(found[1]), bool(found[2]))
    if found := re.fullmatch(r"at most ([0-9]{1,9}) kills?", text):
        return AtMost(line, text, int(found[1]))
    if found := re.fullmatch(r"no kill before (\S+)", text):
        return NoKillBefore(line, text, nanoseconds(found[1]))
    raise Fault(
        f"{quoted(text)} is no expectation: write {listed([f'`{it}`' for it in FORMS], 'or')}"
    )


def read(name: str, data: bytes) -> list[Expectation]:
    """Parses a WANT file. A comment starts with a `#` at the start of a line or after a space, and
    extends to the end of the line.
    """
    wanted = []
    for number, line in enumerate(data.decode("utf-8", "replace").splitlines(), 1):
        text = " ".join(re.sub(r"(^|\s)#.*", "", line).split())
        try:
            if text:
                wanted.append(read_line(number, text))
        except Fault as fault:
            raise Fault(f"{name} line {number}: {fault}") from fault
    if not wanted:
        raise Fault(f"{name} wants nothing: write lines such as `{FORMS[0]}`")
    return wanted
