"""The results of oomd's evaluations: the kills, with their reasons and all candidates."""
from __future__ import annotations

from dataclasses import dataclass, field

from psicli.times import time_text
from psicli.wording import listed, quoted
from psirules.program import Kill

MOST_CANDIDATES = 4


@dataclass(frozen=True)
class Candidate:
    """A group that an action could choose: a text that explains its rank, and its preference.
    `passed_over` says why the group was skipped. It is empty if the group wasn't skipped.
    """

    path: str
    rank: str
    preference: str
    passed_over: str = ""

    def text(self) -> str:
        wish = "" if self.preference == "none" else self.preference
        return ", ".join(filter(None, [self.rank, wish, self.passed_over]))


@dataclass(frozen=True)
class Victim:
    """The victim of an action, the other groups of equal rank, and all candidates in order of rank.
    """

    path: str
    equals: list[str]
    candidates: list[Candidate]
    is_dry: bool


@dataclass(frozen=True)
class Act:
    """The outcome of an action at an evaluation: the action's number and plugin, its victim, and
    its candidates. If `victim` is None, `nobody` says why.
    """

    action: int
    plugin: str
    victim: Victim | None
    nobody: str
    candidates: list[Candidate]


@dataclass(frozen=True)
class Fired:
    """An evaluation at `time_ns` at which a ruleset fired. `why` contains the findings of the
    detectors in the group that fired, and `acts` the outcomes of the actions. If the ruleset was
    paused, `paused_until` is the end (ns) of its pause.
    """

    time_ns: int
    why: list[str]
    paused_until: int | None = None
    acts: list[Act] = field(default_factory=list)


@dataclass(frozen=True)
class Source:
    """The source of a kill: its ruleset and its plugin. `action` is the number of the action, or
    None for a plugin among the detectors. `drop_in` is the name of the drop-in file that defines
    the ruleset, or empty.
    """

    ruleset: int
    ruleset_name: str
    action: int | None
    plugin: str
    drop_in: str = ""

    def text(self) -> str:
        action = "among the detectors" if self.action is None else f"action {self.action}"
        text = f"ruleset {self.ruleset} {quoted(self.ruleset_name)}, {action} {quoted(self.plugin)}"
        return f"{text}, of {self.drop_in}" if self.drop_in else text


@dataclass(frozen=True)
class Decision:
    """A kill: its time (ns), its source, its victim, and the findings of the detectors in the group
    that fired.
    """

    time_ns: int
    source: Source
    victim: Victim
    why: list[str] = field(default_factory=list)

    def kill(self) -> Kill:
        """Converts the kill to the type of a replay's kills."""
        action = -1 if self.source.action is None else self.source.action
        return Kill(self.time_ns, self.source.ruleset, action, self.victim.path)

    def may_kill(self, path: str) -> bool:
        """Returns whether oomd may choose the group at `path`. It may if the group is the victim,
        or if it is equal to the victim in rank.
        """
        return path == self.victim.path or path in self.victim.equals

    def lines(self, is_all: bool) -> list[str]:
        """Formats the kill as lines of text."""
        when = time_text(self.time_ns)
        gap = " " * (len(when) + 2)
        path = self.victim.path
        lines = [f"{when}  would kill {path}", f"{gap}by {self.source.text()}"]
        lines += [f"{gap}{it}" for it in self.why]
        if self.victim.is_dry:
            lines.append(f"{gap}dry: oomd would only log this kill")
        chosen = next((it for it in self.victim.candidates if it.path == path), None)
        if chosen:
            lines.append(f"{gap}chosen: {chosen.text()}")
        if self.victim.equals:
            lines.append(
                f"{gap}equal in rank, so oomd may kill it instead: "
                f"{listed(self.victim.equals, 'or')}"
            )
        others = [it for it in self.victim.candidates if it.path != path]
        shown = others if is_all else others[:MOST_CANDIDATES]
        lines += [f"{gap}not {it.path}: {it.text()}" for it in shown]
        if others[len(shown) :]:
            lines.append(f"{gap}not {len(others) - len(shown)} more, which --all shows")
        return lines

    def record(self) -> dict[str, object]:
        """Returns the kill as a JSON object."""
        candidates = [
            {"path": it.path, "rank": it.rank, "preference": it.preference,
             "passed_over": it.passed_over or None}
            for it in self.victim.candidates
        ]  # fmt: skip
        source = self.source
        return {
            "moment_ns": self.time_ns, "victim": self.victim.path, "equal": self.victim.equals,
            "ruleset": source.ruleset, "ruleset_name": source.ruleset_name, "action": source.action,
            "plugin": source.plugin, "drop_in": source.drop_in or None, "dry": self.victim.is_dry,
            "why": self.why, "candidates": candidates,
        }  # fmt: skip
