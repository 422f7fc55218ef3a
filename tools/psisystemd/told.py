"""Formats the results as text and JSON: the kills, why no group was killed, and how near pressure
came to the limits.
"""
from __future__ import annotations

from dataclasses import dataclass, field

from psicli.times import seconds, time_text
from psisystemd.values import percent

MEMORY_PRESSURE, SWAP = "memory pressure", "swap"
MOST_TOLD = 4
UNITS = ((1 << 30, "G"), (1 << 20, "M"), (1 << 10, "K"))


def size(count: int) -> str:
    """Formats a number of bytes. From 1 KiB on, the number has one decimal and a unit letter."""
    for unit, letter in UNITS:
        if count >= unit:
            return f"{count / unit:.1f}{letter}"
    return str(count)


@dataclass(frozen=True)
class Candidate:
    """A candidate of a decision. `scanned` is the number of scanned pages by which it is ranked,
    and `memory` and `swap` are in bytes. `passed_over` says why it was skipped, and is empty if it
    wasn't. `is_new` says that it wasn't a candidate at the previous check, so that all pages that
    it ever scanned count.
    """

    path: str
    scanned: int
    memory: int
    swap: int
    preference: str
    passed_over: str = ""
    is_new: bool = False

    def text(self, by: str, span: str) -> str:
        """Returns the values by which the candidate was ranked, as text."""
        span = " ever" if self.is_new else span
        rank = (
            f"scanned {self.scanned} pages{span}, memory {size(self.memory)}"
            if by == MEMORY_PRESSURE
            else f"swap {size(self.swap)}"
        )
        return ", ".join(
            filter(
                None, [rank, self.passed_over or ("avoid" if self.preference == "avoid" else "")]
            )
        )


@dataclass(frozen=True)
class Decision:
    """A decision at a time (ns). `victim` is None if no group is killed. `by` is the rule,
    `watched` the watched group, and `why` the reason. All candidates are in order of rank. `span`
    says in words during which time the pages were scanned.
    """

    time_ns: int
    victim: str | None
    by: str
    watched: str
    why: str
    candidates: list[Candidate] = field(default_factory=list)
    span: str = ""

    def lines(self, is_all: bool) -> list[str]:
        """Returns the lines that describe the decision. Without `is_all`, they name only some
        candidates.
        """
        when = time_text(self.time_ns)
        gap = " " * (len(when) + 2)
        chosen = next((it for it in self.candidates if it.path == self.victim), None)
        others = [it for it in self.candidates if it is not chosen]
        shown = others if is_all else others[:MOST_TOLD]
        lines = [
            f"{when}  would kill {self.victim}" if self.victim else f"{when}  would kill nobody",
            f"{gap}{self.why}",
        ]
        if chosen:
            lines.append(f"{gap}chosen: {chosen.text(self.by, self.span)}")
        lines += [f"{gap}not {it.path}: {it.text(self.by, self.span)}" for it in shown]
        if others[len(shown) :]:
            lines.append(f"{gap}not {len(others) - len(shown)} more, which --all shows")
        return lines

    def record(self) -> dict[str, object]:
        """Returns the decision as a JSON object."""
        candidates = [
            {"path": it.path, "scanned": it.scanned, "memory": it.memory, "swap": it.swap,
            "preference": it.preference,
             "passed_over": it.passed_over or None}
            for it in self.candidates
        ]  # fmt: skip
        return {
            "moment_ns": self.time_ns, "victim": self.victim, "by": self.by,
            "watched": self.watched,
            "why": self.why,
            "candidates": candidates,
        }  # fmt: skip


@dataclass
class Course:
    """How near a watched group came to a kill. `limit` and `most`, its greatest pressure, are in
    hundredths of a percent. `most_at` is the time (ns) of that pressure. `longest` is the longest
    time (ns) above the limit, or None if the pressure never was above it.
    """

    path: str
    limit: int
    duration: int
    most: int = -1
    most_at: int = 0
    longest: int | None = None

    def take(self, time_ns: int, pressure: int, since: int | None) -> None:
        """Updates the values with the pressure at a time (ns). `since` is the time (ns) at which
        the pressure rose above the limit, or None if it is not above.
        """
        if pressure > self.most:
            self.most, self.most_at = pressure, time_ns
        if since is not None:
            self.longest = max(self.longest or 0, time_ns - since)

    def text(self) -> str:
        above = (
            "never above it"
            if self.longest is None
            else f"above it for {seconds(self.longest)} s at most"
        )
        limits = f"limit {percent(self.limit)} for {seconds(self.duration)} s"
        return (
            f"{self.path}: at most {percent(self.most)}, at {time_text(self.most_at)}; {limits},"
            f" {above}"
        )

    def record(self) -> dict[str, object]:
        return {
            "path": self.path,
            "limit_percent": self.limit / 100,
            "duration_ns": self.duration,
            "most_percent": self.most / 100,
            "most_at_ns": self.most_at,
            "longest_above_ns": self.longest,
        }
