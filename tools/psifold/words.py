"""Defines the command-line options for folding, and formats the report on a folded trace."""
from __future__ import annotations

import argparse
import sys
import time
from typing import Any, NamedTuple

from psicli.fault import Fault, Malformed
from psicli.times import SECOND, seconds_to_ms
from psicli.values import nanoseconds

from .fold import Counts, Outcome
from .victims import Victim, victims_of, victims_of_rules

ROUNDING = (
    "but times are rounded to whole ns: totals may differ by 1 us, and so may a signal exactly at"
    " its threshold, and an average of a tick whose share is exactly a whole percent"
)
# The smallest unit of a tick's length (ns), and the longest tick (ns).
MILLISECOND, LONGEST_TICK = 10**6, 60 * SECOND


def window_of(text: str) -> int:
    """Parses the length of a window: a whole number of ms, at most as long as the longest tick.
    Returns ns.
    """
    length = nanoseconds(text)
    if not 0 < length <= LONGEST_TICK or length % MILLISECOND:
        raise Malformed(f"{text} is no window: it has 0.001 to 60 s, of whole ms, as ticks have")
    return length


def add_window(words: argparse.ArgumentParser, name: str, is_required: bool, text: str) -> None:
    """Adds the options for folding: the length of a window, under the option name `name`, and the
    groups that might be killed.
    """
    words.add_argument(name, dest="fold", metavar="S", type=window_of, required=is_required,
    help=text)  # fmt: skip
    words.add_argument("--victims", metavar="PATTERNS", action="append", default=[],
                       help="groups that might be killed, as comma-separated patterns of rules: "
                            "`whatif` is exact without"
                       " them, too; may be repeated")  # fmt: skip
    words.add_argument("--rules", metavar="FILE", action="append", default=[],
                       help="like --victims, for all groups that the actions of a rules file "
                            "might kill")  # fmt: skip


class Folding(NamedTuple):
    """The values of the options for folding: the length of a window (ns), and the groups that might
    be killed.
    """

    length: int
    victims: list[Victim]


def folding_of(found: dict[str, Any]) -> Folding | None:
    """Removes the options for folding from the parsed options, and returns their values. Returns
    None if the trace isn't to be folded.
    """
    length, patterns, rules = found.pop("fold"), found.pop("victims"), found.pop("rules")
    if length is None and (patterns or rules):
        raise Fault("--victims and --rules say how to fold: --fold")
    victims = [victim for text in patterns for victim in victims_of(text)]
    return (
        Folding(length, victims + [victim for name in rules for victim in victims_of_rules(name)])
        if length
        else None
    )


def folding_lines(folding: Folding, outcome: Outcome) -> list[str]:
    """Returns the lines of the report: the sizes before and after folding, and how exact the folded
    trace is.
    """
    counts, length = outcome.counts, folding.length
    tick = f"{length // MILLISECOND} ms" if length % SECOND else f"{length // SECOND} s"
    return [
        (
            f"folded into {counts.windows} windows: lines {counts.lines} to {counts.written}, joint"
            f" states {counts.states_before} to {counts.states_after}"
        ),
        (
            f"a replay at ticks of {tick}, or of a multiple, prints what it prints of the trace"
            " that wasn't folded"
        ),
        ROUNDING,
        whatif_line(folding, outcome),
        *(f"no group of the trace matches the victims' pattern '{it}'" for it in outcome.unmatched),
        *longer_lines(outcome.counts),
    ]


def is_longer(counts: Counts) -> bool:
    """Whether the folded trace has more lines than the original."""
    return counts.written > counts.lines


def longer_lines(counts: Counts) -> list[str]:
    """Returns a line of advice if the folded trace is longer than the original, and an empty list
    if not.
    """
    if not is_longer(counts):
        return []
    return [
        f"the folded trace is longer, {counts.written} lines from {counts.lines}: take the trace"
        " itself, or a longer window"
    ]


def whatif_line(folding: Folding, outcome: Outcome) -> str:
    """Returns the line of the report that says for which kills `whatif` is exact."""
    if len(outcome.unmatched) == len(folding.victims):
        return (
            "after the first kill `whatif` is near, and not exact: --victims or --rules say who"
            " might be killed"
        )
    said = "`whatif` is exact after kills of those who were named"
    if outcome.whole is not None:
        said += f", up to {outcome.whole} of them: more are at a time than can be told apart"
    changes = outcome.changes
    if not changes.last:
        return said
    what = [
        f"{count} tasks {verb}"
        for count, verb in ((changes.came, "came to"), (changes.moved, "moved out of or within"))
        if count
    ]
    return (
        f"{said}, if the kills come after {seconds_to_ms(changes.last)} s; before, it is near:"
        f" {' and '.join(what)} these groups until then"
    )


class Progress:
    """Shows the progress on standard error if that is a terminal: the seconds of the trace that are
    converted. Also shows the length of the whole trace if `total` (ns) isn't None.
    """

    def __init__(self, name: str, total: int | None = None) -> None:
        self.name, self.total, self.is_shown, self.due = name, total, sys.stderr.isatty(), 0.0

    def show(self, time_ns: int) -> None:
        """Shows that the trace is converted up to `time_ns`. Updates the terminal at most twice a
        second.
        """
        if self.is_shown and time.monotonic() >= self.due:
            self.due = time.monotonic() + 0.5
            of = f" of {self.total // SECOND}" if self.total is not None else ""
            print(f"\r{self.name}: {time_ns // SECOND}{of} s", end="", file=sys.stderr, flush=True)

    def end(self) -> None:
        """Erases the progress from the terminal."""
        if self.is_shown and self.due:
            print("\r\033[K", end="", file=sys.stderr, flush=True)
