"""Implements the command tools/top: parses its arguments, and prints its table."""
from __future__ import annotations

import os
import re
from typing import Any, Optional

from psicli.fault import Fault
from psicli.options import add_tick
from psicli.parser import Parser
from psicli.running import run, write
from psicli.status import Status
from psicli.times import SECOND
from psinames.known import Known, Span, add_names, add_times, known_of, span_in
from psinames.tasks import busiest, shares_text

from .lines import LEVELS
from .replaying import replayed
from .stalls import RANKED, Stalls, ranked
from .trace import end_of

ABOUT = """\
Lists which groups stalled most in a trace, or in the output of `psi_oomd replay` or `whatif`.

For each group without child groups: for how many seconds some of its tasks waited for each
resource, and for how many all that had work did. The group in which all waited for longest comes
first. If the trace has a companion file, the processes that ran most in the group follow it."""
DEFAULT = 10
REPORT_S = 2
MICROSECONDS = SECOND // 1000
STANDARD_INPUT = "-"
COUNT, NUMBER = re.compile("[1-9][0-9]{0,5}"), re.compile("-?[0-9]+")


def row_of(stalls: Stalls, known: Known, span: Span) -> list[str]:
    """Returns the table cells for a group."""
    times = (stalls.totals.get((resource, level), 0) for resource in RANKED for level in LEVELS)
    cells = [f"{time // MICROSECONDS}.{time % MICROSECONDS // 1000:03}" for time in times]
    return [*cells, known.groups.shown(stalls.path), processes_of(stalls.path, known, span)]


def processes_of(path: str, known: Known, span: Span) -> str:
    """Formats the processes that ran most in a group. The text is empty if their names aren't
    known.
    """
    if not known.companion or not known.companion.busy:
        return ""
    shares, others = busiest(known.companion, path, *span)
    return shares_text(shares, others)


def table(rows: list[list[str]]) -> str:
    """Formats a table. The numbers are right-aligned, and the texts after them left-aligned."""
    count = len(RANKED) * len(LEVELS)
    widths = [max(len(row[place]) for row in rows) for place in range(count + 1)]
    lines = []
    for row in rows:
        numbers = [cell.rjust(width) for cell, width in zip(row[:count], widths)]
        lines.append("  ".join([*numbers, row[count].ljust(widths[count]), row[-1]]).rstrip())
    return "".join(f"{line}\n" for line in lines)


def parser() -> Parser:
    """Returns the parser of the command line."""
    words = Parser(ABOUT)
    words.add_argument("words", nargs="*", metavar="TRACE|N",
                       help="a trace, which is replayed (without it standard input is read), and"
                       f" the number of groups that are listed ({DEFAULT})")  # fmt: skip
    add_times(words)
    add_tick(words)
    add_names(words)
    return words


def words_in(words: list[str]) -> tuple[Optional[str], int]:
    """Parses the arguments, which may be in any order. Returns the trace, or None without one, and
    the number of groups to print.
    """
    for it in words:
        if NUMBER.fullmatch(it) and not COUNT.fullmatch(it) and not os.path.exists(it):
            raise Fault(f"argument N: {it} isn't a whole number from 1 to 999999")
    traces = [it for it in words if not COUNT.fullmatch(it) or os.path.exists(it)]
    counts = [int(it) for it in words if it not in traces]
    if len(traces) > 1 or len(counts) > 1:
        raise Fault(f"{words[-1]} is one too many: give a trace, and how many groups are listed")
    return (traces[0] if traces else None), (counts[0] if counts else DEFAULT)


def top() -> int:
    """Prints the table, and returns the exit status."""
    values: dict[str, Any] = parser().values()
    trace, count = words_in(values["words"])
    known = known_of(trace or STANDARD_INPUT, values, is_whole=True)
    span = span_in(values, known.wall, end_of(trace or STANDARD_INPUT))
    with replayed(trace, values, REPORT_S) as printed:
        found = ranked(printed, *span)
    if not found:
        advice = "ask replay for some by --report-s and --tick-ms, or look at a longer time"
        raise Fault(f"no report is in it: {advice}")
    heads = [f"{resource} {level}" for resource in RANKED for level in LEVELS]
    rows = [row_of(it, known, span) for it in found[:count]]
    processes = "processes that ran most" if any(row[-1] for row in rows) else ""
    write(table([[*heads, "group", processes], *rows]).encode())
    return Status.DONE


def main() -> int:
    """Runs the command; returns the exit status."""
    return run(top)
