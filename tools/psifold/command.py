"""Folds a trace: makes a trace with the same pressure, which has far fewer lines where the machine
was busy.

  tools/fold TRACE --window 1 > FOLDED

Within each window of S seconds other events replace the original ones, so that each group was in
each state for the same time on each processor. A replay at a tick of S seconds, or of a multiple,
prints the same for both traces: totals, averages, signals and kills; but times are rounded to whole
ns. So totals may differ by 1 us, and a signal or an average whose time is exactly at an edge may
differ. The details that --live or a --tick-ms below S would show are lost, and so is which task did
what when within a window.

TRACE is a file for psi_oomd, or - for the standard input. `whatif` is exact up to the first kill.
After it, it is exact if the victim is among the groups that --victims or --rules select, and no
task came to that group, left it or moved within it later; a line on standard error says until when
some did.

Each window is checked before it is written: other code replays its lines, and compares the sums
with those of TRACE.

The status is 0; 2 for a usage error, if something can't be read or written, or TRACE isn't a trace;
3 if the folded trace has more events or tasks than a trace may have, so that the output has no end
line, or if it is longer than TRACE; and 4 if the check found a difference, which is a bug of this
tool: then the output ends before that window, and has no end line.
"""
from __future__ import annotations

import re
import sys
from collections.abc import Iterable, Iterator
from itertools import chain, islice
from typing import IO, NamedTuple

from psicli.fault import Fault
from psicli.parser import Parser
from psicli.running import complain, run
from psicli.status import Status
from psiread.kinds import HEAD, kind_of, kind_of_file
from psiread.source import Unreadable
from psireplay.sampled import refusal, sampled_in
from psiworld.limits import MOST_EVENTS, MOST_PROCESSORS

from .check import Different
from .fold import Fold, TooMany
from .words import Folding, Progress, add_window, folding_lines, folding_of, is_longer
from .world import NotATrace, shortened

HEADER = re.compile("psitrace ([12]) cpus=([1-9][0-9]?)")
MAKE_FEWER = ", and so does a longer window"
# LINES is the number of lines that are read at once. MARK_LINES is the number of lines at the start
# of a trace that can contain the mark of a trace made from samples (psireplay/sampled.py).
LINES = 10_000
MARK_LINES = 3


class Options(NamedTuple):
    """The parsed command line."""

    trace: str
    folding: Folding


def options_of() -> Options:
    """Parses the command line."""
    words = Parser(__doc__)
    words.add_argument("trace", metavar="TRACE", help="the trace, or - for the standard input")
    add_window(
        words,
        "--window",
        True,
        "the length of a window in seconds: that of the tick, or a whole part of it",
    )
    found = words.values()
    folding = folding_of(found)
    assert folding
    return Options(found["trace"], folding)


def opened(name: str) -> IO[str]:
    """Opens the trace for reading."""
    try:
        return open(
            0 if name == "-" else name,
            encoding="ascii",
            errors="surrogateescape",
            newline="\n",
            closefd=name != "-",
        )
    except OSError as fault:
        kind = kind_of_file(name)
        raise Unreadable(f"{name}: {kind or fault.strerror}") from None


def processors_of(header: str) -> int:
    """Returns the number of processors, parsed from the header of a trace."""
    found = HEADER.fullmatch(header)
    if not found or int(found[2]) > MOST_PROCESSORS:
        kind = kind_of(f"{header}\n".encode("ascii", "surrogateescape")[:HEAD] if header else b"")
        raise NotATrace(f"line 1: there is no header of a trace{f': {kind}' if kind else ''}")
    return int(found[2])


def lines_of(file: Iterable[str]) -> Iterator[str]:
    """Yields the lines after the header, without newlines."""
    for number, line in enumerate(file, 2):
        if not line.isascii():
            raise NotATrace(f"line {number} has bytes that aren't ASCII")
        if line[-1] != "\n":
            raise NotATrace(f"the last line, '{shortened(line)}', has no newline")
        yield line[:-1]


class Output:
    """Writes lines to standard output. Raises TooMany if there are more events than a trace may
    have.
    """

    def __init__(self) -> None:
        self.events = 0

    def put(self, lines: list[str]) -> None:
        """Writes lines of events, and counts them."""
        self.events += len(lines)
        if self.events > MOST_EVENTS:
            raise TooMany(f"{MOST_EVENTS} events")
        self.write(lines)

    def write(self, lines: list[str]) -> None:
        """Writes lines that aren't events, and doesn't count them."""
        sys.stdout.write("".join(f"{line}\n" for line in lines))


def refuse_victims(options: Options, beginning: list[str]) -> None:
    """Rejects --victims for a trace that was made from samples. Such a trace doesn't show the
    pressure that other groups would have had without a victim.
    """
    found = sampled_in("".join(beginning).encode("ascii", "replace"))
    if found and options.folding.victims:
        raise Fault(
            refusal(
                options.trace,
                found,
                "what others would have had without a victim, so victims can't be kept",
            )
        )


def fold_trace(options: Options) -> int:
    """Folds a trace, and returns the exit status."""
    with opened(options.trace) as file:
        beginning = list(islice(file, MARK_LINES))
        refuse_victims(options, beginning)
        header = beginning[0].rstrip("\n") if beginning else ""
        output = Output()
        fold = Fold(
            processors_of(header), options.folding.length, output.put, options.folding.victims
        )
        output.write([header])
        source, progress = lines_of(chain(beginning[1:], file)), Progress("fold")
        while lines := list(islice(source, LINES)):
            fold.take(lines)
            progress.show(fold.written)
        progress.end()
        if not fold.is_ended:
            raise NotATrace("the last line isn't that of the end")
        outcome = fold.outcome()
        for line in folding_lines(options.folding, outcome):
            complain(line)
        return Status.INCOMPLETE if is_longer(outcome.counts) else Status.DONE


def fold() -> int:
    """Opens the trace that the arguments name, folds it, and returns the exit status."""
    options = options_of()
    try:
        return fold_trace(options)
    except NotATrace as fault:
        raise Fault(f"{options.trace}: {fault}") from None
    except TooMany as fault:
        advice = (
            f"a trace of fewer levels of groups makes fewer{MAKE_FEWER * ('events' in str(fault))}"
        )
        raise Fault(f"more than {fault} come of it: {advice}", Status.INCOMPLETE) from None
    except Different as fault:
        raise Fault(
            f"the check found a difference, and nothing more is written: {fault}", Status.DIFFERENT
        ) from None


def main() -> int:
    """Runs the command; returns the exit status."""
    return run(fold)
