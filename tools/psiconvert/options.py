"""Parses the command line of tools/psitrace."""
from __future__ import annotations

import re
from collections.abc import Sequence
from typing import NamedTuple

from psicli.fault import Malformed
from psicli.output import must_be_writable
from psicli.parser import Parser
from psicli.times import SECOND, WallTime
from psicli.values import length, whole_number
from psifold.words import Folding, add_window, folding_of
from psinames.clock import TraceTime
from psinames.known import add_times, must_fit
from psiread.waits import Method
from psirec.layout import RESOURCES, escaped_path
from psiworld.limits import LEAST_WINDOW, MOST_PROCESSORS, MOST_WINDOW

from .lead_in import TICK
from .wakeups import Counting

ABOUT = """\
Converts a recording of a whole machine, or ftrace's text, to a psitrace, and reports on standard \
error how exact it is.

  tools/psitrace FOLDER > X.trace             a folder that tools/record wrote: groups, memory, \
and all that a trace can express
  tools/psitrace TEXT --cpus N > X.trace      text of trace, trace_pipe, trace-cmd report or perf \
script: as much as it contains

A text is a file (possibly gzipped) or - for the standard input. S is a number of seconds with at \
most nine decimals, from the
start of the recording. The trace always begins at 0, even if it is cut from the middle. It has \
version 2 with --interrupts, and if a
group wasn't accounted all the time (its cgroup.pressure was 0); else version 1.

The status is 0; 2 for a usage error, or if something can't be read or written; 3 if events were \
lost or a limit of traces was reached,
and if folding makes the trace longer: then nothing is written, except with --force, which writes \
the longest stretch without losses;
4 if the check of a folded trace found a difference, which is a bug of this tool; 11 for a group \
of --trigger that isn't in the
trace; and 12 for a time outside the recording.
"""
LEVELS = ("some", "full")
MOST_TRIGGERS = 256
# The shortest and the longest warm-up (ns), by the option --lead-in.
LEAST_PAST, MOST_PAST = 300 * SECOND, 3600 * SECOND


class Options(NamedTuple):
    """The parsed command line. `wall` is the time of day at the start, or None if no option gives
    it. `window` is the length (ns) of the part around the time `at`, and `lead_in` the length (ns)
    of the warm-up.
    """

    source: str
    output: str | None
    processors: int | None
    method: Method | None
    start: TraceTime | None
    end: TraceTime | None
    at: TraceTime | None
    window: int | None
    wall: WallTime | None
    tz: str | None
    deepest: int | None
    triggers: list[str]
    has_interrupts: bool
    is_forced: bool
    folding: Folding | None
    counting: Counting | None
    lead_in: int | None
    no_names: bool
    is_anonymous: bool


def trigger_of(text: str) -> str:
    """Parses a trigger, and returns it in the form of a trace's line."""
    words = text.split()
    is_whole = len(words) == 5 and words[0].startswith("/")
    is_whole = is_whole and words[1] in RESOURCES and words[2] in LEVELS
    if not is_whole or not all(re.fullmatch("[1-9][0-9]{0,7}", word) for word in words[3:]):
        raise Malformed(f"'{text}' isn't 'PATH io|memory|cpu some|full THRESHOLD WINDOW'")
    if not LEAST_WINDOW <= int(words[4]) <= MOST_WINDOW or int(words[3]) > int(words[4]):
        raise Malformed(
            f"'{text}': a window is {LEAST_WINDOW} to {MOST_WINDOW} us, a threshold at most that"
        )
    return " ".join([escaped_path(words[0].encode("utf-8", "surrogateescape")), *words[1:]])


def parser() -> Parser:
    """Returns the parser of the command line."""
    words = Parser(ABOUT)
    add = words.add_argument
    add("source", metavar="FOLDER|TEXT",
        help="a folder of tools/record, or a file of ftrace's text")
    add("-o", dest="output", metavar="FILE",
        help="write the trace to FILE instead of the standard output, and names of its tasks and "
             "its time of day to FILE.names")
    add_reading(words)
    add_times(words)
    add_contents(words)
    add("--no-names", action="store_true",
        help="leave the names of tasks and containers out of FILE.names")
    add("--anonymize", dest="is_anonymous", action="store_true",
        help="replace groups and tasks by numbers, and leave out their names")
    add("--force", dest="is_forced", action="store_true",
        help="if something was lost, write the longest stretch without loss")
    return words


def add_reading(words: Parser) -> None:
    """Adds the options that say how to interpret the input."""
    add = words.add_argument
    add("--cpus", dest="processors", metavar="N", type=whole_number(1, MOST_PROCESSORS),
        help="the number of processors of a text's machine (without it: as many as the text shows)")
    add("--iowait", dest="method", choices=[it.value for it in Method],
        help="what shows a wait for IO: a probe of the recorder, sched_stat_iowait, or each sleep "
             "in state D (without it the first of these that the recording has)")
    add("--wakeups", dest="counting", choices=[it.value for it in Counting],
        help="the time of a wakeup: when psi counted it, by a probe of the recorder; halfway from "
             "there to its event; or at its event (without it the first of these that the "
             "recording has)")


def add_contents(words: Parser) -> None:
    """Adds the options that say what the trace contains."""
    add = words.add_argument
    add("--groups", dest="deepest", metavar="DEPTH", type=whole_number(0, 32),
        help="groups down to DEPTH levels below the root; deeper ones count in their ancestor; "
             "0: the root alone")
    add("--trigger", dest="triggers", metavar="'PATH RES LEVEL THRESHOLD WINDOW'",
        type=trigger_of, action="append", default=[],
        help="add a trigger to the trace, times in us, such as '/ memory full 100000 1000000'; "
             "may be repeated")
    add("--interrupts", dest="has_interrupts", action="store_true",
        help="write how long interrupts held up the running tasks, if the recorder's machine "
             "accounted them")
    add("--lead-in", dest="lead_in", metavar="LENGTH", type=length,
        help="begin with a warm-up of this length, as 12min, so that averages begin as the "
             "machine's did; at least 5min")
    add_window(words, "--fold", False,
               "fold the trace into windows of S seconds, which divide the tick's length: the "
               "pressure at such ticks is the same, and its size depends on the recording's length "
               "instead of its events")


def options_of(arguments: Sequence[str] | None) -> Options:
    """Parses the command line."""
    words = parser()
    found = words.values(arguments)
    if len(found["triggers"]) > MOST_TRIGGERS:
        words.error(f"more than {MOST_TRIGGERS} triggers")
    must_fit(found)
    lead_in = found["lead_in"]
    if lead_in is not None and (not LEAST_PAST <= lead_in <= MOST_PAST or lead_in % TICK):
        words.error(
            f"--lead-in is {LEAST_PAST // SECOND} to {MOST_PAST // SECOND} s, in whole ticks of 2 s"
        )
    found["folding"] = folding_of(found)
    if found["folding"] and lead_in:
        words.error(
            "--lead-in isn't for --fold: make the trace with its past, and fold that by tools/fold"
        )
    found["method"] = Method(found["method"]) if found["method"] else None
    found["counting"] = Counting(found["counting"]) if found["counting"] else None
    if found["output"] is not None:
        must_be_writable(found["output"])
    return Options(**found)
