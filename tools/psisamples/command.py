"""The options and the report of the command tools/samples."""
from __future__ import annotations

import argparse
import re
import sys
import time

from psicli.fault import Fault, Malformed
from psicli.options import add_span
from psicli.output import must_be_writable
from psicli.parser import Parser
from psicli.running import complain, run
from psicli.status import Status
from psicli.times import SECOND, WallTime, duration, seconds
from psicli.values import length, whole_number
from psicli.wording import suggested
from psinames.clock import time_in
from psinames.known import must_be_in
from psiworld.limits import MOST_EVENTS

from .block import LEVELS, TICK
from .data import Data, counted
from .inputs import LONG, Inputs, Naming
from .options import Options, Trigger
from .parts import Made, Maker

ABOUT = (
    "Makes a trace of sampled totals of pressure: rules, triggers, charts and reports then work on "
    "a time of which there is no recording. "
    "FILE is CSV as tools/sample writes it, JSON lines, the answer of Prometheus to a query with a "
    "range, the output of promtool tsdb "
    "dump, OpenMetrics text, the output of a loop over the pressure files, or a recording's "
    "folder; docs/SAMPLES.md has all forms, and "
    "what such a trace can't answer."
)
STATUS = (
    "Each trace is replayed and compared with the samples before it gets its name. Statuses: 2 a "
    "usage error, a file that isn't "
    "samples, or an output that can't be written, 4 totals differ by more than was reported, 11 no "
    "such group, 12 a time outside the samples."
)
HELP = {
    "output": "the trace to write; a longer time becomes several, with numbers before the ending",
    "groups": "leave out groups of more than N components",
    "rename": "give a group, with all below it, another path",
    "labels": (
        "name groups by these labels of metrics, with commas between, in place of the label id"
    ),
    "lead-in": (
        "begin with a pretended past of this length, as 12min, by which averages begin as the "
        "machine's; samples need averages"
    ),
    "averages": (
        "whether a total grows between two samples as avg10 at both says; yes for intervals of at "
        "least 14 s if left out"
    ),
    "trigger": (
        "add a trigger, as '/web io some 500000 2000000': a group, a resource, a level, and the "
        "threshold and the window in us"
    ),
    "lines": "write at most N lines to a trace (4000000)",
}
# The shortest and the longest warm-up before the first sample (ns).
LEAST_PAST, MOST_PAST = 120 * SECOND, 3600 * SECOND
SHOWN = 8
TRIGGER = re.compile(r"(/\S*) (io|memory|cpu) (some|full) ([1-9][0-9]*) ([1-9][0-9]*)")


def parser() -> Parser:
    """Returns the parser of the command line."""
    words = Parser(ABOUT, STATUS)
    option = words.add_argument
    option("files", metavar="FILE", nargs="+",
           help="samples; several files may have several groups or times")  # fmt: skip
    option("-o", "--output", metavar="TRACE", required=True, help=HELP["output"])
    add_span(words, "samples", None)
    option("--groups", metavar="DEPTH", type=whole_number(1, 32), help=HELP["groups"])
    option("--rename", metavar="OLD=PATH", action="append", default=[], type=renaming,
           help=HELP["rename"])  # fmt: skip
    option("--labels", metavar="NAMES", default="", help=HELP["labels"])
    option("--lead-in", dest="lead", metavar="LENGTH", type=past, help=HELP["lead-in"])
    option("--averages", choices=("yes", "no"), help=HELP["averages"])
    option("--trigger", metavar="TEXT", action="append", default=[], type=trigger,
           help=HELP["trigger"])  # fmt: skip
    option("--lines", metavar="N", type=whole_number(1000, MOST_EVENTS), default=MOST_EVENTS,
           help=HELP["lines"])  # fmt: skip
    return words


def past(word: str) -> int:
    found = length(word)
    if found % TICK or not LEAST_PAST <= found <= MOST_PAST:
        raise Malformed(f"{word} isn't 120 s to 1 h in whole ticks of 2 s")
    return found


def renaming(word: str) -> tuple[str, str]:
    old, _, new = word.rpartition("=")
    if not old or not new.startswith("/"):
        raise Malformed(f"{word} isn't OLD=/PATH")
    return old, new


def trigger(word: str) -> Trigger:
    found = TRIGGER.fullmatch(word)
    if not found or not 500_000 <= int(found[5]) <= 10_000_000 or int(found[4]) > int(found[5]):
        raise Malformed(
            f"{word!r} isn't '/GROUP io some THRESHOLD WINDOW', in us, of a window of 0.5 to 10 s"
        )
    return Trigger(found[1], word.partition(" ")[2])


# ---------------------------------------------------------------- running the conversion


def read(arguments: argparse.Namespace) -> Data:
    """Reads all samples in the input files."""
    labels: tuple[str, ...] = tuple(filter(None, arguments.labels.split(",")))
    averages = {"yes": True, "no": False, None: None}[arguments.averages]
    averages = True if arguments.lead is not None else averages
    inputs = Inputs(Naming(dict(arguments.rename), arguments.groups, labels), averages)
    for name in arguments.files:
        inputs.read(name)
    return counted(inputs)


def span_of(arguments: argparse.Namespace, data: Data) -> tuple[int, int]:
    """Returns the start and the end of the trace (ns since 1970): those of the command line, or
    those of the samples.
    """
    length, wall = data.end - data.start, WallTime(data.start, 0)
    ends = []
    for option, value, default in (("--from", arguments.start, 0), ("--to", arguments.end, length)):
        at = default if value is None else time_in(value, wall, length, option)
        must_be_in(option, at, length, "samples")
        ends.append(data.start + at)
    if ends[0] + TICK > ends[1]:
        raise Fault(f"--from and --to leave less than a tick of {seconds(TICK)} s", Status.NO_TIME)
    return ends[0], ends[1]


def must_see(triggers: list[Trigger], data: Data) -> None:
    """Rejects a trigger whose window is too short for the samples, or whose group has no samples.
    """
    for it in triggers:
        window = int(it.fields.split()[-1]) * 1000
        if window < 2 * data.every:
            least = seconds(2 * data.every)
            raise Fault(
                f"--trigger '{it.path} {it.fields}': samples each {seconds(data.every)} s "
                f"don't show windows below {least} s"
            )
        if it.path not in data.groups:
            near = suggested(it.path, sorted(data.groups))
            what = f"no group {it.path} in the samples, which have {near}"
            raise Fault(f"--trigger '{it.path} {it.fields}': {what}", Status.NO_GROUP)


class Progress:
    """Shows the progress of the conversion on a terminal."""

    def __init__(self, whole: int) -> None:
        self.whole, self.shown, self.is_shown = whole, time.monotonic(), sys.stderr.isatty()

    def show(self, done: int) -> None:
        """Shows that `done` ns are converted. Updates the terminal at most twice a second."""
        if self.is_shown and time.monotonic() > self.shown + 0.5:
            self.shown = time.monotonic()
            print(f"\rsamples: {min(100, 100 * done // max(1, self.whole))} %", end="",
                  file=sys.stderr, flush=True)


def report(data: Data, made: Made, span: int) -> list[str]:
    """Returns the lines of the report on the written traces, which cover `span` ns."""
    longest = f", the longest {seconds(data.gap)} s" if data.gap > data.every else ""
    several = f", in {len(made.names)} traces that overlap by 15 min" if len(made.names) > 1 else ""
    sampled = f"sampled each {seconds(data.every)} s{longest}{several}"
    least = seconds(2 * data.every)
    lines = [
        f"{duration(span)} of {len(data.groups)} groups, {sampled}",
        f"{sum(made.lines)} lines on {made.processors} processors; "
        f"{made.compared} totals were compared with a replay",
        "tasks, processors and who ran when are made up: "
        "docs/SAMPLES.md says what this trace can't answer",
        f"stalls shorter than {least} s may show at a part of their height, "
        "and triggers with shorter windows may not signal",
    ]
    if not data.has_scans:
        lines.append(
            "no count of scanned pages is in it: memory_reclaim and kill_by_pg_scan see none"
        )
    if not data.has_host:
        lines.append(
            "no memory of the machine is in it: swap_free and percentages of memory see none"
        )
    if made.again:
        lines.append(f"groups that were made again: {made.again}")
    worst = sorted(made.off.items(), key=lambda it: -it[1].most)
    for (path, level), off in worst[:SHOWN]:
        name = f"{path} {' '.join(LEVELS[level])}"
        lines.append(f"{name}: {off.times} totals are off, by {off.most} us at most")
    if worst[SHOWN:]:
        count, most = len(worst) - SHOWN, worst[SHOWN][1].most
        lines.append(f"so are totals of {count} more levels, by {most} us at most")
    return lines


def work(arguments: argparse.Namespace) -> int:
    """Converts the samples to one or more traces, and returns the exit status."""
    must_be_writable(arguments.output)
    data = read(arguments)
    must_see(arguments.trigger, data)
    start, end = span_of(arguments, data)
    if arguments.lead is not None and not data.has_averages:
        raise Fault(
            "--lead-in needs avg10, avg60 and avg300 at the first samples: these have totals alone"
        )
    if arguments.averages == "yes" and not data.has_averages:
        raise Fault("--averages needs avg10 in the samples: these have totals alone")
    is_shaped = (
        arguments.averages == "yes"
        or arguments.averages is None and data.has_averages and data.every >= LONG
    )
    options = Options(tuple(arguments.trigger), (arguments.lead or 0) // TICK, is_shaped)
    show = Progress(end - start).show
    made = Maker(data, start, end, options, arguments.lines, show).make(arguments.output)
    for line in report(data, made, end - start):
        complain(f"{line}")
    for at, path, level, total, found in made.wrong[:SHOWN]:
        said = "none" if found is None else f"{found} us"
        complain(
            f"at {seconds(at)} s {path} {' '.join(LEVELS[level])} is {said}, by the samples "
            f"{total} us"
        )
    if made.wrong:
        complain(f"{len(made.wrong)} of {made.compared} totals differ: nothing is written")
    return Status.DIFFERENT if made.wrong else Status.DONE


def main() -> int:
    """Runs the command; returns the exit status."""
    return run(lambda: work(parser().parse_args()))
