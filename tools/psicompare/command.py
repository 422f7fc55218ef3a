"""Compares a trace with the recording from which it was made: its totals of each group's pressure
with those of the machine's own files.

  tools/compare FOLDER TRACE

FOLDER is a recording by tools/record, and TRACE the trace that tools/psitrace made from it. The
trace's totals are added up as the machine's kernel did: at the times at which it sampled each
group, and in 32 bits. If the recording doesn't show these times, the phase of each group's grid is
fitted, and reported. With --tick-ms the totals are those of a replay with such ticks: the program
is the psi_oomd beside tools, or the one in the variable PSI_OOMD.

The table has each file whose total grew by at least --shown-s: the growth from the first reading of
the machine's files in the trace to the last, in us, on the machine and in the trace, and the
difference in percent. A value that exceeds its limit has a mark (!); if the machine's own sums lost
something, since they have 32 bits, it has another (w). The kernel shows zeros in the root's full
line of cpu, and so does the trace.

The status is 0 if all totals are within the limits, 1 if one isn't, 2 if there was nothing to
compare: a usage error, something that can't be read, or no trace, and 12 if --from is after the
end of the recording.
"""
from __future__ import annotations

import subprocess
from collections.abc import Callable, Iterable, Iterator, Sequence
from functools import partial
from typing import Any, NamedTuple

from psicli.parser import Parser
from psicli.running import run
from psicli.status import Status
from psicli.times import SECOND
from psicli.values import decimal, length, nanoseconds, whole_number
from psiconvert.wakeups import bounds_of, lag_bounds, with_wakeups
from psinames.known import add_names, must_be_in
from psinames.shown import show_containers
from psiread.kinds import kind_of_file
from psiread.pressure import compared, machine_readings, made_in, readings_within, replay_series
from psiread.recording import read_recording
from psiread.source import Source, Unreadable
from psireplay.program import named_program
from psireplay.sampled import refusal, sampled
from psireplay.trace import end_in

from .agreement import Growth, asked_of, growths_of, sampling_of
from .clocks import Clocks
from .moments import COMMON_RATE, Moments, period_of
from .origin import must_be_in_order, must_be_of, must_have_switches_of
from .table import LEVELS, MICROSECONDS, Limits, Row, Shown, Span, cell_of, report

# The allowed errors (percent) of totals at the root and in other groups: first for the kernel's
# sampling times, then for a replay.
LIMITS, REPLAY_LIMITS = (1.5, 2.5), (2.5, 4.0)
TOO_FEW = "less than two readings of the machine's pressure files lie in the trace"


class Options(NamedTuple):
    """The parsed command line. `start`, `lag` and `lead_in` are in ns, `shown` is in us, and limits
    are in percent. `tick_ms` is None to use the kernel's sampling times. `hertz` is None to use the
    rate that the recording shows.
    """

    folder: str
    trace: str
    start: int
    tick_ms: int | None
    hertz: int | None
    lag: int | None
    lead_in: int
    limits: Limits
    shown: int
    values: dict[str, Any]


def parser() -> Parser:
    """Returns the parser of the command line."""
    words = Parser(__doc__)
    words.add_argument("folder", metavar="FOLDER", help="the recording")
    words.add_argument("trace", metavar="TRACE", help="the trace that was made from it")
    words.add_argument("--from", dest="start", metavar="S", type=nanoseconds, default=0,
                       help="where the trace begins in the recording: --from of psitrace, or as in "
                            "its summary (0)")  # fmt: skip
    words.add_argument("--lead-in", dest="lead_in", metavar="LENGTH", type=length, default=0,
                       help="the length of the trace's warm-up: --lead-in of psitrace")  # fmt: skip
    words.add_argument("--tick-ms", metavar="N", type=int,
                       help="compare with a replay by psi_oomd with such ticks")  # fmt: skip
    words.add_argument("--hz", dest="hertz", metavar="N", type=whole_number(24, 10_000),
                       help="the rate of the kernel's timer, CONFIG_HZ (from the recording, "
                            "else 250)")  # fmt: skip
    words.add_argument("--lag-us", dest="lag", metavar="N", type=whole_number(1, 10_000),
                       help="without probes: how long before its event the kernel counts a wakeup, "
                            "at most")  # fmt: skip
    words.add_argument("--root", metavar="PERCENT", type=decimal,
                       help="the limit at the root (1.5; with a replay 2.5)")  # fmt: skip
    words.add_argument("--groups", metavar="PERCENT", type=decimal,
                       help="the limit in groups (2.5; with a replay 4)")  # fmt: skip
    words.add_argument("--least-s", metavar="S", type=decimal, default=0.5,
                       help="totals below this have no limit (0.5)")  # fmt: skip
    words.add_argument("--shown-s", metavar="S", type=decimal, default=0.01,
                       help="totals below this aren't shown (0.01)")  # fmt: skip
    add_names(words)
    return words


def options_of() -> Options:
    """Parses the command line."""
    words = parser()
    found = words.values()
    root, groups = LIMITS if found["tick_ms"] is None else REPLAY_LIMITS
    if found["tick_ms"] is not None and (found["hertz"] or found["lag"]):
        words.error("--hz and --lag-us are for the kernel's own moments: not with --tick-ms")
    limits = Limits(
        root if found["root"] is None else found["root"],
        groups if found["groups"] is None else found["groups"],
        round(found["least_s"] * MICROSECONDS),
    )
    shown = round(found["shown_s"] * MICROSECONDS)
    lag = None if found["lag"] is None else found["lag"] * 1000
    return Options(found["folder"], found["trace"], found["start"], found["tick_ms"],
                   found["hertz"], lag, found["lead_in"], limits, shown, found)  # fmt: skip


def start_of(options: Options, source: Source) -> int:
    """Returns the time at which the trace starts (ns of the recording's clock)."""
    must_be_in("--from", options.start, source.stop - source.start, "recording")
    return source.start + options.start - options.lead_in


def span_line(first: int, last: int, length: int) -> str:
    """Returns the line that states the first and last compared reading, by number, and the time
    between them (ns).
    """
    return f"from reading {first} to {last} of the machine's files, {length / SECOND:.3f} s, in us"


# ---------------------------------------------------------------- comparison with a replay


def end_of(trace: str) -> int:
    """Returns the length of a trace (ns), from its last line. Rejects a trace that was made from
    samples, because it can't be compared with the events of a recording.
    """
    found = sampled(trace)
    if found:
        raise Unreadable(
            refusal(
                trace,
                found,
                (
                    "when its tasks changed their states, and tools/samples compared it with its"
                    " samples"
                ),
            )
        )
    try:
        with open(trace, "rb") as file:
            end = end_in(file)
    except OSError as fault:
        raise Unreadable(f"{trace}: {kind_of_file(trace) or fault.strerror}") from None
    if end is None:
        raise Unreadable(f"{trace}: {kind_of_file(trace) or 'it has no end line'}")
    return end


def replayed(trace: str, tick_ms: int) -> str:
    """Returns the output of psi_oomd for the trace, with one report per second."""
    program = named_program()
    words = [program, "replay", trace, "--tick-ms", str(tick_ms), "--report-s", "1"]
    try:
        done = subprocess.run(words, capture_output=True, text=True)
    except OSError as fault:
        raise Unreadable(f"{program}: {fault.strerror}") from None
    if done.returncode:
        raise Unreadable(f"{' '.join(words)}: status {done.returncode}: {done.stderr.strip()}")
    return done.stdout


def by_replay(options: Options, tick_ms: int) -> tuple[list[Row], Shown]:
    """Compares the machine's files with a replay of the trace."""
    source = read_recording(options.folder, True)
    start, end = start_of(options, source), end_of(options.trace)
    must_be_of(source, options.trace, start, end, options.lead_in)
    series = replay_series(replayed(options.trace, tick_ms))
    found = compared(
        machine_readings(options.folder, source), series, made_in(source), start, start + end
    )
    if found is None:
        raise Unreadable(TOO_FEW)
    rows = [Row(pair.file, pair.machine, pair.replay) for pair in found.pairs]
    return rows, Shown(
        [span_line(found.first, found.last, found.length)], "replay", "", options.shown
    )


# ------------------------------------------------- comparison at the kernel's own sampling times


def clocks_of(trace: str, edited: Callable[[Iterable[str]], Iterable[str]] = iter) -> Clocks:
    """Returns the clocks of a trace, whose lines are passed through `edited`. Raises Unreadable at
    a line that can't be replayed. All other checks of the trace are left to psi_oomd.
    """
    number = 1

    def counted(lines: Iterable[str]) -> Iterator[str]:
        nonlocal number
        for number, line in enumerate(lines, 2):
            if not line.isascii():
                raise Unreadable(f"{trace}: line {number} has bytes that aren't ASCII")
            yield line

    try:
        with open(trace, encoding="ascii", errors="surrogateescape") as file:
            if file.readline().split()[:1] != ["psitrace"]:
                raise Unreadable(f"{trace}: {kind_of_file(trace) or 'this is no trace'}")
            clocks = Clocks(edited(counted(file)))
    except OSError as fault:
        raise Unreadable(f"{trace}: {kind_of_file(trace) or fault.strerror}") from None
    except (LookupError, ValueError, TypeError, OverflowError):
        raise Unreadable(
            f"{trace}: line {number} can't be followed: psi_oomd check says what is wrong with it"
        ) from None
    if clocks.now != end_of(trace):
        raise Unreadable(f"{trace}: it goes on after its end")
    return clocks


def extremes_of(options: Options, source: Source) -> list[Clocks]:
    """Returns two histories of the trace. In one, each wakeup is at the latest time at which the
    kernel may have counted it, and in the other at the earliest. Returns an empty list if these
    times are unknown.
    """
    if not source.has_ready_probe and options.lag is None:
        return []
    found = []
    for is_first in (False, True):
        start = start_of(options, source)
        bounds = (
            bounds_of(source.events, start)
            if source.has_ready_probe
            else lag_bounds(options.lag or 0)
        )
        found.append(
            clocks_of(options.trace, partial(with_wakeups, bounds=bounds, is_first=is_first))
        )
    return found


def row_of(growth: Growth, phase: int | None, extremes: Sequence[Growth] = ()) -> Row:
    """Returns the table row for a file. `phase` (ns) is None if the sampling times are known, and
    `extremes` are bounds of the trace's growth.
    """
    right = growth.true if growth.true != growth.kernel else None
    note = "" if phase is None else f"{phase // 10**6} ms"
    some, full = ([it.kernel[level] for it in (growth, *extremes)] for level in range(len(LEVELS)))
    bars = (Span(min(some), max(some)), Span(min(full), max(full))) if extremes else None
    return Row(growth.file, growth.machine, growth.kernel, bars, right, note)


def is_shown(machine: dict[str, tuple[int, int]], options: Options) -> bool:
    """Returns whether a group's files grew enough for its sampling times to be fitted."""
    return max(max(it) for it in machine.values()) >= min(options.shown, options.limits.least)


def by_moments(options: Options) -> tuple[list[Row], Shown]:
    """Compares the machine's files with the trace. Each group is sampled at the kernel's sampling
    times.
    """
    source = read_recording(options.folder, True)
    start, clocks = start_of(options, source), clocks_of(options.trace)
    must_be_of(source, options.trace, start, clocks.now, options.lead_in)
    must_have_switches_of(source, options.trace, start, options.lead_in)
    samplings = Moments(source, machine_readings(options.folder, source))
    inside = readings_within(samplings.readings, start, start + clocks.now)
    if len(inside) < 2:
        raise Unreadable(TOO_FEW)
    hertz = options.hertz or samplings.hertz or COMMON_RATE
    extremes, rows = extremes_of(options, source), []
    for asked in asked_of([samplings.readings[number] for number in inside], clocks, start):
        if samplings.knows(asked.path, inside[-1]) or is_shown(asked.machine, options):
            sampling = sampling_of(asked, clocks, samplings, inside, start, hertz)
            ways = [growths_of(asked, it, sampling, hertz) for it in (clocks, *extremes)]
            rows += [row_of(growth, sampling.phase, others) for growth, *others in zip(*ways)]
    first, last = (
        min(it.time_ns for it in samplings.readings[number].values())
        for number in (inside[0], inside[-1])
    )
    fitted = any(row.note for row in rows)
    head = [
        span_line(inside[0], inside[-1], last - first),
        *sampling_lines(samplings, fitted, hertz, options),
        *bar_lines(options, source),
    ]
    return sorted(rows), Shown(head, "trace", "phase" if fitted else "", options.shown)


def bar_lines(options: Options, source: Source) -> list[str]:
    """Returns the lines that explain the ranges of growth."""
    if source.has_ready_probe:
        return [
            "from .. to: with wakeups at their events, and when psi counted them; what lies between"
            " the recording doesn't say"
        ]
    if options.lag:
        return [
            f"from .. to: with wakeups at their events, and {options.lag // 1000} us before, as"
            " --lag-us says"
        ]
    return []


def sampling_lines(samplings: Moments, fitted: bool, hertz: int, options: Options) -> list[str]:
    """Returns the lines that explain how the sampling times were found."""
    if samplings.is_known:
        line = "each group is sampled when the kernel did, as the recording says"
        return [
            line + "; of those with a phase it doesn't, and that is fitted by all readings" * fitted
        ]
    rate = f"its timer has {hertz} Hz" + (
        "" if options.hertz else ", which is a guess: --hz sets it"
    )
    period = f"{period_of(hertz) / SECOND:.3f} s"
    return [
        (
            "the recording doesn't say when the kernel sampled: each group is sampled at its"
            " readings and each"
        ),
        (
            f"{period} ({rate}), and how far after the first reading that begins, its phase, is"
            " fitted by all readings"
        ),
    ]


def cause_lines(rows: Sequence[Row], limits: Limits) -> list[str]:
    """Returns lines with the known causes of totals that exceed their limits."""
    cells = [(row, cell_of(row, level, limits)) for row in rows for level in range(len(LEVELS))]
    beyond = [(row, cell) for row, cell in cells if cell.is_beyond]
    short = [
        row
        for row, cell in beyond
        if row.file.resource == "cpu" and not row.bars and cell.off and cell.off[1] < 0
    ]
    lines = []
    if short:
        lines.append(
            f"{len(short)} of cpu are too small: the kernel counts a wakeup before it writes the"
            " event, and this recording doesn't say how long before. record --wakeups does;"
            " --lag-us N shows what up to N us make of it"
        )
    if len(short) < len(beyond):
        lines.append(
            f"{len(beyond) - len(short)} have no cause that is known here: see what psitrace says"
            " was mended, guessed or lost"
        )
    return lines


# ---------------------------------------------------------------- running the command


def compare() -> int:
    """Compares a trace with its recording, prints the table, and returns the exit status."""
    options = options_of()
    must_be_in_order(options.folder, options.trace)
    show_containers([options.trace], options.values)
    rows, shown = (
        by_moments(options) if options.tick_ms is None else by_replay(options, options.tick_ms)
    )
    text, beyond = report(rows, options.limits, shown)
    print(text)
    if options.tick_ms is None:
        for line in cause_lines(rows, options.limits):
            print(line)
    return Status.FOUND if beyond else Status.DONE


def main() -> int:
    """Runs the command, and returns the exit status."""
    return run(compare)
