"""Converts a recording as the command line requests, and writes the trace and the report."""
from __future__ import annotations

import os
import sys
from collections.abc import Iterable, Iterator, Sequence
from typing import IO, NamedTuple

from psicli.fault import Fault
from psicli.running import run
from psicli.status import Status
from psicli.times import WallTime
from psifold.check import Different
from psifold.words import folding_lines, is_longer
from psifold.world import NotATrace
from psiftrace.text import read_text
from psinames.clock import in_zone
from psinames.companion import Companion, companion_of, digest_of
from psinames.companion import write as write_file
from psinames.known import span_in
from psiread.events import Interrupts, SwitchProbe, WaitEnds
from psiread.files import text_of
from psiread.pressure import spans_of
from psiread.recording import read_recording
from psiread.slices import Survey
from psiread.source import Source, Unreadable
from psiread.waits import Method, best_method
from psiread.window import Window, longest_stretch, loss_text, overlapping
from psirec.layout import PRESSURE
from psiworld.limits import MOST_PROCESSORS

from .anonymous import Anonymous
from .companion import Written, companion
from .convert import Converted, Past, Wanted, convert
from .folded import Slices, convert_folded
from .lead_in import TICK, averages_in
from .options import Options, options_of
from .slices import looked_ahead
from .summary import limit_lines, summary_of
from .unwritten import UNWRITTEN, silent_tasks, with_unwritten
from .wakeups import Counting, Wakeups

# A recording of at least this size (bytes) is large: several processes survey it, and a separate
# process folds its trace.
LARGE = 16 << 20
DEFAULT_PREFERENCES = {"prefer": "prefer", "avoid": "avoid", "omit": "avoid"}


def tell(line: str) -> None:
    """Prints a line on standard error."""
    print(f"psitrace: {line}", file=sys.stderr)


class Reading(NamedTuple):
    """The input. Without folding, `source` contains all events. With folding it contains only the
    rare events, and `slices` returns all events in slices. `silent` contains the tasks for which no
    event shows that they leave a processor.
    """

    source: Source
    slices: Slices
    silent: set[int]


def reading_of(options: Options) -> Reading:
    """Reads the recording or the ftrace text that the options name."""
    if not os.path.isdir(options.source):
        source = read_text(options.source, options.processors)
        return Reading(source, lambda: [source.events], silent_tasks(source.events))
    if options.processors:
        raise Fault("--cpus is for texts: a recording says how many processors it has")
    if options.folding is None:
        return Reading(read_recording(options.source, options.is_forced), lambda: [], set())
    survey = Survey(options.source, is_large(options))
    source = read_recording(options.source, options.is_forced, survey.read)
    return Reading(source, lambda: survey.slices(source.whole_from), survey.silent)


def set_clock(options: Options, source: Source) -> None:
    """Sets the recording's start and its time zone, if the options give them."""
    if options.wall:
        source.realtime, source.ahead = options.wall.epoch - source.start, options.wall.ahead
    if source.realtime is not None:
        start = WallTime(source.start + source.realtime, source.ahead)
        source.ahead = in_zone(start, options.tz).ahead


def part_of(options: Options, source: Source, whole: Window) -> Window:
    """Returns the part of the recording that the options select."""
    wall = None
    if source.realtime is not None:
        wall = WallTime(whole.start + source.realtime, source.ahead)
    span = span_in(options._asdict(), wall, whole.length(), "recording")
    return Window(whole.start + span.start, whole.start + span.end)


def method_of(options: Options, source: Source) -> Method:
    """Returns the method by which waits for IO are recognized: the requested one, or by default the
    most exact method that the recording supports. Raises a Fault if the recording doesn't support
    the requested method.
    """
    best = best_method(source.events, source.has_switch_probe)
    kinds = {type(event) for event in source.events} if options.method else set()
    has_probe = source.has_switch_probe or SwitchProbe in kinds
    has = {Method.PROBE: has_probe, Method.STATISTICS: WaitEnds in kinds, Method.STATE: True}
    if options.method and not has[options.method]:
        raise Fault(
            f"--iowait {options.method.value}: the recording has no such events; "
            f"it has {best.value}"
        )
    return options.method or best


def wakeups_of(options: Options, source: Source) -> Wakeups:
    """Returns the object that moves wakeups to the requested time. Raises a Fault if that requires
    a probe that the recording lacks.
    """
    counting = options.counting or (Counting.PROBE if source.has_ready_probe else Counting.EVENT)
    if counting is not Counting.EVENT and not source.has_ready_probe:
        raise Fault(
            f"--wakeups {counting.value}: the recording has no such probe (record --wakeups)"
        )
    return Wakeups(counting)


def check_interrupts(options: Options, source: Source) -> None:
    """Raises a Fault if the option --interrupts is set, but the recording has no events of
    interrupts.
    """
    if options.has_interrupts and not any(isinstance(event, Interrupts) for event in source.events):
        raise Fault(
            "--interrupts: the recording has no such events: its kernel doesn't account "
            "interrupts, or is newer than 6.9"
        )


def upon_of(options: Options, source: Source) -> dict[str, list[str]]:
    """Returns the lines to write when a group is created, keyed by the group's path: its preference
    and its triggers. The lines have no time yet.
    """
    upon: dict[str, list[str]] = {}
    for path, preference in sorted(source.snapshot.groups.items()):
        if preference != "none":
            upon.setdefault(path, []).append(f"prefer {path} {DEFAULT_PREFERENCES[preference]}")
    for trigger in options.triggers:
        upon.setdefault(trigger.split(" ")[0], []).append(f"trigger {trigger}")
    return upon


def past_of(options: Options, source: Source, window: Window) -> Past | None:
    """Returns the requested warm-up, or None if there is none. Its averages are those in the
    reading of the pressure files that is nearest to the start.
    """
    if options.lead_in is None:
        return None
    spans = spans_of(source) if os.path.isdir(options.source) else {}
    number = min(spans, key=lambda it: abs(spans[it][0] - window.start), default=None)
    averages = averages_in(text_of(options.source, PRESSURE), number) if number is not None else {}
    if not averages:
        raise Fault("--lead-in: the recording has no reading of the machine's pressure files")
    return Past(options.lead_in // TICK, averages)


def put_in_unwritten(source: Source, window: Window) -> None:
    """Inserts the switches that the kernel didn't write, and counts those within the window."""
    source.events, times_ns = with_unwritten(source.events, source.gaps)
    source.mended[UNWRITTEN] += sum(window.start <= it <= window.end for it in times_ns)


def losses_of(source: Source, window: Window, whole: Window) -> list[str]:
    """Returns the lines about events that were lost in the window. If the window is the whole
    recording, the lines include losses before the first event.
    """
    gaps = source.gaps if window == whole else overlapping(source.gaps, window)
    return [f"lost: {it}" for it in [*source.losses, *([loss_text(gaps, whole)] if gaps else [])]]


def write(options: Options, parts: Iterable[bytes]) -> Written:
    """Writes the trace, and returns its size and SHA-256."""
    if options.output is None:
        written = Written(*digest_of(passed_on(parts, sys.stdout.buffer)))
        sys.stdout.buffer.flush()
        return written
    try:
        with open(options.output, "wb") as file:
            return Written(*digest_of(passed_on(parts, file)))
    except OSError as fault:
        raise Unreadable(f"{options.output}: {fault.strerror}") from None


def passed_on(parts: Iterable[bytes], file: IO[bytes]) -> Iterator[bytes]:
    """Writes each part to `file`, and then yields it."""
    for part in parts:
        file.write(part)
        yield part


def write_companion(options: Options, known: Companion) -> None:
    """Writes the companion file next to the trace, if the trace is a regular file."""
    if options.output is None or not os.path.isfile(options.output):
        return
    name = companion_of(options.output)
    try:
        write_file(name, known)
    except OSError as fault:
        raise Unreadable(f"{name}: {fault.strerror}") from None


def is_large(options: Options) -> bool:
    """Returns whether the input is so large that several processes read it. The size is that of the
    file, or of all files in the folder.
    """
    path = options.source
    names = [path]
    if os.path.isdir(path):
        names = [os.path.join(path, name) for name in os.listdir(path)]
    return sum(os.path.getsize(name) for name in names if os.path.isfile(name)) >= LARGE


class Made(NamedTuple):
    """A converted trace. `parts` are the bytes of the trace in pieces, `converted` has the figures
    for the report, and `notes` further lines of the report. `is_longer` says that folding made the
    trace longer.
    """

    converted: Converted
    parts: Iterable[bytes]
    notes: list[str]
    is_longer: bool = False


def converted_of(options: Options, reading: Reading, wanted: Wanted) -> Made:
    """Converts the recording, and folds the trace if that is requested."""
    source, wakeups = reading.source, wakeups_of(options, reading.source)
    if options.folding is None:
        source.events = wakeups.put(source.events)
        source.notes.append(wakeups.text())
        put_in_unwritten(source, wanted.window)
        converted = convert(source, wanted)
        return Made(converted, [("\n".join(converted.lines) + "\n").encode("ascii")], [])
    early = Wakeups(wakeups.counting).slices(reading.slices())
    ahead = looked_ahead(source, early, reading.silent, wanted.window)
    folding, silent = options.folding, reading.silent
    made = convert_folded(source, lambda: wakeups.slices(reading.slices()), ahead, silent, wanted,
                          folding, is_large(options))
    source.notes.append(wakeups.text())
    longer = is_longer(made.outcome.counts)
    return Made(made.converted, made.spool.parts(), folding_lines(folding, made.outcome), longer)


def wanted_of(options: Options, source: Source, window: Window) -> Wanted:
    """Returns the options of the conversion. Raises a Fault if they require something that the
    recording lacks.
    """
    upon = upon_of(options, source)
    method = method_of(options, source)
    check_interrupts(options, source)
    past = past_of(options, source, window)
    return Wanted(window, method, options.deepest, upon, options.has_interrupts, past)


def must_have_groups(upon: dict[str, list[str]]) -> None:
    """Raises a Fault if a trigger's group was never created. `upon` contains the lines of all
    groups that weren't created, keyed by path.
    """
    for path, words in upon.items():
        if any(it.startswith("trigger") for it in words):
            raise Fault(f"--trigger: there is no group {path} in the trace", Status.NO_GROUP)


def write_output(
    options: Options, source: Source, made: Made, window: Window, anonymous: Anonymous | None
) -> None:
    """Writes the trace and its companion, both anonymous if `anonymous` isn't None."""
    written = write(options, anonymous.parts(made.parts) if anonymous else made.parts)
    tell(f"trace: {written.size} bytes, sha256 {written.digest}")
    known = companion(source, made.converted, window, written, not options.no_names)
    if anonymous:
        anonymous.companion(known)
    write_companion(options, known)


def convert_recording(options: Options) -> int:
    """Converts a recording, prints the report and writes the trace; returns the exit status."""
    reading = reading_of(options)
    source = reading.source
    if source.processors > MOST_PROCESSORS:
        tell(
            f"limit: {source.processors} processors, and a trace has {MOST_PROCESSORS} at most: "
            "nothing is written"
        )
        return Status.INCOMPLETE
    set_clock(options, source)
    whole = Window(source.start, source.stop)
    window = part_of(options, source, whole)
    losses = losses_of(source, window, whole)
    if losses and options.is_forced:
        window = longest_stretch(overlapping(source.gaps, window), window)
    wanted = wanted_of(options, source, window)
    made = converted_of(options, reading, wanted)
    must_have_groups(wanted.upon)
    losses += limit_lines(source, made.converted)
    losses += ["limit: the folded trace is longer than the trace"] * made.is_longer
    anonymous = Anonymous() if options.is_anonymous else None
    summary = summary_of(source, made.converted, wanted.method, window, whole)
    for line in [*summary, *made.notes, *losses]:
        tell(anonymous.text(line) if anonymous else line)
    if losses and not options.is_forced:
        tell("nothing is written; --force writes what is sound")
        return Status.INCOMPLETE
    write_output(options, source, made, window, anonymous)
    return Status.INCOMPLETE if losses else Status.DONE


def psitrace(arguments: Sequence[str] | None) -> int:
    """Parses the arguments, converts the recording that they name, and returns the exit status."""
    try:
        return convert_recording(options_of(arguments))
    except (Different, NotATrace) as fault:
        what = "the check of the folded trace found a difference, and nothing is written"
        raise Fault(f"{what}: {fault}", Status.DIFFERENT) from None


def main(arguments: Sequence[str] | None = None) -> int:
    """Runs the command with these arguments, or with the process's own arguments if they are None.
    """
    return run(lambda: psitrace(arguments))
