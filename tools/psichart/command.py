"""Parses the command line of tools/chart, reads the replay and prints the chart."""
from __future__ import annotations

import shutil
import tempfile
from typing import IO, Any, NamedTuple, Optional
from xml.etree import ElementTree

from psicli.fault import Fault
from psicli.options import add_interval, add_tick
from psicli.parser import Parser
from psicli.running import complain, run, write
from psicli.status import Status
from psicli.times import seconds
from psicli.values import whole_number
from psinames.known import Known, add_names, add_times, has_start, known_of, must_fit, span_in
from psireplay.lines import RESOURCES
from psireplay.program import opened
from psireplay.replaying import TRACE_HELP, replayed
from psireplay.rules import Rules, unmatched
from psireplay.samples import Samples
from psireplay.stalls import ranked
from psireplay.trace import end_of

from .axes import time_axis
from .chart import Chart, Wanted
from .replay import Replay, read_replay
from .summary import Summary, summary_of

ABOUT = (
    "Draws a trace, or the output of `psi_oomd replay` or `whatif` on standard input, as an SVG."
    " Lines of --live are ignored."
)
AFTER = (
    "The program that replays and checks files is the psi_oomd beside this tool, or that in the"
    " variable PSI_OOMD."
)
REPORT_S = 2
STANDARD_INPUT = "-"
HELP = {
    "group": (
        "a group whose pressure is drawn, by its path or its last component; may be repeated: / if"
        " left out"
    ),
    "resource": "the one resource to draw: all if left out, irq if reports have it",
    "top": "draw the N groups that stalled most, in place of --group",
    "summary": (
        "a file with psitrace's report on the trace: when it began, in place of --start, and where"
        " the recording begins"
    ),
    "rules": "the rules of the replay: draws thresholds of the groups, and names rulesets",
    "trace": "the trace of the replay on standard input: draws the groups' memory too",
    "beside": (
        "the output of `replay` for the trace: draws it thin, and the output of `whatif` thick"
    ),
}


class Options(NamedTuple):
    """The parsed command line. `replayed` is the trace to replay; None if a replay is read from
    standard input. `trace` is the trace of the replay, or None if it isn't known. `values` contains
    all options by name.
    """

    replayed: Optional[str]
    trace: Optional[str]
    groups: list[str]
    resource: Optional[str]
    rules: Optional[str]
    beside: Optional[str]
    top: Optional[int]
    summary: Optional[Summary]
    values: dict[str, Any]


def parser() -> Parser:
    """Returns the parser of the command line."""
    words = Parser(ABOUT, AFTER)
    option = words.add_argument
    option("replayed", nargs="?", metavar="TRACE", help=TRACE_HELP)
    option("--group", action="append", metavar="GROUP", help=HELP["group"])
    option("--top", type=whole_number(1, 99), metavar="N", help=HELP["top"])
    option("--resource", choices=RESOURCES, help=HELP["resource"])
    add_times(words)
    option("--summary", metavar="FILE", help=HELP["summary"])
    option("--rules", metavar="FILE", help=HELP["rules"])
    add_tick(words)
    add_interval(words)
    option("--trace", metavar="FILE", help=HELP["trace"])
    option("--beside", metavar="FILE", help=HELP["beside"])
    add_names(words)
    return words


def options_of() -> Options:
    """Parses the command line. Rejects options that exclude each other."""
    values = parser().values()
    must_fit(values)
    if values["top"] and values["group"]:
        raise Fault("--top chooses the groups: not with --group")
    if values["replayed"] is not None and values["trace"] is not None:
        raise Fault("--trace is for a replay on standard input: the TRACE is known")
    summary = None
    if values["summary"] is not None:
        if values["wall"]:
            raise Fault("--summary has the time of --start: give one of both")
        summary = summary_of(values["summary"])
        values["wall"] = summary.wall
    trace = values["replayed"] if values["trace"] is None else values["trace"]
    groups = list(dict.fromkeys(values["group"] or ["/"]))
    it = values
    return Options(
        it["replayed"],
        trace,
        groups,
        it["resource"],
        it["rules"],
        it["beside"],
        it["top"],
        summary,
        values,
    )


def resources_of(replay: Replay, options: Options) -> list[str]:
    """Returns the resources to draw. Interrupts are included only if a drawn group has reports on
    them.
    """
    if options.resource:
        return [options.resource]
    has_interrupts = any(resource == "irq" for _, resource in replay.series)
    return list(RESOURCES if has_interrupts else RESOURCES[:3])


def must_have_reports(
    replay: Replay, resources: list[str], start: int, end: int, groups: list[str]
) -> None:
    """Raises a Fault, with suggested options, if the replay has no report on these groups and
    resources between `start` and `end` (ns).
    """
    series = [
        it
        for (path, resource), it in replay.series.items()
        if path in groups and resource in resources
    ]
    if start < end and any(start <= time_ns <= end for it in series for time_ns in it.times_ns):
        return
    about = f" on {resources[0]}" if len(resources) == 1 and resources[0] == "irq" else ""
    when = f"from {seconds(start)} s to {seconds(end)} s of {seconds(replay.end.time_ns)} s"
    advice = (
        "ask replay for more by --report-s and --tick-ms, or chart for another --group, --from or"
        " --to"
    )
    raise Fault(f"no report of {', '.join(groups)}{about} {when}: {advice}")


def read_recorded(name: str, groups: list[str], replay: Replay) -> Replay:
    """Reads the second replay, from the file `name`. Raises a Fault if its end or its number of
    ticks differs from that of `replay`, since both must be replays of one trace.
    """
    with opened(name) as printed:
        try:
            recorded = read_replay(printed, groups)
        except Fault as fault:
            raise Fault(f"{name}: {fault}") from None
    if (recorded.end.time_ns, recorded.end.ticks) != (replay.end.time_ns, replay.end.ticks):
        ends = [
            f"{it.end.ticks} ticks up to {seconds(it.end.time_ns)} s" for it in (recorded, replay)
        ]
        raise Fault(
            f"{name} has {ends[0]}, and the standard input {ends[1]}: give two of one trace and of"
            " one --tick-ms"
        )
    return recorded


def read_printed(printed: IO[bytes], options: Options, known: Known) -> tuple[list[str], Replay]:
    """Returns the paths of the groups to draw, and the parsed reports of these groups. Reads the
    output of the replay twice, from a copy, unless the command line contains the paths of all
    groups.
    """
    if not options.top and all(
        it.startswith("/") and known.groups.shown(it) == it for it in options.groups
    ):
        return options.groups, read_replay(printed, options.groups)
    with tempfile.TemporaryFile() as copy:
        shutil.copyfileobj(printed, copy)
        copy.seek(0)
        if options.top:
            groups = [it.path for it in ranked(copy)][: options.top] or ["/"]
        else:
            paths = sorted(read_replay(copy, []).rounds.paths)
            groups = (
                list(
                    dict.fromkeys(
                        known.groups.find(it, paths, "in the replay") for it in options.groups
                    )
                )
                if paths
                else ["/"]
            )
        copy.seek(0)
        return groups, read_replay(copy, groups)


def span_of(options: Options, known: Known, replay: Replay) -> tuple[int, int]:
    """Returns the start and the end of the time span to draw (ns). By default the span starts with
    the recording, after the warm-up at the start of the trace.
    """
    span = span_in(options.values, known.wall, replay.end.time_ns, "replay")
    source = options.summary or known.companion
    begins = source.begins if source else 0
    return (span.start if has_start(options.values) else begins), span.end


def samples_of(options: Options, groups: list[str], end: int) -> Optional[Samples]:
    """Returns the memory samples of the groups up to `end` (ns). Returns None if the trace isn't
    known, or if it contains no samples.
    """
    if options.trace is None:
        return None
    samples = Samples(options.trace, groups, end)
    has_some = any(life.samples for lives in samples.lives.values() for life in lives)
    return samples if has_some or options.replayed is None else None


def chart() -> int:
    """Draws the chart, and returns the exit status."""
    options = options_of()
    rules = Rules(options.rules) if options.rules is not None else None
    known = known_of(options.trace or STANDARD_INPUT, options.values)
    if options.replayed is not None:
        span_in(options.values, known.wall, end_of(options.replayed), "replay")
    with replayed(options.replayed, options.values, REPORT_S) as printed:
        groups, replay = read_printed(printed, options, known)
    for what in unmatched(rules.rulesets, replay.rounds.paths | {"/"}) if rules else ():
        complain(f"note: no group of the replay matches {what}")
    if options.summary:
        options.summary.must_be_of(replay, options.trace)
    start, end = span_of(options, known, replay)
    for path in groups if replay.rounds.paths else ():
        known.groups.find(path, sorted(replay.rounds.paths), "in the replay")
    resources = resources_of(replay, options)
    for path in groups:
        must_have_reports(replay, resources, 0, max(1, replay.end.time_ns), [path])
    must_have_reports(replay, resources, start, end, groups)
    recorded = read_recorded(options.beside, groups, replay) if options.beside is not None else None
    samples = samples_of(options, groups, replay.end.time_ns)
    picture = Chart(
        Wanted(
            replay,
            resources,
            time_axis(start, end, known.wall),
            rules,
            samples,
            recorded,
            known.groups,
        )
    ).draw()
    ElementTree.indent(picture, "")
    write(bytes(ElementTree.tostring(picture, "utf-8", xml_declaration=True)) + b"\n")
    return Status.DONE


def main() -> int:
    """Runs the command, and returns the exit status."""
    return run(chart)
