"""The command line of tools/systemd-oomd, and its output."""
from __future__ import annotations

import argparse
import contextlib
import itertools
import json
import sys
from collections.abc import Iterator

from psicli.fault import Fault
from psicli.options import add_interval, add_json
from psicli.parser import Parser
from psicli.running import complain, run
from psicli.status import Status
from psicli.times import seconds, time_text
from psicli.values import whole_number
from psinames.known import Span, add_names, add_times
from psinames.shown import show_containers
from psireplay.part import part_of, part_text, show_clock, within
from psireplay.trace import end_of
from psirules.program import Kill, Pace, Program, processors
from psirules.replays import accepted
from psirules.rules_file import RulesFile
from psisystemd.engine import Engine
from psisystemd.replayed import kept_trace, replayed, warnings
from psisystemd.settings import Settings
from psisystemd.told import SWAP, Decision
from psisystemd.values import percent

ABOUT = """Prints which groups systemd-oomd would have killed in TRACE, when and why, with the
settings of a machine.

  tools/systemd-oomd incident.trace --settings incident/systemd

FOLDER is what tools/record stored as `systemd` in a recording, or a folder with files
as in a machine's root: etc/systemd/oomd.conf.d/*.conf,
usr/lib/systemd/system/user@.service.d/*.conf and so on, merged as systemd does."""
STATUS = """A kill changes nothing, as in `psi_oomd replay`: what follows the first assumes that it
freed nothing.

The status is 0 if everything was printed, and 2 if something couldn't be run: a usage
error, a bad setting, a trace that psi_oomd rejects, 12 for a time outside the trace."""


def parser() -> Parser:
    """Returns the parser of the command line."""
    words = Parser(ABOUT, STATUS)
    add = words.add_argument
    add("trace", metavar="TRACE", help="a trace, or - for the standard input")
    add("--settings", metavar="FOLDER", required=True, help="the settings of a machine")
    add("--systemd", metavar="N", type=whole_number(247, 9999),
        help="the version of systemd; that of the recording, or 257, if left out")  # fmt: skip
    add("--compare", metavar="FILE", help="print the kills by these rules of oomd's form too")
    add_interval(words, "with --compare: ")
    add("--all", dest="is_all", action="store_true", help="print each candidate that isn't chosen")
    add_times(words)
    add_names(words)
    add_json(words)
    return words


class Compared:
    """The kills that psi_oomd makes with a rules file, for a comparison with systemd-oomd's."""

    def __init__(self, name: str, rules: RulesFile, kills: list[Kill]) -> None:
        self.name, self.rules, self.kills = name, rules, kills

    def line(self, kill: Kill) -> str:
        return (
            f"{time_text(kill.time_ns)}  by {self.name}: would kill {kill.path},"
            f" {self.rules.killer(kill)}"
        )

    def verdict(self, own: list[Decision]) -> str:
        """Returns a sentence that compares the first kills by time and victim."""
        one, other = (own[0] if own else None), (self.kills[0] if self.kills else None)
        if not one or not other:
            who = "systemd-oomd" if one else self.name if other else "neither"
            return f"first kill: by {who} alone" if one or other else "no kill by either"
        apart = other.time_ns - one.time_ns
        when = (
            "at the same moment"
            if not apart
            else f"{seconds(abs(apart))} s {'later' if apart > 0 else 'earlier'} by {self.name}"
        )
        return (
            f"first kill: {'the same victim' if one.victim == other.path else 'another victim'},"
            f" {when}"
        )


def compared(program: Program, name: str, trace: str, interval_s: int | None) -> Compared:
    """Replays the trace with a rules file, and returns its kills."""
    with contextlib.ExitStack() as files:
        rules, file = accepted(program, name, files)
        kills = program.replay(trace, file, Pace(None, interval_s), processors())
    return Compared(name, rules, kills)


def told_decisions(decisions: list[Decision], is_all: bool) -> Iterator[tuple[int, list[str]]]:
    """Yields the time (ns) and the lines of each decision. Consecutive decisions to kill the same
    group for swap are combined.
    """
    for _, same in itertools.groupby(
        decisions, key=lambda it: (it.by, it.victim, it.by == SWAP or it.time_ns)
    ):
        first, *others = same
        lines = first.lines(is_all)
        if others:
            gap = lines[-1][: len(lines[-1]) - len(lines[-1].lstrip())]
            lines.append(
                f"{gap}again at {len(others)} looks that found new samples, up to"
                f" {time_text(others[-1].time_ns)}"
            )
        yield first.time_ns, lines


def tell_lines(
    engine: Engine, other: Compared | None, is_all: bool, part: Span | None
) -> None:
    """Prints the results as text: the decisions in order of time, and how near pressure and swap
    came to their limits.
    """
    rows = [(time_ns, 0, lines) for time_ns, lines in told_decisions(engine.decisions, is_all)]
    rows += [(it.time_ns, 1, [other.line(it)]) for it in other.kills] if other else []
    for _, _, lines in sorted(rows, key=lambda it: it[:2]):
        print("\n".join(lines))
    kills = list(engine.kills())
    if not kills:
        print(f"nobody would be killed{part_text(part)}")
    if other:
        print(other.verdict(kills))
    for course in sorted(engine.pressure.courses.values(), key=lambda it: it.path):
        print(f"watched for memory pressure: {course.text()}")
    if not engine.pressure.courses:
        print("watched for memory pressure: no group of the trace")
    swap, memory, time_ns = engine.swap.most
    if engine.swap.was_watched and engine.swap.is_absent:
        print("watched for swap: the machine has none")
    elif swap >= 0:
        limit = percent(engine.swap.settings.limits.swap_used)
        print(
            f"watched for swap: at most {percent(swap)} used, at {time_text(time_ns)}, with"
            f" {percent(memory)} of memory; limit {limit}"
        )


def tell_json(
    engine: Engine, other: Compared | None, options: argparse.Namespace, settings: Settings
) -> None:
    """Prints the decisions and the watched groups as JSON."""
    swap, memory, time_ns = engine.swap.most
    record: dict[str, object] = {
        "trace": options.trace,
        "settings": options.settings,
        "systemd": settings.version,
        "decisions": [it.record() for it in engine.decisions],
        "watched": [it.record() for it in engine.pressure.courses.values()],
        "swap": (
            {"most_percent": swap / 100, "memory_percent": memory / 100, "at_ns": time_ns}
            if swap >= 0
            else None
        ),
        "compared": other and {
            "rules": other.name,
            "kills": [other.rules.record(it) for it in other.kills],
        },
    }
    json.dump(record, sys.stdout, indent=1)
    print()


def work(options: argparse.Namespace) -> int:
    """Prints the decisions that systemd-oomd would have made, and returns the exit status."""
    if not options.is_json:
        show_containers([options.trace], vars(options))
        show_clock(options.trace, vars(options))
    if options.interval_s and not options.compare:
        raise Fault("--interval-s is of the rules of --compare: systemd-oomd looks each second")
    settings = Settings(options.settings, options.systemd)
    program = Program()
    program.prepare()
    with kept_trace(options.trace) as trace:
        engine = replayed(program, trace, settings, processors())
        other = (
            compared(program, options.compare, trace, options.interval_s)
            if options.compare
            else None
        )
        part = part_of(options.trace, vars(options), end_of(trace))
    engine.decisions = within(engine.decisions, part)
    if other:
        other.kills = within(other.kills, part)
    for text in [*settings.notes, *warnings(engine, settings)]:
        complain(text)
    if options.is_json:
        tell_json(engine, other, options, settings)
    else:
        tell_lines(engine, other, options.is_all, part)
    return Status.DONE


def main() -> int:
    """Runs the command, and returns the exit status."""
    return run(lambda: work(parser().parse_args()))
