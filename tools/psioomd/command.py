"""Parses the command line of tools/oomd, and prints the results."""
from __future__ import annotations

import argparse
import contextlib
import json
import re
import sys
from dataclasses import dataclass

from psicli.fault import Fault, Malformed
from psicli.options import add_json
from psicli.parser import Parser
from psicli.running import complain, run
from psicli.status import Status
from psicli.times import SECOND, seconds, time_text
from psicli.values import whole_number
from psicli.wording import counted
from psinames.known import Span, add_names, add_times
from psinames.shown import show_containers
from psioomd import binary
from psioomd.emulation import TICK_MS, UPTIME, Run, emulate
from psioomd.engine import Engine
from psioomd.faults import Refused
from psioomd.machine import Extras
from psioomd.outcome import Decision
from psireplay.part import part_of, part_text, show_clock, within
from psireplay.trace import end_of
from psirules.program import Kill, Pace, Program, processors
from psirules.replays import accepted
from psirules.rules_file import RulesFile
from psisystemd.replayed import kept_trace

DEFAULT_INTERVAL = 5
VERSION = "0.5.0"
FILES = ("memory.low", "memory.min", "memory.oom.group", "nr_dying_descendants")
ABOUT = """\
Prints which groups oomd 0.5.0 would have killed in TRACE, when and why, with its own configuration.

  tools/oomd incident.trace --config oomd.json

oomd reads FILE here as it does on a machine, and looks at N, 2N, 3N s. With --binary the program
oomd itself looks at the trace, in a sandbox in which it can kill nobody."""
STATUS = """\
A kill changes nothing, as in `psi_oomd replay`: what follows the first supposes that it freed
nothing.

Statuses: 0 all was printed, 2 something couldn't be run: a wrong option, a configuration that oomd
refuses, a trace that psi_oomd refuses, a program that isn't oomd, 12 a time outside the trace."""


def given_number(word: str) -> tuple[tuple[str, str], int]:
    """Parses a value of a group's file, such as /batch/memory.low=1073741824. Returns the group's
    path with the file's name, and the number. `max` is 2^63 - 1.
    """
    found = re.fullmatch(r"(/(?:\S*/)?)([a-z_.]+)=([0-9]{1,18}|max)", word)
    if not found or found[2] not in FILES:
        raise Malformed(f"{word}: write /GROUP/FILE=NUMBER, FILE one of {', '.join(FILES)}")
    number = (1 << 63) - 1 if found[3] == "max" else int(found[3])
    return (found[1].rstrip("/") or "/", found[2]), number


def parser() -> Parser:
    """Returns the parser of the command line."""
    words = Parser(ABOUT, STATUS)
    add = words.add_argument
    add("trace", metavar="TRACE", help="a trace, or - for the standard input")
    add("--config", metavar="FILE", required=True, help="oomd's configuration")
    add("--interval-s", metavar="N", type=whole_number(1, 3600),
        help="seconds between looks: 5 if left out")  # fmt: skip
    add("--drop-in", metavar="FILE", action="append", default=[],
        help="a drop-in file, present from the start; several are added in the order of "
             "their names")  # fmt: skip
    add("--given", metavar="FILE=N", action="append", type=given_number, default=[],
        help=f"a number that no trace has, such as /batch/memory.low=1073741824: "
             f"{', '.join(FILES)}")  # fmt: skip
    add("--warm", metavar="S", type=whole_number(0, 100_000), default=0,
        help="begin S seconds before the trace, at a machine with its first samples")  # fmt: skip
    add("--uptime-s", metavar="S", type=whole_number(0, 100_000),
        help="how long the machine was up when the trace began: long enough if "
             "left out")  # fmt: skip
    add("--binary", metavar="FILE", nargs="?", const="oomd",
        help="after TRACE: run this oomd on it too; that of the PATH if FILE is "
             "left out")  # fmt: skip
    add("--sandbox", choices=binary.SANDBOXES,
        help="with --binary: its sandbox; if left out, bwrap or unshare, the first "
             "that works")  # fmt: skip
    add("--log", metavar="FILE",
        help="with --binary: write oomd's log there, with the trace's times")  # fmt: skip
    add("--compare", metavar="FILE", help="print the kills by these rules of psi_oomd too")
    add("--all", dest="is_all", action="store_true", help="print each candidate that isn't chosen")
    add_times(words)
    add_names(words)
    add_json(words)
    return words


class Comparison:
    """The kills that psi_oomd computes with its own rules file, for a comparison with oomd's kills.
    """

    def __init__(self, name: str, rules: RulesFile, kills: list[Kill]) -> None:
        self.name, self.rules, self.kills = name, rules, kills

    def line(self, kill: Kill) -> str:
        by = f"by {self.name}: would kill {kill.path}, {self.rules.killer(kill)}"
        return f"{time_text(kill.time_ns)}  {by}"


def verdict(own: list[Kill], other: list[Kill], names: tuple[str, str]) -> str:
    """Returns a sentence that compares the first kills by two programs."""
    if not own or not other:
        who = names[0] if own else names[1]
        return f"first kill: by {who} alone" if own or other else "no kill by either"
    apart = other[0].time_ns - own[0].time_ns
    which = "the same victim" if own[0].path == other[0].path else "another victim"
    if not apart:
        return f"first kill: {which}, at the same time"
    word = "later" if apart > 0 else "earlier"
    return f"first kill: {which}, {seconds(abs(apart))} s {word} by {names[1]}"


def compare(program: Program, name: str, trace: str, interval_s: int) -> Comparison:
    """Replays the trace with a rules file, whose rules are evaluated at the times of oomd's
    evaluations.
    """
    with contextlib.ExitStack() as files:
        rules, file = accepted(program, name, files)
        kills = program.replay(trace, file, Pace(TICK_MS, interval_s), processors())
    return Comparison(name, rules, kills)


@dataclass(frozen=True)
class Answers:
    """All results: `own` is the emulation, `ran` the run of oomd itself, and `other` the comparison
    with psi_oomd's rules. `own` is also None if the emulation rejects a configuration that oomd
    accepts.
    """

    run: Run
    own: Engine | None
    ran: binary.BinaryRun | None
    other: Comparison | None
    part: Span | None

    def select(self) -> None:
        """Removes the kills outside of the requested part of the trace."""
        if self.own:
            self.own.decisions = within(self.own.decisions, self.part)
        if self.ran:
            self.ran.select(self.part)
        if self.other:
            self.other.kills = within(self.other.kills, self.part)

    def decisions(self) -> list[Decision]:
        return self.own.decisions if self.own else []

    def agreement(self) -> str:
        if not self.ran or not self.own:
            return f"oomd {VERSION} would refuse this configuration"
        return agreement(self.own, self.ran)


def agreement(own: Engine, ran: binary.BinaryRun) -> str:
    """Returns a sentence that says whether oomd's own kills equal those of the emulation. A
    different choice among equal candidates isn't a difference.
    """
    for decision, other in zip(own.decisions, ran.kills):
        found = decision.kill()
        is_same = (found.time_ns, found.ruleset, found.action) == (
            other.time_ns,
            other.ruleset,
            other.action,
        )
        if not is_same or not decision.may_kill(other.path):
            where = f"{time_text(found.time_ns)} {found.path}"
            other_kill = f"{time_text(other.time_ns)} {other.path}"
            return f"it differs from {VERSION} as emulated: {other_kill} in place of {where}"
    apart = len(ran.kills) - len(own.decisions)
    if apart:
        more = "more" if apart > 0 else "fewer"
        return f"it differs from {VERSION} as emulated: {counted(abs(apart), 'kill')} {more}"
    return f"the same kills as {VERSION} as emulated"


def binary_lines(answers: Answers, ran: binary.BinaryRun) -> list[str]:
    """Returns the lines about the run of oomd itself."""
    did = f"{counted(ran.looks, 'look')}, {counted(len(ran.kills), 'kill')}"
    head = f"{ran.path}: oomd {ran.version} in {ran.sandbox}: {did}"
    lines = [f"{head}; {answers.agreement()}"]
    lines += [f"{time_text(it.time_ns)}  {ran.path}: restarts {it.service}" for it in ran.restarts]
    return [*lines, ran.fault] if ran.fault else lines


def kill_lines(answers: Answers, is_all: bool) -> list[str]:
    """Returns the lines about all kills by all programs, in order of time."""
    rows = [(it.time_ns, 0, it.lines(is_all)) for it in answers.decisions()]
    if answers.other:
        rows += [(it.time_ns, 1, [answers.other.line(it)]) for it in answers.other.kills]
    if answers.ran:
        rows += [(it.time_ns, 2, [answers.ran.line(it)]) for it in answers.ran.kills]
    return [line for _, _, lines in sorted(rows, key=lambda row: row[:2]) for line in lines]


def print_lines(answers: Answers, is_all: bool) -> None:
    """Prints the results as text: the kills in order of time, and how near each detector came to
    its limit.
    """
    own, other, ran = answers.own, answers.other, answers.ran
    lines = kill_lines(answers, is_all)
    if own and not own.decisions:
        lines.append(f"nobody would be killed{part_text(answers.part)}")
    if own and own.crash:
        lines.append(own.crash)
    if own and other:
        kills = [it.kill() for it in own.decisions]
        lines.append(verdict(kills, other.kills, (f"oomd {VERSION}", other.name)))
    if ran:
        lines += binary_lines(answers, ran)
    if own:
        lines += [f"{it.place}: {it.text}" for it in own.courses()]
        lines.append(
            f"oomd {VERSION}: {counted(own.looks, 'look')}, one each {answers.run.interval} s"
        )
    print("\n".join(lines))


def print_json(answers: Answers, name: str) -> None:
    """Prints the results as JSON."""
    own, other, ran = answers.own, answers.other, answers.ran
    record: dict[str, object] = {
        "trace": name,
        "config": answers.run.config,
        "oomd": VERSION,
        "interval_s": answers.run.interval,
        "looks": own.looks if own else None,
        "decisions": [it.record() for it in answers.decisions()],
        "crash": own.crash or None if own else None,
        "notes": own.notes.texts if own else [],
        "binary": {**ran.record(), **{"agreement": answers.agreement()}} if ran else None,
        "compared": other and {
            "rules": other.name,
            "kills": [other.rules.record(it) for it in other.kills],
        },
    }
    json.dump(record, sys.stdout, indent=1)
    print()


def run_of(options: argparse.Namespace, trace: str) -> Run:
    return Run(
        trace,
        options.config,
        tuple(options.drop_in),
        options.interval_s or DEFAULT_INTERVAL,
        Extras(dict(options.given)),
        options.warm,
        UPTIME if options.uptime_s is None else options.uptime_s * SECOND,
    )


def try_emulation(program: Program, run: Run, has_binary: bool) -> Engine | None:
    """Runs the emulation. If the emulation rejects the configuration, raises Refused. With
    `has_binary`, it prints the rejection instead and returns None, since oomd itself then decides
    whether the configuration is valid.
    """
    try:
        return emulate(program, run, processors())
    except Refused as refused:
        if not has_binary:
            raise
        complain(f"{refused} ({VERSION}, as emulated)")
        return None


def collect_answers(options: argparse.Namespace) -> Answers:
    program = Program()
    program.prepare()
    with kept_trace(options.trace) as trace:
        run = run_of(options, trace)
        own = try_emulation(program, run, bool(options.binary))
        ran = (
            binary.run_binary(program, run, options.binary, options.sandbox, options.log)
            if options.binary
            else None
        )
        other = compare(program, options.compare, trace, run.interval) if options.compare else None
        part = part_of(options.trace, vars(options), end_of(trace))
    answers = Answers(run, own, ran, other, part)
    answers.select()
    return answers


def work(options: argparse.Namespace) -> int:
    """Emulates oomd, prints the results, and returns the exit status."""
    if not options.is_json:
        show_containers([options.trace], vars(options))
        show_clock(options.trace, vars(options))
    if not options.binary and (options.sandbox or options.log):
        raise Fault("--sandbox and --log are for --binary")
    answers = collect_answers(options)
    if answers.own:
        for text in answers.own.notes.texts:
            complain(text)
        if answers.own.machine.world.host is None:
            complain("the trace has no `host` line: its memory and swap are 0 for percentages")
    if options.is_json:
        print_json(answers, options.trace)
    else:
        print_lines(answers, options.is_all)
    return Status.DONE


def main() -> int:
    """Runs the command, and returns the exit status."""
    return run(lambda: work(parser().parse_args()))
