"""tools/rules expect: checks the kills in traces against expectations."""
import argparse
import contextlib
from collections.abc import Iterable

from psicli.fault import Fault
from psicli.running import complain
from psireplay.part import clock_of
from psirules import by_oomd, by_systemd, expectations, telling
from psirules.expectations import Expectation
from psirules.program import Kill, Program
from psirules.replays import (
    STANDARD_INPUT,
    Traces,
    accepted,
    note_samples,
    note_unmatched,
    read_again,
)
from psirules.rules_file import RulesFile, bytes_of
from psirules.sampling import note
from psirules.telling import Outcome

ABOUT = """Replays each trace by the rules of FILE, and holds its kills against the lines of WANT,
all against each trace:

  first PATH from S to S   the first kill is of PATH, at a moment between these, in seconds
  kill PATH by RULESET     some kill of PATH is by a ruleset of this name, or number
  no kill of PATTERN       no kill is of a group that the pattern matches
  at most N kills          there are no more
  no kill before S         the first kill, if there is one, isn't earlier

What follows a # is a comment. PATH and PATTERN are written as in rules files: in a
component, * is any run of bytes. Each has to match a group of each trace; `no kill of
PATTERN if present` may match none. TRACE may be - for the standard input, once.

With --by oomd the kills are those of tools/oomd, by oomd's algorithm; FILE is its
configuration then. With --by systemd-oomd the kills are those of tools/systemd-oomd by
the settings of FOLDER; RULESET is `memory pressure` or `swap`."""
STATUS = (
    "The status is 0 where all holds, 1 where something doesn't, and 2 where something couldn't be"
    " run."
)


class Judged:
    """A trace with its kills, or a Fault if it couldn't be replayed, and the outcome of each
    expectation.
    """

    def __init__(
        self,
        traces: Traces,
        trace: str,
        found: list[Kill] | Fault,
        wanted: list[Expectation],
        rules: RulesFile,
    ) -> None:
        self.trace, self.found, self.wanted, self.rules = trace, found, wanted, rules
        self.groups = None if isinstance(found, Fault) else traces.groups(trace)
        self.outcomes = [self.outcome(it) for it in wanted]

    def outcome(self, wanted: Expectation) -> Outcome:
        if isinstance(self.found, Fault):
            return Outcome(wanted.text, None, str(self.found))
        missing = None if self.groups is None else wanted.missing(self.groups)
        if missing:
            return Outcome(wanted.text, None, missing)
        verdict = wanted.verdict(self.found, self.rules)
        return Outcome(wanted.text, verdict.holds, verdict.text + note(self.trace))

    def record(self) -> dict[str, object]:
        is_fault = isinstance(self.found, Fault)
        kills = (
            []
            if isinstance(self.found, Fault)
            else [self.rules.record(kill) for kill in self.found]
        )
        judged = [
            {"line": wanted.line, "text": wanted.text, "ok": outcome.is_ok, "told": outcome.message}
            for wanted, outcome in zip(self.wanted, self.outcomes)
        ]
        fault = str(self.found) if is_fault else None
        return {"trace": self.trace, "fault": fault, "kills": kills, "expectations": judged}


def tell_lines(judged: Iterable[Judged], is_named: bool) -> None:
    """Prints a line for each expectation, with the trace's name if `is_named`. Traces that couldn't
    be replayed and expectations that couldn't be checked are reported on standard error.
    """
    for trace in judged:
        if isinstance(trace.found, Fault):
            complain(str(trace.found))
            continue
        for outcome in trace.outcomes:
            name = f"{trace.trace}: {outcome.name}" if is_named else outcome.name
            if outcome.is_ok is None:
                complain(f"{trace.trace}: {outcome.name}: {outcome.message}")
                continue
            print(f"{'ok' if outcome.is_ok else 'FAIL':<6}{name}: {outcome.message}")


def check_words(options: argparse.Namespace) -> None:
    """Raises a Fault if the options contradict each other."""
    if options.traces.count(STANDARD_INPUT) > 1:
        raise Fault("- is given twice, and the standard input is read once")
    if options.by == by_systemd.NAME:
        if options.settings is None:
            raise Fault(
                f"--by {options.by} wants the settings of a machine: give --settings FOLDER"
            )
        if options.rules or options.tick_ms or options.interval_s:
            raise Fault(
                f"--rules, --tick-ms and --interval-s aren't for --by {options.by}, which looks"
                " each second by its settings"
            )
    elif options.settings is not None or options.systemd:
        raise Fault(f"--settings and --systemd are for --by {by_systemd.NAME}")
    elif options.by == by_oomd.NAME and options.tick_ms:
        raise Fault(
            f"--tick-ms isn't for --by {options.by}, which looks at multiples of --interval-s"
        )
    elif options.rules is None:
        raise Fault(
            f"the following arguments are required: --rules, or --by {by_systemd.NAME} and"
            " --settings"
        )


def check(wanted: list[Expectation], name: str, rules: RulesFile) -> None:
    """Raises a Fault if a line of the WANT file can't be checked with these rules."""
    for it in wanted:
        try:
            it.check(rules)
        except Fault as fault:
            raise Fault(f"{name} line {it.line}: {fault}") from fault


def judge(options: argparse.Namespace, program: Program) -> list[Judged]:
    check_words(options)
    wanted = expectations.read(options.want, bytes_of(options.want))
    program.prepare()
    if STANDARD_INPUT in options.traces:
        read_again()
    traces = Traces.of(options.traces, options.pace, options.jobs, vars(options))
    with contextlib.ExitStack() as files:
        if options.by == by_systemd.NAME:
            rules: RulesFile = by_systemd.BySystemd(options.settings)
            check(wanted, options.want, rules)
            replays = by_systemd.replays(program, options.settings, options.systemd, traces)
        elif options.by == by_oomd.NAME:
            rules = by_oomd.ByOomd(options.rules)
            check(wanted, options.want, rules)
            replays = by_oomd.replays(program, options.rules, options.interval_s, traces)
        else:
            rules, file = accepted(program, options.rules, files)
            check(wanted, options.want, rules)
            (replays,) = traces.replays(program, [file])
    if options.by not in (by_oomd.NAME, by_systemd.NAME):
        judged = [
            trace for trace, found in zip(traces.names, replays) if not isinstance(found, Fault)
        ]
        note_unmatched(traces, judged, [rules])
        note_samples(judged, [rules])
    all_judged = []
    for trace, found in zip(traces.names, replays):
        with clock_of(trace, vars(options)):
            all_judged.append(Judged(traces, trace, found, wanted, rules))
    return all_judged


def run(options: argparse.Namespace) -> int:
    judged = judge(options, Program())
    named = [
        Outcome(f"{it.trace}: {outcome.name}", outcome.is_ok, outcome.message)
        for it in judged
        for outcome in it.outcomes
    ]

    def record(status: int) -> object:
        return {
            "rules": options.rules or options.settings,
            "want": options.want,
            "status": status,
            "traces": [it.record() for it in judged],
        }

    return telling.tell(options.form, named, record, lambda: tell_lines(judged, len(judged) > 1))
