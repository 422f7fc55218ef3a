"""tools/rules sweep: lists the kills in traces for each value of an argument."""
import argparse
import contextlib
import functools
import itertools
import re
from dataclasses import dataclass
from decimal import Decimal

from psicli.fault import Fault
from psicli.running import complain
from psicli.status import ProgramStatus
from psicli.times import time_text
from psicli.wording import quoted
from psinames.known import Span
from psireplay.part import clock_of, part_of, within
from psirules import places, telling
from psirules.places import Place
from psirules.program import Kill, Pace, Program, Refusal, processors, side_by_side
from psirules.replays import accepted, no_input, note_samples
from psirules.rules_file import RulesFile, temporary_rules
from psirules.sampling import must_judge
from psirules.telling import Outcome

ABOUT = """Replays each TRACE by the rules of FILE once for each value of an argument, and prints a
table of the kills.

PLACE=VALUES says what goes through which values. PLACE is ruleset/plugin.argument: each
by its name or its number from 0. Where several plugins are meant, the detector's group,
or `actions`, stands between: ruleset/group/plugin.argument. A ruleset's own delay is
ruleset.post_action_delay. VALUES is FROM:TO:STEP, as 20:90:10, 0.5:1.5:0.25 or
512M:2048M:512M, or values with commas between. With several --vary, all pairs of their
values are tried."""
STATUS = "The status is 0 where each value was tried, and 2 where something couldn't be run."
MOST_RUNS = 10000


@dataclass(frozen=True)
class Axis:
    """An argument of a rules file, and the values that are tried."""

    place: Place
    argument: str
    values: list[str]


def values_of(text: str) -> list[str]:
    """Parses values for an argument: FROM:TO:STEP with both ends inclusive, or values separated by
    commas.
    """
    if ":" not in text:
        return [value for value in text.split(",") if value]
    found = re.fullmatch(r"([0-9.]+)([KMGTkmgt%]?):([0-9.]+)\2:([0-9.]+)\2", text)
    numbers = [found[1], found[3], found[4]] if found else []
    if not found or not all(map(places.is_number, numbers)):
        raise Fault(
            f"{quoted(text)} is no FROM:TO:STEP: write 20:90:10, or one letter after each as in"
            " 512M:2048M:512M"
        )
    start, end, step = map(Decimal, numbers)
    if not step or start > end:
        raise Fault(f"{quoted(text)} has no value: FROM is at most TO, and STEP above 0")
    count = int((end - start) / step) + 1
    if count > MOST_RUNS:
        raise Fault(
            f"{quoted(text)} has {count} values, and at most {MOST_RUNS} are tried: take a greater"
            " step"
        )
    return [f"{(start + number * step).normalize():f}{found[2]}" for number in range(count)]


def axis(rules: RulesFile, text: str) -> Axis:
    name, _, values = text.rpartition("=")
    if not name or not values_of(values):
        raise Fault(
            f"{quoted(text)} is no PLACE=VALUES: write 'ruleset/detector.threshold=20:90:10'"
        )
    place, argument = places.find(rules, name)
    return Axis(place, argument, values_of(values))


@dataclass(frozen=True)
class Row:
    """A trace, a value for each argument, and the kills with these values, or a Fault if the replay
    failed. `first` is the time of the first kill as text.
    """

    trace: str
    values: tuple[str, ...]
    found: list[Kill] | Fault
    first: str

    def cells(self) -> list[str]:
        if isinstance(self.found, Fault):
            return [self.trace, *self.values, "not run", "-", "-"]
        victim = self.found[0].path if self.found else "-"
        return [self.trace, *self.values, str(len(self.found)), self.first, victim]

    def outcome(self, axes: list[Axis], has_trace: bool) -> Outcome:
        name = f"{self.trace}: " * has_trace + named(axes, self.values)
        if isinstance(self.found, Fault):
            return Outcome(name, None, str(self.found))
        _, kills, first, victim = self.cells()[-4:]
        return Outcome(name, True, f"kills {kills}, first {first}, victim {victim}")

    def record(self, axes: list[Axis], rules: RulesFile) -> dict[str, object]:
        fault = str(self.found) if isinstance(self.found, Fault) else None
        kills = [] if isinstance(self.found, Fault) else [rules.record(kill) for kill in self.found]
        values = {
            f"{one.place.spelled()}.{one.argument}": value for one, value in zip(axes, self.values)
        }
        return {"trace": self.trace, "values": values, "fault": fault, "kills": kills}


Choice = tuple[str, tuple[str, ...]]


def replay(
    choice: Choice,
    axes: list[Axis],
    rules: RulesFile,
    options: argparse.Namespace,
    part: Span | None,
    threads: int,
) -> list[Kill]:
    """Returns the kills in a trace if the arguments have these values. `part` selects a part of the
    trace.
    """
    trace, values = choice
    data = places.changed(
        rules, [(one.place, one.argument, value) for one, value in zip(axes, values)]
    )
    pace: Pace = options.pace
    with temporary_rules(data, rules.name) as file:
        try:
            return within(Program().replay(trace, file, pace, threads), part)
        except Refusal as refusal:
            if refusal.program_status != ProgramStatus.RULES_REFUSED:
                raise
            advice = "docs/RULES.md has the argument's form and range under `Arguments`"
            raise Fault(f"{named(axes, values)}: {refusal.said}: {advice}") from refusal


def named(axes: list[Axis], values: tuple[str, ...]) -> str:
    """Lists the arguments with their values, for messages."""
    return ", ".join(f"{one.argument} {value}" for one, value in zip(axes, values))


def tell_table(axes: list[Axis], rows: list[Row]) -> None:
    """Prints the rows as a table with a header."""
    heads = ["value"] if len(axes) == 1 else [one.argument for one in axes]
    table = [["trace", *heads, "kills", "first kill", "victim"], *(row.cells() for row in rows)]
    if len({row.trace for row in rows}) == 1:
        table = [cells[1:] for cells in table]
    widths = [max(map(len, column)) for column in zip(*table)]
    for cells in table:
        print("  ".join(f"{cell:<{width}}" for cell, width in zip(cells, widths)).rstrip())
    for fault in dict.fromkeys(str(row.found) for row in rows if isinstance(row.found, Fault)):
        complain(fault)


def first_time(trace: str, found: list[Kill] | Fault, options: argparse.Namespace) -> str:
    """Returns the time of the first kill in a trace as text, or `-` if there is no kill."""
    if isinstance(found, Fault) or not found:
        return "-"
    with clock_of(trace, vars(options)):
        return time_text(found[0].time_ns)


def rows_of(axes: list[Axis], rules: RulesFile, options: argparse.Namespace) -> list[Row]:
    """Replays each trace with each combination of values. Returns a row for each replay."""
    pairs = itertools.product(options.traces, itertools.product(*(one.values for one in axes)))
    choices = list(itertools.islice(pairs, MOST_RUNS + 1))
    if len(choices) > MOST_RUNS:
        raise Fault(f"more than {MOST_RUNS} replays are asked for: take greater steps")
    parts = {trace: part_of(trace, vars(options)) for trace in options.traces}
    calls = [
        functools.partial(replay, choice, axes, rules, options, parts[choice[0]])
        for choice in choices
    ]
    results = side_by_side(calls, options.jobs or processors())
    return [
        Row(trace, values, found, first_time(trace, found, options))
        for (trace, values), found in zip(choices, results)
    ]


def run(options: argparse.Namespace) -> int:
    no_input(options.traces)
    program = Program()
    program.prepare()
    with contextlib.ExitStack() as files:
        rules, _ = accepted(program, options.file, files, "FILE TRACE, with a rules file for FILE")
    axes = [axis(rules, text) for text in options.vary]
    for trace in options.traces:
        must_judge(trace, rules.data, rules.name)
    note_samples(options.traces, [rules])
    rows = rows_of(axes, rules, options)

    def record(status: int) -> object:
        records = [row.record(axes, rules) for row in rows]
        return {"rules": options.file, "traces": options.traces, "status": status, "rows": records}

    return telling.tell(
        options.form,
        [row.outcome(axes, len(options.traces) > 1) for row in rows],
        record,
        lambda: tell_table(axes, rows),
    )
