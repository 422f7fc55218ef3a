"""tools/rules suggest: finds thresholds and durations with which rules kill during incidents, but
not in quiet traces.
"""
import argparse
import contextlib
from collections.abc import Iterator, Mapping
from dataclasses import dataclass
from typing import Any

from psicli.fault import Fault
from psicli.running import complain
from psicli.status import Status
from psicli.times import SECOND, time_text
from psicli.wording import quoted
from psireplay.part import clock_of
from psireplay.sampled import sampled
from psireplay.trace import end_of
from psirules import by_oomd, by_systemd, expectations, ranges, telling
from psirules.expectations import Expectation, First, NoKillBefore
from psirules.explain import PSI_OOMD
from psirules.knobs import Found, Knob, Subject, Values, subject
from psirules.program import Kill, Program
from psirules.ranges import EARLY, LATE, OTHER, Outcome, Range, Search
from psirules.replays import Traces, no_input, note_samples, note_unmatched
from psirules.rules_file import bytes_of
from psirules.sampling import note
from psirules.telling import Form

ABOUT = """Finds, for each threshold and duration of RULES, the values with which every incident is
as the WANT file says, and nobody is killed in the quiet traces, while all other numbers stay; how
far the present value is from both ends; and the values with the widest margins, which -o writes as
a file.

The WANT file has the lines of `rules expect`, such as `first /batch/import from 100 to 160`, for
each incident. Ranges are found by bisection if a lower value can't make a first kill later and WANT
has only lines `first` and `no kill before`, else on a grid; the answer says which. With --by, RULES
is as for `rules explain`."""
STATUS = "The status is 0 if there are such values, 1 if not, and 2 if something couldn't be run."


@dataclass(frozen=True)
class Task:
    """The input of a search: incidents with their expectations, quiet traces, and the options that
    select parts of traces.
    """

    incidents: list[str]
    wanted: list[Expectation]
    quiet: list[str]
    traces: Traces
    values: Mapping[str, Any]

    def is_monotone(self) -> bool:
        """Whether a lower value never delays the first kill. If only a part of a trace counts, a
        lower value can delay it: a kill before that part may begin a pause of the ruleset.
        """
        is_first = all(isinstance(it, (First, NoKillBefore)) for it in self.wanted)
        return is_first and not self.traces.spans


def first_of(kills: list[Kill]) -> tuple[Kill, ...]:
    """Returns all kills at the time of the first kill."""
    return tuple(it for it in kills if it.time_ns == kills[0].time_ns)


def kind_of(wanted: Expectation, kills: list[Kill]) -> str:
    """Returns the kind of fault of an expectation that doesn't hold: EARLY, LATE or OTHER."""
    if isinstance(wanted, NoKillBefore):
        return EARLY
    if not isinstance(wanted, First):
        return OTHER
    if not kills or kills[0].time_ns > wanted.end:
        return LATE
    return EARLY if kills[0].time_ns < wanted.start else OTHER


class Judge:
    """Evaluates sets of values, and caches the outcomes."""

    def __init__(self, it: Subject, task: Task) -> None:
        self.subject, self.task = it, task
        self.known: dict[tuple[tuple[Knob, int], ...], Outcome] = {}

    def look(self, many: list[Values]) -> list[Outcome]:
        """Returns the outcome of each set of values. A number that a set doesn't contain has its
        value in the file.
        """
        keys = [tuple(sorted(values.items(), key=lambda it: it[0].spelled())) for values in many]
        unknown = {key: values for key, values in zip(keys, many) if key not in self.known}
        found = self.subject.kills_of_each(list(unknown.values()), self.task.traces)
        self.known.update({key: self.judged(kills) for key, kills in zip(unknown, found)})
        return [self.known[key] for key in keys]

    def judged(self, found: Found) -> Outcome:
        """Returns the outcome for the kills in all traces."""
        faults: dict[str, str] = {}
        kills: list[list[Kill]] = []
        for it in found:
            if isinstance(it, Fault):
                raise it
            kills.append(it)
        for trace, of_trace in zip(self.task.traces.names, kills):
            with clock_of(trace, self.task.values):
                for kind, why in self.faults(trace, of_trace):
                    faults.setdefault(kind, f"{trace}{note(trace)}: {why}")
        return Outcome(faults, tuple(map(first_of, kills)))

    def faults(self, trace: str, kills: list[Kill]) -> Iterator[tuple[str, str]]:
        """Yields the kind and the description of each fault of the kills in a trace."""
        if trace in self.task.quiet and kills:
            yield EARLY, f"kills {kills[0].path} at {time_text(kills[0].time_ns)}"
        for wanted in self.task.wanted if trace in self.task.incidents else ():
            verdict = wanted.verdict(kills, self.subject.rules)
            if not verdict.holds:
                yield kind_of(wanted, kills), f"{wanted.text}: {verdict.text}"


@dataclass(frozen=True)
class Answer:
    """The ranges of a number. `samples` is a text with the sampling intervals of the traces that
    were made from samples.
    """

    knob: Knob
    search: Search
    samples: str

    def lines(self) -> Iterator[str]:
        knob, search = self.knob, self.search
        holds = [f"{it.low} to {it.high} {knob.unit}" for it in search.ranges] or ["no value"]
        tried = "; ".join(
            filter(None, [f"{search.way}, {search.tried} values tried", self.samples])
        )
        yield f"{knob.spelled()}: {' or '.join(holds)}; now {knob.present} {knob.unit} ({tried})"
        here = search.of(knob.present)
        if here:
            yield f"  margin: {knob.present - here.low} below, {here.high - knob.present} above"
        for it in search.ranges:
            for value, why in ((it.lower, it.below), (it.higher, it.above)):
                if why:
                    yield f"  not {value}: {why}"

    def record(self) -> dict[str, object]:
        found = [
            {
                "low": it.low, "high": it.high, "lower": it.lower, "higher": it.higher,
                "below": it.below or None, "above": it.above or None,
            }
            for it in self.search.ranges
        ]  # fmt: skip
        return {
            "place": self.knob.place, "argument": self.knob.argument, "unit": self.knob.unit,
            "now": self.knob.present, "ranges": found, "by": self.search.way,
            "tried": self.search.tried, "step": self.search.step,
        }  # fmt: skip


def searched(judge: Judge, knob: Knob, others: Values) -> Search:
    """Finds the ranges of the number `knob`. The numbers in `others` have the values given there,
    and all remaining numbers have their values in the file.
    """
    is_monotone = judge.subject.is_monotone() and judge.task.is_monotone()

    def look(values: list[int]) -> list[Outcome]:
        return judge.look([{**others, knob: value} for value in values])

    least = 1 if knob.way[-1] == "duration" and len(knob.way) == 2 else 0
    return ranges.search((least, knob.most), knob.present, judge.subject.at_once, is_monotone, look)


def middle(found: Range) -> int:
    return (found.low + found.high) // 2


def widest(judge: Judge, knobs: list[Knob]) -> dict[Knob, int]:
    """Returns values with wide margins. Each number in turn is set to the middle of its widest
    range, which depends on the numbers that were set before. Therefore all numbers except the last
    are set a second time.
    """
    chosen: dict[Knob, int] = {}
    for knob in [*knobs, *knobs[:-1]]:
        others = {it: value for it, value in chosen.items() if it != knob}
        best = searched(judge, knob, others).widest()
        if best:
            chosen[knob] = middle(best)
    return chosen


def check_words(options: argparse.Namespace) -> None:
    """Raises a Fault if the options contradict each other."""
    no_input([*options.incidents, *options.quiet])
    both = sorted(set(options.incidents) & set(options.quiet))
    if both:
        raise Fault(f"{both[0]} is given as an incident and as a quiet trace")
    if options.by != PSI_OOMD and options.tick_ms:
        raise Fault(f"--tick-ms isn't for --by {options.by}")
    if options.by == by_systemd.NAME and options.interval_s:
        raise Fault(f"--interval-s isn't for --by {options.by}, which evaluates each second")
    if options.systemd and options.by != by_systemd.NAME:
        raise Fault(f"--systemd is for --by {by_systemd.NAME}")


def task_of(options: argparse.Namespace) -> Task:
    """Reads the expectations and the traces. Raises a Fault if a pattern in the WANT file matches
    no group of an incident.
    """
    wanted = expectations.read(options.want, bytes_of(options.want))
    names = [*options.incidents, *options.quiet]
    traces = Traces.of(names, options.pace, options.jobs, vars(options))
    for trace in options.incidents:
        groups = traces.groups(trace)
        for it in wanted if groups else ():
            missing = it.missing(groups or set())
            if missing:
                raise Fault(f"{options.want} line {it.line}: {trace}: {missing}")
    incidents = [it for it in traces.names if it in options.incidents]
    quiet = [it for it in traces.names if it not in incidents]
    return Task(incidents, wanted, quiet, traces, vars(options))


def check_wanted(task: Task, it: Subject, name: str) -> None:
    for wanted in task.wanted:
        try:
            wanted.check(it.rules)
        except Fault as fault:
            raise Fault(f"{name} line {wanted.line}: {fault}") from fault


@dataclass(frozen=True)
class Suggestion:
    """The result: the ranges of each number, the values with the widest margins, and the ranges
    around these values.
    """

    answers: list[Answer]
    chosen: dict[Knob, int]
    around: list[Answer]
    holds: bool


def suggest(options: argparse.Namespace, judge: Judge, knobs: list[Knob]) -> Suggestion:
    """Finds all ranges and the values with the widest margins. Writes these values to the file that
    -o names if they meet all expectations together.
    """
    marks = {mark.interval() for trace in judge.task.traces.names if (mark := sampled(trace))}
    samples = ", ".join(sorted(marks))
    answers = [Answer(knob, searched(judge, knob, {}), samples) for knob in knobs]
    chosen = widest(judge, knobs)
    holds = bool(chosen) and judge.look([chosen])[0].holds
    if options.output and holds:
        with open(options.output, "wb") as file:
            file.write(judge.subject.text(chosen))
    around = [
        Answer(
            knob,
            searched(judge, knob, {it: value for it, value in chosen.items() if it != knob}),
            samples,
        )
        for knob in chosen
    ]
    return Suggestion(answers, chosen, around if holds else [], holds)


def suggested_lines(found: Suggestion) -> Iterator[str]:
    """Yields the lines of the report: all ranges, and the values with the widest margins."""
    for it in found.answers:
        yield from it.lines()
    if not found.holds:
        yield "no values were found that hold together"
        return
    yield "widest margins:"
    for it in found.around:
        value, range_ = found.chosen[it.knob], it.search.of(found.chosen[it.knob])
        if range_:
            margin = f"{value - range_.low} below, {range_.high - value} above"
            way = "; ".join(filter(None, [it.search.way, it.samples]))
            yield f"  {it.knob.spelled()} {value} {it.knob.unit}: margin {margin} ({way})"


def record_of(options: argparse.Namespace, found: Suggestion) -> dict[str, object]:
    values = [
        {"place": it.place, "argument": it.argument, "value": value}
        for it, value in found.chosen.items()
    ]
    samples = {
        trace: mark.interval()
        for trace in [*options.incidents, *options.quiet]
        if (mark := sampled(trace))
    }
    return {
        "rules": options.file, "by": options.by, "want": options.want,
        "incidents": options.incidents, "quiet": options.quiet,
        "samples": samples, "ranges": [it.record() for it in found.answers],
        "widest": values if found.holds else None, "around": [it.record() for it in found.around],
    }  # fmt: skip


def run(options: argparse.Namespace) -> int:
    check_words(options)
    program = Program()
    program.prepare()
    task = task_of(options)
    groups = set().union(*(task.traces.groups(it) or set() for it in task.traces.names))
    with contextlib.ExitStack() as files:
        judged = subject(
            program, options.by, options.file, options.interval_s, options.systemd, groups, files
        )
        check_wanted(task, judged, options.want)
        longest = max(end_of(it, 0) // SECOND + 1 for it in task.traces.names)
        knobs = list(judged.knobs(longest))
        if not knobs:
            raise Fault(
                f"{options.file} has no threshold in percent and no duration of a detector that"
                " could be varied"
            )
        found = suggest(options, Judge(judged, task), knobs)
    if options.by not in (by_oomd.NAME, by_systemd.NAME):
        note_unmatched(task.traces, task.incidents, [judged.rules])
        note_samples(task.traces.names, [judged.rules])
    if options.form is Form.JSON:
        telling.tell_json(record_of(options, found))
    else:
        print("\n".join(suggested_lines(found)))
    if options.output and not found.holds:
        name = quoted(options.output)
        complain(f"{name} wasn't written: no values were found that hold together")
    return Status.DONE if found.holds else Status.FOUND
