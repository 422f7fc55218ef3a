"""tools/rules compare: reports, for each trace, the kills that differ between two rules files."""
import argparse
import contextlib
import itertools
from dataclasses import dataclass

from psicli.fault import Fault
from psicli.running import complain
from psicli.times import seconds, time_text
from psireplay.part import clock_of
from psirules import telling
from psirules.expectations import victims
from psirules.program import Kill, Program
from psirules.replays import Traces, accepted, no_input, note_samples, note_unmatched
from psirules.rules_file import RulesFile
from psirules.sampling import note
from psirules.telling import Outcome

ABOUT = """Replays each trace by the rules of OLD and by those of NEW, and says of each, by the
first kill that differs:

  same           the same groups are killed at the same moments
  earlier by S   the same group is killed, so many seconds earlier by NEW
  later by S     or later
  other victim   another group is killed
  only in FILE   there is such a kill by these rules alone"""
ORDER = "OLD NEW TRACE, with rules files for OLD and NEW"
STATUS = (
    "The status is 0 where all traces are the same, 1 where some aren't, and 2 where something"
    " couldn't be run."
)


@dataclass(frozen=True)
class Difference:
    """The first difference between the kills by OLD and by NEW in a trace: a word for its kind, the
    two kills (None if there is none), and a sentence.
    """

    word: str
    old: Kill | None
    new: Kill | None
    text: str


def difference(
    old: list[Kill], new: list[Kill], old_rules: RulesFile, new_rules: RulesFile
) -> Difference:
    """Returns the first difference between two lists of kills, which are compared position by
    position.
    """
    for number, (one, other) in enumerate(itertools.zip_longest(old, new)):
        earlier = f", after {victims(new[:number])} by both" if number else ""
        if one is None:
            word = f"only in {new_rules.name}"
            return Difference(
                word, one, other, f"{word}: {other.path} {new_rules.killed(other)}{earlier}"
            )
        if other is None:
            word = f"only in {old_rules.name}"
            return Difference(
                word, one, other, f"{word}: {one.path} {old_rules.killed(one)}{earlier}"
            )
        both = (
            f"{other.path} {new_rules.killed(other)}; by"
            f" {old_rules.name} {told_old(one, other, old_rules, new_rules)}{earlier}"
        )
        if one.path != other.path:
            return Difference("other victim", one, other, f"other victim: {both}")
        if one.time_ns != other.time_ns:
            word = (
                f"{'earlier' if other.time_ns < one.time_ns else 'later'} by"
                f" {seconds(abs(other.time_ns - one.time_ns))} s"
            )
            return Difference(word, one, other, f"{word}: {both}")
    return Difference("same", None, None, f"same: {victims(new)}")


def told_old(old: Kill, new: Kill, old_rules: RulesFile, new_rules: RulesFile) -> str:
    """Describes the kill by OLD. Omits the victim if the kill by NEW has the same victim, and the
    killer if it has the same killer.
    """
    path = "" if old.path == new.path else f"{old.path} "
    killer = "" if old_rules.killer(old) == new_rules.killer(new) else f", {old_rules.killer(old)}"
    return f"{path}at {time_text(old.time_ns)}{killer}"


@dataclass(frozen=True)
class Compared:
    """A trace, and the first difference between its kills by OLD and by NEW, or a Fault if the
    trace couldn't be replayed.
    """

    trace: str
    found: Difference | Fault

    def outcome(self) -> Outcome:
        if isinstance(self.found, Fault):
            return Outcome(self.trace, None, str(self.found))
        return Outcome(self.trace, self.found.word == "same", self.found.text + note(self.trace))

    def record(self, old: RulesFile, new: RulesFile) -> dict[str, object]:
        if isinstance(self.found, Fault):
            return {"trace": self.trace, "fault": str(self.found)}
        kills = {
            "old": self.found.old and old.record(self.found.old),
            "new": self.found.new and new.record(self.found.new),
        }
        return {
            "trace": self.trace,
            "fault": None,
            "word": self.found.word,
            "told": self.found.text,
            **kills,
        }


def run(options: argparse.Namespace) -> int:
    no_input(options.traces)
    program = Program()
    program.prepare()
    with contextlib.ExitStack() as files:
        old, old_file = accepted(program, options.old, files, ORDER)
        new, new_file = accepted(program, options.new, files, ORDER)
        traces = Traces.of(options.traces, options.pace, options.jobs, vars(options))
        replays = traces.replays(program, [old_file, new_file])
    whole = [
        trace
        for trace, *found in zip(traces.names, *replays)
        if not any(isinstance(it, Fault) for it in found)
    ]
    note_unmatched(traces, whole, [old, new])
    note_samples(whole, [old, new])
    compared = []
    for trace, one, other in zip(traces.names, *replays):
        fault = next((it for it in (one, other) if isinstance(it, Fault)), None)
        with clock_of(trace, vars(options)):
            compared.append(Compared(trace, fault or difference(one, other, old, new)))
    outcomes = [it.outcome() for it in compared]

    def record(status: int) -> object:
        records = [it.record(old, new) for it in compared]
        return {"old": options.old, "new": options.new, "status": status, "traces": records}

    return telling.tell(options.form, outcomes, record, lambda: tell_lines(outcomes))


def tell_lines(outcomes: list[Outcome]) -> None:
    """Prints a line for each trace. Traces that couldn't be replayed are reported on standard
    error.
    """
    for outcome in outcomes:
        if outcome.is_ok is None:
            complain(outcome.message)
        else:
            print(f"{outcome.name}: {outcome.message}")
