"""Replays several traces at the same time."""
import contextlib
import functools
import json
from collections.abc import Callable, Mapping
import mmap
import os
import re
import shutil
import stat
import sys
import tempfile
from dataclasses import dataclass, field, replace
from typing import Any

from psicli.fault import Fault
from psicli.running import complain
from psicli.wording import quoted
from psinames.known import Span
from psireplay.kinds import TRACE, kind_of
from psireplay.part import part_of, within
from psireplay.sampled import MOST_BYTES, Sampled, Whole, mark_in, time_in_whole, wholes
from psireplay.trace import UNKNOWN, end_of
from psirules.patterns import matches
from psirules.program import Kill, Pace, Program, Refusal, RulesAt, processors, side_by_side
from psirules.rules_file import RulesFile, bytes_of, temporary_rules
from psirules.sampling import must_judge, promise

STANDARD_INPUT = "-"
GROUP = re.compile(rb"^[0-9]+ group (\S+)$", re.MULTILINE)


@dataclass(frozen=True)
class Traces:
    """The traces to replay, the lengths of ticks and intervals, and the number of simultaneous
    replays (None for the number of processors). Traces that were made together from the same
    samples count as one, with the name of the first; `parts` has all of them. `spans` has the part
    of each trace whose kills count, if a part is selected.
    """

    names: list[str]
    pace: Pace
    jobs: int | None
    parts: dict[str, list[tuple[str, Sampled | None]]] = field(default_factory=dict)
    spans: dict[str, Span] = field(default_factory=dict)

    @staticmethod
    def of(
        names: list[str], pace: Pace, jobs: int | None, values: Mapping[str, Any]
    ) -> "Traces":
        """Returns the traces `names`. Traces that were made together from the same samples become
        one. `values` has the options that `add_times` added.
        """
        found = wholes(names)
        spans = {it.name: part_of(it.name, values, length_of(it)) for it in found}
        return Traces(
            [it.name for it in found],
            pace,
            jobs,
            {it.name: it.parts for it in found if len(it.parts) > 1},
            {name: span for name, span in spans.items() if span},
        )

    def joined(self, trace: str, replay: Callable[[str], list[Kill]]) -> list[Kill]:
        """Returns the kills in a trace that are within its selected part."""
        return within(self.all_kills(trace, replay), self.spans.get(trace))

    def all_kills(self, trace: str, replay: Callable[[str], list[Kill]]) -> list[Kill]:
        """Returns the kills in a trace, or in all traces that were made together with it. A kill in
        the overlap of two of them is returned once.
        """
        if trace not in self.parts:
            return replay(trace)
        kills = []
        for name, mark in self.parts[trace]:
            times = [(kill, time_in_whole(kill.time_ns, mark)) for kill in replay(name)]
            kills += [replace(kill, time_ns=time) for kill, time in times if time is not None]
        return kills

    def groups(self, trace: str) -> set[str] | None:
        """Returns the paths of all groups of a trace. If several traces were made from the same
        samples, returns the paths of the groups of all of them. Returns None if a file, such as a
        pipe, can be read only once.
        """
        found: set[str] = set()
        for name, _ in self.parts.get(trace, [(trace, None)]):
            groups = all_groups(name)
            if groups is None:
                return None
            found |= groups
        return found

    def replay(self, program: Program, trace: str, file: RulesAt, threads: int) -> list[Kill]:
        """Returns the kills that a rules file makes in a trace."""
        must_judge(trace, json.loads(bytes_of(file.path)), file.name)
        return self.joined(trace, lambda name: program.replay(name, file, self.pace, threads))

    def replays(self, program: Program, rules: list[RulesAt]) -> list[list[list[Kill] | Fault]]:
        """Returns, for each rules file and each trace, the kills, or a Fault if the trace couldn't
        be replayed.
        """
        pairs = [(file, trace) for file in rules for trace in self.names]
        calls = [functools.partial(self.replay, program, trace, file) for file, trace in pairs]
        found = side_by_side(calls, self.jobs or processors())
        return [
            found[number * len(self.names) :][: len(self.names)] for number in range(len(rules))
        ]

    def each(self, replay: Callable[[str, int], list[Kill]]) -> list[list[Kill] | Fault]:
        """Returns, for each trace, the kills, or a Fault if the trace couldn't be replayed. Calls
        `replay` with the trace's name and the number of threads that it may use.
        """

        def call(trace: str, threads: int) -> list[Kill]:
            return self.joined(trace, lambda name: replay(name, threads))

        return side_by_side(
            [functools.partial(call, trace) for trace in self.names], self.jobs or processors()
        )


def length_of(whole: Whole) -> int:
    """Returns the length (ns) of a trace, or of all traces that were made together."""
    ends = [time_in_whole(end_of(name), mark) for name, mark in whole.parts]
    return max((it for it in ends if it is not None), default=UNKNOWN)


def read_again() -> None:
    """Replaces standard input by a temporary file with the same contents, so that it can be read
    several times.
    """
    file = tempfile.TemporaryFile()
    shutil.copyfileobj(sys.stdin.buffer, file)
    file.seek(0)
    os.dup2(file.fileno(), 0)


def all_groups(trace: str) -> set[str] | None:
    """Returns the paths of all groups of a trace, including the root, but not the group that marks
    a trace of samples. Returns None if the trace can't be read twice, for example if it is a pipe.
    """
    with contextlib.ExitStack() as files:
        number = 0 if trace == STANDARD_INPUT else None
        if number is None and os.path.isfile(trace):
            number = files.enter_context(open(trace, "rb")).fileno()
        if (
            number is None
            or not stat.S_ISREG(os.fstat(number).st_mode)
            or not os.fstat(number).st_size
        ):
            return None
        with mmap.mmap(number, 0, access=mmap.ACCESS_READ) as data:
            found = GROUP.findall(data, len(mark_in(data[:MOST_BYTES])))
    return {"/", *(path.decode("latin-1") for path in found)}


def note_unmatched(traces: Traces, names: list[str], rules: list[RulesFile]) -> None:
    """Prints a note for each pattern of the rules that matches no group of a trace, and so has no
    effect there. Prints no note for a trace whose only group is the root.
    """
    for trace in names:
        groups = traces.groups(trace) or set()
        for file in rules if len(groups) > 1 else ():
            for number, pattern in file.patterns():
                if not any(matches(pattern, path) for path in groups):
                    what = (
                        f"'{pattern}' of ruleset {number} {quoted(file.ruleset_name(number))} in"
                        f" {file.name}"
                    )
                    complain(f"note: no group of {trace} matches {what}")


def note_samples(traces: list[str], rules: list[RulesFile]) -> None:
    """Prints notes on the stalls that the rules can detect in traces that were made from samples.
    """
    for said in dict.fromkeys(promise(trace, file.data) for trace in traces for file in rules):
        if said:
            complain(f"note: {said}")


def no_input(names: list[str]) -> None:
    """Raises a Fault if standard input is one of the traces, since it would be read several times.
    """
    if STANDARD_INPUT in names:
        raise Fault("- is no trace here, since it is read more than once: write it to a file first")


def accepted(
    program: Program, name: str, files: contextlib.ExitStack, order: str = ""
) -> tuple[RulesFile, RulesAt]:
    """Returns a rules file that the program accepts, and a temporary copy that exists until `files`
    is closed. Raises a Refusal if the program rejects the rules. If the file is a trace, raises a
    Fault that states the `order` of the arguments.
    """
    data = bytes_of(name)
    rules = files.enter_context(temporary_rules(data, name))
    try:
        program.judge(rules)
    except Refusal as refusal:
        kind = kind_of(data)
        if order and kind and kind.what == TRACE:
            raise Fault(f"{name} is a trace: the words are {order}") from refusal
        raise
    return RulesFile(name, data), rules
