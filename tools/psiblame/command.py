"""Parses the command line of tools/blame, and prints the requested figures."""
from __future__ import annotations

from typing import Any, NamedTuple, Optional

from psicli.fault import Fault
from psicli.options import add_json
from psicli.parser import Parser
from psicli.running import run, write
from psicli.status import Status
from psicli.values import whole_number
from psinames.known import Known, add_names, add_times, known_of, span_in
from psinames.tasks import Tasks
from psireplay.groups import Group
from psireplay.sampled import refuse_sampled
from psireplay.trace import event_in, groups_of

from .check import must_add_up
from .figures import DEEPEST, Asker
from .runners import Runners
from .sums import Stretches
from .text import as_text
from .json_output import Asked, as_json
from .trace import Lines, Stalls, as_file, stalls
from .walk import Named, Walk

ABOUT = (
    "Who ran on the processors where a group waited, and who else waited for IO or stalled for"
    " memory at the same time."
)
AFTER = (
    "Without --group: a table of all groups, and a matrix of who waited for whom. The parts of each"
    " group add up to what `psi_oomd stall` says, which each run checks; the program is the"
    " psi_oomd beside this tool, or that which the variable PSI_OOMD names. A folded trace has the"
    " sums of its groups still, but no longer who ran while who waited. Statuses: 2 a usage error,"
    " or a trace that psi_oomd refuses, 4 no such file, 5 it can't be read, 7 out of memory, 11 no"
    " such group, 12 a time outside the trace, 13 the parts don't add up, 70 psi_oomd can't be run."
)
HELP = {
    "group": (
        "show only this group, by its path or its last component; PATH#N is the Nth with this path;"
        " may be repeated"
    ),
    "threads": "show threads instead of processes",
    "top": "show so many of each kind (10; all in JSON)",
    "depth": "show groups of at most so many components: what runs below one counts as that one",
    "victim": (
        "how much of the waits was while this group ran, and how much less there would have been"
        " without it at least"
    ),
}
# The largest number of entries in the rows of all processors together. If there are more, the rows
# are added to the sums, which bounds the memory use.
MOST_ENTRIES = 200_000


class Options(NamedTuple):
    """The parsed command line. `values` has all options by name."""

    trace: str
    groups: list[str]
    top: Optional[int]
    depth: int
    victim: Optional[str]
    is_json: bool
    has_threads: bool
    values: dict[str, Any]


def parser() -> Parser:
    """Returns the parser of the command line."""
    words = Parser(ABOUT, AFTER)
    option = words.add_argument
    option("trace", metavar="TRACE", help="a trace, or - for standard input")
    option("--group", action="append", default=[], metavar="GROUP", help=HELP["group"])
    add_times(words)
    option("--top", type=whole_number(1, 99999), metavar="N", help=HELP["top"])
    option("--depth", type=whole_number(1, 99999), default=DEEPEST, metavar="N", help=HELP["depth"])
    option("--victim", metavar="GROUP", help=HELP["victim"])
    option("--threads", dest="has_threads", action="store_true", help=HELP["threads"])
    add_names(words)
    add_json(words)
    return words


def options_of() -> Options:
    """Parses the command line."""
    it = parser().parse_args()
    return Options(
        it.trace,
        list(dict.fromkeys(it.group)),
        it.top,
        it.depth,
        it.victim,
        it.is_json,
        it.has_threads,
        vars(it),
    )


def with_paths(options: Options, known: Known, file: str) -> Options:
    """Returns the options with group names replaced by paths. A group name may be the name of a
    container.
    """
    paths = sorted(groups_of(file))

    def path_of(word: str) -> str:
        name, sign, life = word.partition("#")
        return known.groups.find(name, paths, "ever lived in the trace") + sign + life

    victim = path_of(options.victim) if options.victim is not None else None
    return options._replace(groups=list(dict.fromkeys(map(path_of, options.groups))), victim=victim)


def asked_time(options: Options, lines: Lines, known: Known) -> Asked:
    """Returns the request, with the time span that the options select within the trace."""
    span = span_in(options.values, known.wall, lines.end)
    victim, top = options.victim, options.top
    return Asked(options.trace, lines.end, span.start, span.end, lines.cpus, victim, top)


def walked(options: Options, lines: Lines, asked: Asked, expected: Stalls, known: Known) -> Walk:
    """Replays the whole trace, and compares the sums with `expected`, the times that psi_oomd
    printed.
    """
    victims = Named([options.victim] if options.victim is not None else [], True)
    runners = Runners(Tasks(known.companion, options.has_threads))
    walk = Walk(
        lines.cpus, Stretches(asked.start, asked.to), Named(options.groups, False), victims, runners
    )
    for piece in lines.pieces():
        for line in piece:
            walk.take(*event_in(line))
        if walk.entries() > MOST_ENTRIES:
            walk.fold()
    must_add_up(walk.stretches.done, walk.live.values(), lines.cpus, expected)
    return walk


def asked_groups(options: Options, walk: Walk) -> list[Group]:
    """Returns the groups that the arguments name, without duplicates."""
    found = dict.fromkeys(group for word in options.groups for group in walk.named(word))
    for group in found:
        if group.number in walk.victims.numbers:
            raise Fault(
                f"--victim {options.victim} is {walk.name(group)} or above it: without it there is"
                " no such group"
            )
    return list(found)


def work(options: Options) -> str:
    """Returns the text to print. Before that, compares the sums of all groups with psi_oomd's
    times.
    """
    with as_file(options.trace) as file:
        refuse_sampled(file, options.trace, "who ran while a group waited")
        expected = stalls(file, options.trace)
        lines = Lines(file)
        known = known_of(options.trace, options.values, is_whole=True)
        options = with_paths(options, known, file)
        asked = asked_time(options, lines, known)
        walk = walked(options, lines, asked, expected, known)
    if options.victim is not None:
        walk.named(options.victim)
    asker = Asker(walk, asked.cpus, options.depth, asked.to)
    found = [asker.figures(group) for group in asked_groups(options, walk)]
    return (as_json if options.is_json else as_text)(walk, found, asker.table(), asked, known)


def blame() -> int:
    """Computes and prints what the command line requests."""
    write(work(options_of()).encode())
    return Status.DONE


def main() -> int:
    """Runs the command; returns the exit status."""
    return run(blame)
