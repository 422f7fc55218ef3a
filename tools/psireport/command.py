"""Parses the command line of tools/report, and writes the report."""
from __future__ import annotations

import os

from psicli.fault import Fault
from psicli.options import add_interval, add_tick
from psicli.output import must_be_writable
from psicli.parser import Parser
from psicli.running import complain, run, write
from psicli.status import Status
from psinames.known import add_clock, add_names
from psireplay.runs import Runs

from .facts import Options, collect
from .page import html

ABOUT = "Writes an incident on one page: an HTML file that needs no network and nothing beside it."
AFTER = (
    "It runs psi_oomd (the one above this tool's folder, or that which the variable PSI_OOMD names)"
    " and the tools beside this one; the page names each command. Statuses: 2 a usage error, or a"
    " page that can't be written, 4 no such file, 11 no such group, 70 psi_oomd can't be run; else"
    " that of the command that failed, with its words: 2 if psi_oomd refuses the trace, 3 if it"
    " refuses the rules."
)
HELP = {
    "rules": (
        "rules: when their detectors were true, how near they came, whom they would have killed,"
        " and what of it"
    ),
    "drop-in": "a drop-in file for these rules",
    "oomd": "a configuration of oomd: whom oomd 0.5.0 would have killed by it, as tools/oomd says",
    "recording": (
        "the recording of which the trace was made: how near it is to the machine's own files"
    ),
    "from": "where in the recording the trace begins, as --from of psitrace",
    "group": (
        "draw this group, by its path or its last component; may be repeated: those that stalled"
        " most if left out"
    ),
    "output": "the file to write: standard output if left out",
}


def parser() -> Parser:
    """Returns the parser of the command line."""
    words = Parser(ABOUT, AFTER)
    option = words.add_argument
    option("trace", metavar="TRACE", help="a trace")
    option("--rules", metavar="FILE", help=HELP["rules"])
    option("--drop-in", metavar="FILE", help=HELP["drop-in"])
    option("--oomd", metavar="FILE", help=HELP["oomd"])
    option("--recording", metavar="FOLDER", help=HELP["recording"])
    option("--from", dest="start", metavar="S", help=HELP["from"])
    option("--group", action="append", default=[], metavar="GROUP", help=HELP["group"])
    add_clock(words)
    add_names(words)
    add_tick(words)
    add_interval(words)
    option("-o", "--output", metavar="FILE", help=HELP["output"])
    return words


def read_words() -> Options:
    it = parser().parse_args()
    if it.trace == "-":
        raise Fault("the trace is read several times: give a file, not standard input")
    if it.drop_in is not None and it.rules is None:
        raise Fault("--drop-in changes rules: give them by --rules")
    if it.start is not None and it.recording is None:
        raise Fault("--from is a time of the recording: give it by --recording")
    return Options(
        it.trace, it.rules, it.drop_in, it.recording, it.start, it.group, it.wall, it.tick_ms,
        it.interval_s, it.output, it.oomd,
        vars(it),
    )  # fmt: skip


def write_page(page: bytes, name: str | None) -> None:
    """Writes the page to standard output or to a file. If an error occurs, the file isn't changed.
    """
    if name is None:
        write(page)
        return
    part = f"{name}.part"
    try:
        with open(part, "wb") as file:
            file.write(page)
        os.replace(part, name)
    except OSError:
        if os.path.isfile(part):
            os.unlink(part)
        raise


def report() -> int:
    """Parses the command line, runs all commands, and writes the page."""
    options = read_words()
    if options.output is not None:
        must_be_writable(options.output)
    runs = Runs()
    facts = collect(runs, options)
    page = html(facts, runs)
    for what in facts.unmatched:
        complain(f"note: no group of the trace matches {what}")
    write_page(page, options.output)
    return Status.DONE


def main() -> int:
    """Runs the command, and returns the exit status."""
    return run(report)
