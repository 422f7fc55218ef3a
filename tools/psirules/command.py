"""The command line of tools/rules."""
from collections.abc import Callable
from typing import Any

from psicli.options import add_interval, add_tick
from psicli.parser import Parser
from psicli.running import run
from psicli.values import whole_number
from psinames.known import add_names, add_times
from psinames.shown import show_containers
from psirules import (
    by_oomd,
    by_systemd,
    compare,
    expect,
    explain,
    from_oomd,
    from_systemd,
    lint,
    suggest,
    sweep,
    to_oomd,
)
from psirules.program import Pace
from psirules.telling import Form

ABOUT = """Tests, compares and mends rules files of psi_oomd on recorded traces.

Each command replays by the psi_oomd that stands beside the folder of this tool, or by the program \
that the variable PSI_OOMD
names, and reports what that prints. `tools/rules COMMAND --help` has the words of each."""
STATUS = """The status is 0 where all is well, 1 where an expectation fails, traces differ or \
a rules file has faults, and 2
where something couldn't be run: a wrong word, a file that isn't there, a trace or rules file that \
the program refuses."""


def add_form(command: Parser, has_tap: bool) -> None:
    """Adds the options that select the form of the output."""
    forms = command.add_mutually_exclusive_group()
    if has_tap:
        forms.add_argument(
            "--tap",
            dest="form",
            action="store_const",
            const=Form.TAP,
            help="print TAP, for a test harness",
        )
    forms.add_argument(
        "--json", dest="form", action="store_const", const=Form.JSON, help="print JSON"
    )
    command.set_defaults(form=Form.LINES)


def add_version(command: Parser, condition: str = "") -> None:
    """Adds --systemd, the version of systemd."""
    command.add_argument(
        "--systemd",
        type=whole_number(247, 9999),
        metavar="N",
        help=f"{condition}by which version of systemd",
    )


def add_jobs(command: Parser) -> None:
    """Adds --jobs, the number of simultaneous replays."""
    jobs = "how many replays run side by side: one a processor if left out"
    command.add_argument("--jobs", type=whole_number(1, 1024), metavar="N", help=jobs)


def add_pace(command: Parser) -> None:
    """Adds the options for the lengths of ticks and evaluation intervals."""
    add_tick(command)
    add_interval(command)


def add_replay(command: Parser) -> None:
    """Adds the options that all commands with replays share, including the options for the names of
    groups.
    """
    add_pace(command)
    add_times(command)
    add_names(command)
    add_jobs(command)
    add_form(command, True)


def add_expect(command: Parser) -> None:
    """Adds the arguments of `expect`."""
    command.add_argument("want", metavar="WANT", help="the file with what is wanted")
    command.add_argument("traces", metavar="TRACE", nargs="+", help="a trace")
    command.add_argument("--rules", metavar="FILE", help="the rules file")
    killers = ("psi_oomd", by_oomd.NAME, by_systemd.NAME)
    by = (
        "who kills: psi_oomd by --rules if left out, or oomd 0.5.0 by --rules, or systemd-oomd by"
        " --settings"
    )
    command.add_argument("--by", choices=killers, default=killers[0], help=by)
    settings = "with --by systemd-oomd: its settings, as of tools/systemd-oomd"
    command.add_argument("--settings", metavar="FOLDER", help=settings)
    add_version(command, "with it: ")
    add_replay(command)
    command.set_defaults(run=expect.run)


def add_compare(command: Parser) -> None:
    """Adds the arguments of `compare`."""
    command.add_argument("old", metavar="OLD", help="a rules file")
    command.add_argument("new", metavar="NEW", help="the one that is to take its place")
    command.add_argument("traces", metavar="TRACE", nargs="+", help="a trace")
    add_replay(command)
    command.set_defaults(run=compare.run)


def add_explain(command: Parser) -> None:
    """Adds the arguments of `explain`."""
    command.add_argument("file", metavar="RULES", help="the rules file")
    command.add_argument("trace", metavar="TRACE", help="a trace")
    by = "who evaluates: psi_oomd if left out, or oomd 0.5.0 or systemd-oomd"
    command.add_argument("--by", choices=explain.KILLERS, default=explain.PSI_OOMD, help=by)
    add_version(command, "with --by systemd-oomd: ")
    command.add_argument(
        "--all", dest="is_all", action="store_true", help="print all firings and candidates"
    )
    add_pace(command)
    add_times(command)
    add_names(command)
    add_form(command, False)
    command.set_defaults(run=explain.run)


def add_suggest(command: Parser) -> None:
    """Adds the arguments of `suggest`."""
    command.add_argument("file", metavar="RULES", help="the rules file")
    option = command.add_argument
    option("--incidents", metavar="TRACE", nargs="+", required=True,
           help="traces that the WANT file is for")  # fmt: skip
    option("--quiet", metavar="TRACE", nargs="+", default=[],
           help="traces in which nobody is to be killed")  # fmt: skip
    option("--want", metavar="WANT", required=True,
           help="the file with what is wanted of each incident")  # fmt: skip
    option("-o", dest="output", metavar="FILE",
           help="write the rules with the widest margins into FILE")  # fmt: skip
    by = "who evaluates: psi_oomd if left out, or oomd 0.5.0 or systemd-oomd"
    command.add_argument("--by", choices=explain.KILLERS, default=explain.PSI_OOMD, help=by)
    add_version(command, "with --by systemd-oomd: ")
    add_pace(command)
    add_times(command)
    add_names(command)
    add_jobs(command)
    add_form(command, False)
    command.set_defaults(run=suggest.run)


def add_conversions(add: Callable[[str, str, str, str], Parser]) -> None:
    """Adds the commands that convert rules."""
    brief = "print the rules that are nearest to systemd-oomd's settings"
    command = add("from-systemd", from_systemd.ABOUT, from_systemd.STATUS, brief)
    command.add_argument("folder", metavar="FOLDER", help="the settings, as of tools/systemd-oomd")
    add_version(command)
    command.set_defaults(run=from_systemd.run)
    brief = "print these rules as a configuration of oomd"
    command = add("to-oomd", to_oomd.ABOUT, to_oomd.STATUS, brief)
    command.add_argument("file", metavar="FILE", help="a rules file of psi_oomd")
    command.set_defaults(run=to_oomd.run)
    brief = "print the rules that are nearest to a configuration of oomd"
    command = add("from-oomd", from_oomd.ABOUT, from_oomd.STATUS, brief)
    command.add_argument("file", metavar="FILE", help="oomd's configuration")
    command.set_defaults(run=from_oomd.run)


def parser() -> Parser:
    """Returns the parser of the command line."""
    words = Parser(ABOUT, STATUS)
    commands = words.add_subparsers(dest="command", required=True, metavar="COMMAND")

    def add(name: str, about: str, status: str, brief: str) -> Parser:
        return commands.add_parser(name, description=about, epilog=status, help=brief)

    brief = "hold the kills of traces against what is wanted"
    add_expect(add("expect", expect.ABOUT, expect.STATUS, brief))
    brief = "tell what other rules change, trace by trace"
    add_compare(add("compare", compare.ABOUT, compare.STATUS, brief))
    command = add("sweep", sweep.ABOUT, sweep.STATUS, "try values of an argument on traces")
    command.add_argument("file", metavar="FILE", help="the rules file")
    command.add_argument("traces", metavar="TRACE", nargs="+", help="a trace")
    command.add_argument(
        "--vary",
        metavar="PLACE=VALUES",
        action="append",
        required=True,
        help="what goes through which values",
    )
    add_replay(command)
    command.set_defaults(run=sweep.run)
    brief = "print why rules fired on a trace, or didn't"
    add_explain(add("explain", explain.ABOUT, explain.STATUS, brief))
    brief = "find thresholds and durations that catch incidents and spare quiet days"
    add_suggest(add("suggest", suggest.ABOUT, suggest.STATUS, brief))
    brief = "tell what is wrong in a rules file, or correct it"
    command = add("lint", lint.ABOUT, lint.STATUS, brief)
    command.add_argument("file", metavar="FILE", help="the rules file, or - for the standard input")
    fix = "print a corrected file, and report each change on standard error"
    command.add_argument("--fix", action="store_true", help=fix)
    add_pace(command)
    add_form(command, False)
    command.set_defaults(run=lint.run)
    add_conversions(add)
    return words


def traces_in(values: dict[str, Any]) -> list[str]:
    """Returns the names of the traces that a command reads."""
    if "incidents" in values:
        return [*values["incidents"], *values["quiet"]]
    return values.get("traces") or [values["trace"]]


def rules() -> int:
    """Runs one of the commands, and returns the exit status."""
    options = parser().parse_args()
    if "tick_ms" in options:
        options.pace = Pace(options.tick_ms, options.interval_s)
    if "no_names" in options and options.form is not Form.JSON:
        values = vars(options)
        show_containers(traces_in(values), values)
    status: int = options.run(options)
    return status


def main() -> int:
    """Runs the command; returns the exit status."""
    return run(rules)
