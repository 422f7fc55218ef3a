"""The command line of tools/openmetrics."""
from __future__ import annotations

import re
from typing import Union

from psicli.fault import Fault, Malformed
from psicli.options import add_start
from psicli.parser import Parser
from psicli.running import run, write
from psicli.status import Status
from psinames.clock import in_zone
from psinames.groups import GroupNames
from psinames.known import add_containers, add_part, add_zone, containers_in, must_fit, span_in
from psireplay.rules import Rules

from .replay import metrics_of
from .selected import NAME, in_part, length_of, with_names
from .text import openmetrics, prometheus

ABOUT = (
    "Writes the output of `psi_oomd replay` as metrics with timestamps, under the names of"
    " node_exporter and cAdvisor."
)
AFTER = (
    "--rules runs the psi_oomd beside this tool, or the program in the variable PSI_OOMD, which"
    " checks the file."
)
TEXTS = {"openmetrics": openmetrics, "prometheus": prometheus}
TAKEN = {"id", "ruleset", "action", "ruleset_name", "plugin"}
TAKEN |= {"trigger", "resource", "level", "threshold_seconds", "window_seconds"}
Label = tuple[str, str]


def label(word: str) -> Label:
    """Parses an argument NAME=VALUE, which is a label for all metrics."""
    name, _, value = word.partition("=")
    if (
        not re.fullmatch("(?!__)[a-zA-Z_][a-zA-Z0-9_]*", name)
        or not value
        or not value.isprintable()
    ):
        raise Malformed(f"{word!r} isn't a label such as instance=web-7:9100")
    if name in TAKEN:
        raise Malformed(f"{name} is a label that metrics have of their own: take another name")
    return name, value


def parser() -> Parser:
    """Returns the parser of the command line."""
    words = Parser(ABOUT, AFTER, reads_input=True)
    option = words.add_argument
    add_part(words)
    add_start(words, "", is_required=True)
    add_zone(words)
    add_containers(words)
    option("--label", type=label, action="append", default=[], metavar="NAME=VALUE",
           help="a label for each metric, or several")  # fmt: skip
    option("--rules", metavar="FILE",
           help="the rules of the replay: kills get the names of their ruleset and plugin "
                "as labels")  # fmt: skip
    option("--format", choices=list(TEXTS), default="openmetrics",
           help="prometheus for its older text, with timestamps in ms")  # fmt: skip
    return words


def work() -> int:
    """Prints the metrics, and returns the exit status."""
    options = parser().parse_args()
    names: list[Union[Label, str]] = [name for name, _ in options.label]
    if len(set(names)) < len(names):
        raise Fault("--label has a name twice: give each name once")
    if NAME in names and options.containers is not None:
        raise Fault(f"--label has {NAME}, which is the label for the names of --containers")
    rules = Rules(options.rules) if options.rules is not None else None
    containers = GroupNames(containers_in(options.containers) if options.containers else {})
    must_fit(vars(options))
    with open(0, "rb", closefd=False) as printed:
        families = with_names(metrics_of(printed, rules, tuple(options.label)), containers)
    wall = in_zone(options.wall, options.tz)
    families = in_part(families, span_in(vars(options), wall, length_of(families), "replay"))
    write("".join(f"{line}\n" for line in TEXTS[options.format](families, wall)).encode())
    return Status.DONE


def main() -> int:
    """Runs the command, and returns the exit status."""
    return run(work)
