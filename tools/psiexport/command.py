"""Prints a replay's reports, signals and kills as JSON lines or CSV.

Times are in s since the start of the trace, and as times of day if it has a companion file.
Averages are percentages.
"""
from __future__ import annotations

import csv
import io
import json
import sys
from collections.abc import Iterable, Iterator
from typing import Any, Optional

from psicli.fault import Malformed
from psicli.options import add_interval, add_tick
from psicli.parser import Parser
from psicli.running import run
from psicli.status import Status
from psinames.known import Known, add_names, add_times, known_of, span_in
from psireplay.lines import End, Line, read
from psireplay.replaying import TRACE_HELP, add_report, replayed
from psireplay.rules import Rules
from psireplay.trace import end_of

from .rows import COLUMNS, KINDS, Exporter, Row, selected

REPORT_S = 1
STANDARD_INPUT = "-"
# A spreadsheet reads a text as a formula if it begins with one of these characters.
FORMULAS = ("=", "+", "-", "@", "\t", "\r")
HELP = {
    "csv": "a table with a header in place of JSON lines",
    "only": "these kinds of rows, separated by commas: report, signal, kill",
    "group": "rows of this group, by its path or its last component; may be repeated",
    "rules": "rules for the replay; their names are in the rows of kills",
}


def kinds(word: str) -> tuple[str, ...]:
    """Parses a comma-separated list of kinds of rows."""
    found = tuple(word.split(","))
    if not set(found) <= set(KINDS):
        raise Malformed(f"{word} isn't a list of {', '.join(KINDS)}")
    return found


def parser() -> Parser:
    """Returns the parser of the command line."""
    words = Parser(__doc__)
    option = words.add_argument
    option("trace", nargs="?", metavar="TRACE", help=TRACE_HELP)
    option("--csv", dest="is_table", action="store_true", help=HELP["csv"])
    option("--only", type=kinds, default=KINDS, metavar="KINDS", help=HELP["only"])
    option("--group", dest="groups", action="append", default=[], metavar="GROUP",
           help=HELP["group"])  # fmt: skip
    option("--rules", metavar="FILE", help=HELP["rules"])
    add_tick(words)
    add_report(words)
    add_interval(words)
    add_times(words)
    add_names(words)
    return words


def in_groups(lines: Iterable[Line], words: list[str], known: Known) -> Iterator[Line]:
    """Yields the lines of the groups named by `words`. At the end, raises a Fault if a word names
    no group or more than one.
    """
    paths: dict[str, bool] = {}
    for line in lines:
        if isinstance(line, End):
            yield line
            continue
        if line.path not in paths:
            paths[line.path] = any(known.groups.matches(word, line.path) for word in words)
        if paths[line.path]:
            yield line
    for word in words:
        known.groups.find(word, paths, "in the replay")


def as_json(rows: Iterable[Row]) -> Iterator[str]:
    """Yields each row as a line of JSON."""
    for row in rows:
        yield json.dumps(row, ensure_ascii=False, separators=(",", ":")) + "\n"


def as_table(rows: Iterable[Row]) -> Iterator[str]:
    """Yields the lines of a CSV table with a header, as in RFC 4180 except that lines end in LF."""
    text = io.StringIO()
    writer = csv.writer(text, lineterminator="\n")
    writer.writerow(COLUMNS)
    for row in rows:
        writer.writerow([cell(row.get(column)) for column in COLUMNS])
        yield text.getvalue()
        text.seek(0)
        text.truncate()
    yield text.getvalue()


def cell(value: Any) -> Any:
    """Returns the value for a cell. A text that a spreadsheet would read as a formula gets an
    apostrophe in front.
    """
    return f"'{value}" if isinstance(value, str) and value.startswith(FORMULAS) else value


def export() -> int:
    """Prints the selected rows."""
    values = parser().values()
    trace: Optional[str] = values["trace"]
    known = known_of(trace or STANDARD_INPUT, values)
    rules = Rules(values["rules"]) if values["rules"] is not None else None
    span = span_in(values, known.wall, end_of(trace or STANDARD_INPUT))
    exporter = Exporter(known.wall, known.groups, rules)
    with replayed(trace, values, REPORT_S) as printed:
        lines = read(printed)
        lines = in_groups(lines, values["groups"], known) if values["groups"] else lines
        rows = map(exporter.row, selected(lines, values["only"], span))
        sys.stdout.writelines((as_table if values["is_table"] else as_json)(rows))
    return Status.DONE


def main() -> int:
    """Runs the command, and returns the exit status."""
    return run(export)
