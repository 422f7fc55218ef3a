"""Finds defects in a text of ftrace that make its trace wrong without an error, and prints them on
standard error.

  tools/ftrace-check TEXT

TEXT is the output of trace, trace_pipe or trace-cmd report -N: a file, possibly gzipped, or - for
the standard input. It also reports what an importer rejects by itself. tools/psitrace repairs some
of it: lines out of order, names with newlines, forms of trace-cmd and perf, numbers that change by
exec, and sleeps in state D, if sched_stat_iowait shows which of them are waits for IO.

The last line has the value for --cpus, and the number of lines of each event; nothing in it is a
defect by itself.

The status is 0 if nothing was found, 1 if something was, and 2 for a usage error and if TEXT can't
be read.
"""
from __future__ import annotations

from psicli.parser import Parser
from psicli.running import complain, run
from psicli.status import Status
from psiread.kinds import HEAD, TRACE_HEADER, kind_of
from psiread.source import Unreadable

from .checks import Check
from .text import bytes_of


def check_text() -> int:
    """Checks a text, prints the findings, and returns the exit status."""
    words = Parser(__doc__)
    words.add_argument("text", metavar="TEXT", help="the file, or - for the standard input")
    name = words.values()["text"]
    data = bytes_of(name)
    kind = (
        "it is a trace: psi_oomd check takes it"
        if TRACE_HEADER.match(data)
        else kind_of(data[:HEAD])
    )
    if kind and data and not data.startswith(b"#"):
        raise Unreadable(f"{name}: {kind}")
    check = Check()
    lines = data.split(b"\n")
    rest = lines.pop()
    for number, line in enumerate(lines, 1):
        check.take(number, line)
    findings = check.findings()
    if rest:
        findings.append(f"line {len(lines) + 1}: it was cut, since no newline ends it")
    for finding in findings:
        complain(finding)
    complain("; ".join(check.remarks()) or "there is no event")
    return Status.FOUND if findings else Status.DONE


def main() -> int:
    """Runs the command, and returns the exit status."""
    return run(check_text)
