"""Provides the output of a replay to tools that accept either a trace or the output of `psi_oomd
replay`.
"""
from __future__ import annotations

import contextlib
import os
import subprocess
import tempfile
from collections.abc import Iterator, Mapping
from typing import IO, Any, Optional

from psicli.fault import Fault
from psicli.parser import Parser, tool_name
from psicli.status import ProgramStatus
from psicli.values import whole_number

from .kinds import REPLAY, file_kind, folder_message, why_refused
from .program import ADVICE, LAUNCHER, built_program, program_path

TRACE_HELP = (
    "a trace, which is replayed; without it the output of psi_oomd replay or whatif is read from"
    " standard input"
)
# The options of `psi_oomd replay` that tools also have, keyed by the options' names in `values`, a
# tool's parsed arguments.
OPTIONS = {"tick_ms": "--tick-ms", "report_s": "--report-s", "interval_s": "--interval-s"}
REFUSED = (ProgramStatus.TRACE_REFUSED, ProgramStatus.RULES_REFUSED)
# The exit statuses of a replay that succeeded, or that a tool stopped by closing its output pipe.
UNREAD = (0, ProgramStatus.WRITE_FAULT)


def add_report(parser: Parser) -> None:
    """Adds the option --report-s of `psi_oomd replay`."""
    parser.add_argument("--report-s", metavar="N", type=whole_number(1, 3600),
                        help="the interval of reports, as in `psi_oomd replay` (1)")  # fmt: skip


def words_of(trace: str, values: Mapping[str, Any], report_s: int) -> list[str]:
    """Returns the arguments of `psi_oomd` for a replay, according to a tool's options."""
    chosen = {name: values[name] for name in OPTIONS if values.get(name) is not None}
    options = {"report_s": report_s, **chosen}
    words = [f"{OPTIONS[name]}={value}" for name, value in options.items()]
    rules = [f"--rules={values['rules']}"] if values.get("rules") is not None else []
    return ["replay", *words, *rules, "--", trace]


def must_have_trace(trace: Optional[str], values: Mapping[str, Any]) -> None:
    """Raises a Fault if there are options of a replay, but no trace to replay."""
    for name, option in OPTIONS.items():
        if trace is None and values.get(name) is not None:
            raise Fault(f"{option} is for the replay of a TRACE: give one")


@contextlib.contextmanager
def replayed(trace: Optional[str], values: Mapping[str, Any], report_s: int) -> Iterator[IO[bytes]]:
    """Yields the output of a replay: of `trace`, with reports every `report_s` seconds, or of the
    replay on standard input if `trace` is None. At the end, raises a Fault if the program rejected
    the trace or the rules.
    """
    must_have_trace(trace, values)
    if trace is None:
        with open(0, "rb", closefd=False) as printed:
            yield printed
        return
    path = program_path()
    with tempfile.TemporaryFile() as notes:
        try:
            path = built_program() if path == LAUNCHER else path
            words = [path, *words_of(trace, values, report_s)]
            run = subprocess.Popen(words, stdout=subprocess.PIPE, stderr=notes)
        except OSError as fault:
            why = f"{path} can't be run ({fault.strerror}): {ADVICE}"
            raise Fault(why, ProgramStatus.NOT_BUILT) from None
        assert run.stdout
        with run.stdout as printed:
            try:
                yield printed
            except Fault:
                printed.close()
                if run.wait() in UNREAD:
                    raise
        must_have_ended(run, notes, trace, values.get("rules"))


def must_have_ended(
    run: subprocess.Popen[bytes], notes: IO[bytes], trace: str, rules: Optional[str]
) -> None:
    """Waits for the program. Raises a Fault if it rejected the trace or the rules."""
    status = run.wait()
    if status in UNREAD:
        return
    notes.seek(0)
    said = notes.read().decode("utf-8", "replace").strip() or f"its status is {status}"
    if os.path.isdir(trace):
        raise Fault(folder_message(trace))
    if status == ProgramStatus.NO_FILE:
        raise Fault(said)
    name = rules if rules is not None and status == ProgramStatus.RULES_REFUSED else trace
    what = "refuses" if status in REFUSED else "failed on"
    kind = file_kind(trace) if name == trace else None
    other = f", or use `{tool_name()} < {trace}`" if kind and kind.what == REPLAY else ""
    raise Fault(f"psi_oomd {what} {name}: {why_refused(said, name)}{other}")
