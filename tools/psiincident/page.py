"""Converts a recording to a trace, and writes the page about it."""
from __future__ import annotations

import os
import re
import shlex
from dataclasses import dataclass

from psicli.fault import Fault
from psicli.running import complain
from psicli.status import Status

from .steps import Steps, tools_path

# The line that psitrace prints if the trace contains only a part of the recording.
PART = re.compile(r"^psitrace: of \S+ s: --from (\S+) --to \S+$", re.MULTILINE)
LIMIT = re.compile(r"^psitrace: limit: more than .*$", re.MULTILINE)
FOLD_S = 2


@dataclass(frozen=True)
class Output:
    """The names of the output files: the page, and other files with the same name and other
    suffixes.
    """

    page: str

    @property
    def base(self) -> str:
        return self.page.removesuffix(".html")

    @property
    def trace(self) -> str:
        return f"{self.base}.trace"

    @property
    def summary(self) -> str:
        return f"{self.base}.summary"

    def must_be_new(self, recording: str | None) -> None:
        """Raises a Fault if one of the other output files already exists. An existing page is
        overwritten.
        """
        names = f"{self.trace}.names"  # psitrace writes this file next to a trace
        for path in filter(None, (self.trace, names, self.summary, recording)):
            if os.path.lexists(path):
                raise Fault(f"{path} exists: name another page by -o, or move it away")


def text_of(path: str) -> str:
    try:
        with open(path, encoding="utf-8", errors="replace") as file:
            return file.read()
    except OSError:
        return ""


def convert(steps: Steps, recording: str, output: Output, fold: str | None) -> str:
    """Converts a recording to a trace, and returns psitrace's summary. Omits parts with lost
    events. Folds the trace if it would exceed a limit.
    """

    def psitrace(*options: str) -> int:
        words = " ".join([*options, shlex.quote(recording), "-o", shlex.quote(output.trace)])
        line = f"{tools_path('psitrace')} {words} 2> {shlex.quote(output.summary)}"
        return steps.run(line, (Status.DONE, Status.FAILED, Status.INCOMPLETE))

    folding = [f"--fold {fold}"] if fold else []
    status = psitrace(*folding)
    if status == Status.INCOMPLETE and LIMIT.search(text_of(output.summary)) and not fold:
        folding = [f"--fold {FOLD_S}"]
        status = psitrace(*folding)
    if status == Status.INCOMPLETE:
        status = psitrace("--force", *folding)
    summary = text_of(output.summary)
    if status == Status.FAILED or not os.path.exists(output.trace):
        raise Fault(f"no trace could be made of {recording}: {summary.strip()}")
    return summary


def write_page(
    steps: Steps, recording: str, output: Output, fold: str | None, words: list[str]
) -> None:
    """Converts a recording to a trace, and writes the page."""
    summary = convert(steps, recording, output, fold)
    part = PART.search(summary)
    if part:
        complain(
            f"the trace has only a part of the recording, from {part[1]} s:"
            f" {output.summary} says why"
        )
    begin = [f"--from {part[1]}"] if part and float(part[1]) else []
    report = f"{tools_path('report')} {shlex.quote(output.trace)}"
    ending = " ".join([*map(shlex.quote, words), f"-o {shlex.quote(output.page)}"])
    compared = " ".join([report, f"--recording {shlex.quote(recording)}", *begin, ending])
    # A part may be too short to be compared with the machine's own files.
    if steps.run(
        compared, (Status.DONE, Status.FAILED) if part else (Status.DONE,), "writing the page"
    ):
        complain("the page has no comparison with the recording")
        steps.run(f"{report} {ending}", what="writing the page")
