"""Parses the report that tools/psitrace prints on standard error. It contains, for example, the
time of day at which the trace began.
"""
from __future__ import annotations

import re
from typing import NamedTuple, Optional

from psicli.fault import Fault, Malformed
from psicli.times import SECOND, WallTime, seconds, wall_time
from psinames.companion import digest_of, pieces_of
from psireplay.program import opened

from .replay import Replay


class Summary(NamedTuple):
    """The contents of a psitrace report: the time of day at which the trace began, the trace's time
    (ns) at which the recording begins, the trace's length (ns, rounded to ms), and its SHA-256. If
    the report doesn't contain a value, `begins` is 0, and any other field is None.
    """

    name: str
    wall: Optional[WallTime]
    begins: int
    length: Optional[int]
    digest: Optional[str]

    def must_be_of(self, replay: Replay, trace: Optional[str]) -> None:
        """Raises a Fault if the report is about another trace. Compares the lengths (to 1 ms) and,
        if the trace's file is known, the SHA-256.
        """
        if self.digest and trace is not None and digest_of(pieces_of(trace))[1] != self.digest:
            raise Fault(
                f"{self.name} is the summary of another trace than {trace}: give the summary of"
                " this trace"
            )
        if self.length is not None and abs(self.length - replay.end.time_ns) > SECOND // 1000:
            lengths = (
                f"a trace of {seconds(self.length)} s, and the replay's has"
                f" {seconds(replay.end.time_ns)} s"
            )
            raise Fault(f"{self.name} is the summary of {lengths}: give the summary of this trace")


def summary_of(name: str) -> Summary:
    """Parses the report in the file `name`."""
    with opened(name) as file:
        said = file.read().decode("utf-8", "replace")
    if not re.search("^psitrace: ", said, re.MULTILINE):
        raise Fault(
            f"{name} has no line of psitrace: give what it said of the recording, by `2> FILE`"
        )
    start = re.search(r"^psitrace: 0 is (\S+) (\S+) UTC$", said, re.MULTILINE)
    begins = re.search(r"^psitrace: the recording begins at (\d+)\.(\d{3}) s", said, re.MULTILINE)
    length = re.search(r"^psitrace: (\d+)\.(\d{3}) s, processors ", said, re.MULTILINE)
    lead_in, whole = (
        int(it[1]) * SECOND + int(it[2]) * SECOND // 1000 if it else None for it in (begins, length)
    )
    try:
        wall = wall_time(f"{start[1]}T{start[2]}Z") if start else None
    except Malformed as fault:
        raise Fault(f"{name}: {fault}") from None
    digest = re.search(r"^psitrace: trace: \d+ bytes, sha256 ([0-9a-f]{64})$", said, re.MULTILINE)
    return Summary(name, wall, lead_in or 0, whole, digest[1] if digest else None)
