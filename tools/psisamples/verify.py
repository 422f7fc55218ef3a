"""Replays a trace with psi_oomd, and compares the printed totals with the samples."""
from __future__ import annotations

import re
import tempfile
from collections.abc import Iterator
from typing import IO, NamedTuple

from psicli.fault import Fault
from psireplay.program import start

from .block import RESOURCES
from .convert import NEAR, Off

PIECE = 1 << 20
REPORT = re.compile(
    rb"report (\d+) (\S+) (io|memory|cpu)\nsome [^\n]*?total=(\d+)\nfull [^\n]*?total=(\d+)\n"
)
BASES = {resource.encode(): 2 * number for number, resource in enumerate(RESOURCES)}

Totals = dict[tuple[bytes, int], int]
NEVER = 2**63
NO_TOTALS: Totals = {}


class Checked(NamedTuple):
    """The number of compared totals, and the wrong ones, which differ by more than the conversion
    reported: the time (ns), the group, the level, the total in the samples (us), and the printed
    total (us) or None.
    """

    compared: int
    wrong: list[tuple[int, str, int, int, int | None]]


def reports(output: IO[bytes]) -> Iterator[tuple[int, Totals]]:
    """Yields the time (ns) and the totals (us) of each tick in the output of a replay."""
    time, rest = -1, b""
    totals: Totals = {}
    while piece := output.read(PIECE):
        data = rest + piece
        end = max(0, data.rfind(b"\nreport "))
        for found in REPORT.finditer(data, 0, end + 1):
            at = int(found[1])
            if at != time:
                if time >= 0:
                    yield time, totals
                time, totals = at, {}
            base = BASES[found[3]]
            totals[found[2], base], totals[found[2], base + 1] = int(found[4]), int(found[5])
        rest = data[end + 1 :] if end else data
    for found in REPORT.finditer(rest):
        if int(found[1]) != time:
            if time >= 0:
                yield time, totals
            time, totals = int(found[1]), {}
        base = BASES[found[3]]
        totals[found[2], base], totals[found[2], base + 1] = int(found[4]), int(found[5])
    if time >= 0:
        yield time, totals


def wanted(checks: IO[bytes]) -> Iterator[tuple[int, Totals]]:
    """Yields the time (ns) and the totals (us) that a replay must print at each tick. Parses the
    lines of `checks`.
    """
    time = -1
    totals: Totals = {}
    checks.seek(0)
    for line in checks:
        at, path, level, total = line.split()
        if int(at) != time:
            if time >= 0:
                yield time, totals
            time, totals = int(at), {}
        totals[path, int(level)] = int(total)
    if time >= 0:
        yield time, totals


def check(trace: str, checks: IO[bytes], off: dict[tuple[str, int], Off]) -> Checked:
    """Replays a trace, and compares all totals at ticks with samples. A total may differ by NEAR
    us, or by the difference that `off` already reports.
    """
    count, wrong = 0, []
    with tempfile.TemporaryFile() as notes:
        run = start(["replay", "--report-s=2", "--", trace], notes)
        assert run.stdin and run.stdout
        run.stdin.close()
        with run.stdout as output:
            ticks = reports(output)
            time = -1
            printed: Totals = {}
            for at, totals in wanted(checks):
                while time < at:
                    time, printed = next(ticks, (NEVER, NO_TOTALS))
                for (path, level), total in totals.items():
                    count += 1
                    found = printed.get((path, level)) if time == at else None
                    name = path.decode()
                    known = off.get((name, level))
                    if found is None or abs(found - total) > max(NEAR, known.most if known else 0):
                        wrong.append((at, name, level, total, found))
            for _ in ticks:
                pass
        if run.wait():
            notes.seek(0)
            raise Fault(
                "psi_oomd refuses the trace, which is a fault of this tool:"
                f" {notes.read().decode('utf-8', 'replace').strip()}"
            )
    return Checked(count, wrong)
