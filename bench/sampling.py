"""Samples a trace as a monitor samples a machine: the pressure files that psi_oomd prints at ticks
of one second, and the memory of groups.
"""
from __future__ import annotations

import re
import subprocess
from collections.abc import Iterator
from typing import NamedTuple

SECOND = 10**9
REPORT = re.compile(
    r"report (\d+) (\S+) (io|memory|cpu)\n"
    r"some avg10=([\d.]+) avg60=([\d.]+) avg300=([\d.]+) total=(\d+)\n"
    r"full avg10=([\d.]+) avg60=([\d.]+) avg300=([\d.]+) total=(\d+)\n"
)


class Sample(NamedTuple):
    """A sample of a pressure file at a time (ns): the totals (us) and the averages of `some` and of
    `full`, as psi_oomd prints them.
    """

    time: int
    group: str
    resource: str
    some: str
    full: str
    averages: tuple[str, ...]

    def line(self, start: int, has_averages: bool) -> str:
        """Returns the sample as a line of CSV. `start` is the time of day at the trace's start (ns
        since 1970).
        """
        time = start + self.time
        more = "," + ",".join(self.averages) if has_averages else ""
        return (
            f"{time // SECOND}.{time % SECOND:09},{self.group},{self.resource},{self.some},"
            f"{self.full}{more}\n"
        )


def samples_of(program: str, trace: str, every: int) -> Iterator[Sample]:
    """Replays the trace with ticks of one second. Yields samples of all pressure files, taken every
    `every` seconds.
    """
    words = [program, "replay", "--tick-ms=1000", f"--report-s={every}", "--", trace]
    printed = subprocess.run(words, check=True, capture_output=True, text=True).stdout
    for it in REPORT.finditer(printed):
        if int(it[1]) % (every * SECOND) == 0:
            yield Sample(int(it[1]), it[2], it[3], it[7], it[11],
                         (it[4], it[5], it[6], it[8], it[9], it[10]))


def memory_of(trace: str, every: int, start: int) -> Iterator[str]:
    """Yields the memory samples in the trace whose time is a multiple of `every` seconds, as lines
    of CSV. `start` is the time of day at the trace's start (ns since 1970).
    """
    with open(trace, encoding="ascii") as file:
        for line in file:
            words = line.split()
            if words[1:2] in (["mem"], ["host"]) and int(words[0]) % (every * SECOND) == 0:
                time = start + int(words[0])
                group, values = (words[2], words[3:]) if words[1] == "mem" else ("/", words[2:])
                yield f"{time // SECOND}.{time % SECOND:09},{group},{words[1]},{','.join(values)}\n"


def csv_of(
    program: str, trace: str, every: int, start: int = 1_700_000_000 * SECOND,
    has_averages: bool = False,
) -> str:
    """Returns a CSV file with all samples of the trace in order of time. `start` is the time of day
    at the trace's start (ns since 1970). The first sample of each pressure file is at that time,
    and is zero.
    """
    samples = list(samples_of(program, trace, every))
    rows = [(it.time, it.line(start, has_averages)) for it in samples]
    first = sorted({(it.group, it.resource) for it in samples if it.time == every * SECOND})
    zeros = ("0.00",) * 6
    rows += [
        (0, Sample(0, group, resource, "0", "0", zeros).line(start, has_averages))
        for group, resource in first
    ]
    memory = [
        (round((float(line.split(",")[0]) * SECOND - start)), line)
        for line in memory_of(trace, every, start)
    ]
    rows += memory
    rows.sort(key=lambda it: it[0])
    return "time,group,what,values\n" + "".join(line for _, line in rows)
