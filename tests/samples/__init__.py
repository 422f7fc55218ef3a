"""Checks of tools/samples, and helpers for these checks: they make samples, run the tool, and parse
the totals that psi_oomd prints.
"""
from __future__ import annotations

import contextlib
import os
import re
import subprocess
import tempfile
from collections.abc import Callable, Iterable, Iterator
from typing import NamedTuple

from harness import must, must_be

TOP = os.path.dirname(os.path.dirname(os.path.dirname(os.path.abspath(__file__))))
START = 1_700_000_000
SECOND = 10**9
REPORT = re.compile(
    r"report (\d+) (\S+) (io|memory|cpu)\nsome [^\n]*total=(\d+)\nfull [^\n]*total=(\d+)\n"
)
# Pairs of totals (us) of `some` and `full`, keyed by time (s), group and resource.
Totals = dict[tuple[int, str, str], tuple[int, int]]


class Done(NamedTuple):
    """The results of a run: its exit status, standard output and standard error."""

    status: int
    output: str
    said: str


class Room:
    """A folder in which a check writes its files and runs tools."""

    def __init__(self, program: str, path: str) -> None:
        self.program, self.path = program, path

    def file(self, name: str, text: str | bytes, mode: int = 0o644) -> str:
        path = os.path.join(self.path, name)
        os.makedirs(os.path.dirname(path), exist_ok=True)
        with open(path, "wb") as file:
            file.write(text.encode() if isinstance(text, str) else text)
        os.chmod(path, mode)
        return name

    def text(self, name: str) -> str:
        with open(os.path.join(self.path, name), encoding="utf-8") as file:
            return file.read()

    def has(self, name: str) -> bool:
        return os.path.exists(os.path.join(self.path, name))

    def run(
        self, *words: str, program: str = "", status: int | None = None, text: str = ""
    ) -> Done:
        """Runs a tool, or psi_oomd if that is the first word, with `text` as standard input.
        `program` is the psi_oomd that the tool runs. Raises unless the exit status is `status`, but
        None accepts every status.
        """
        first = self.program if words[0] == "psi_oomd" else os.path.join(TOP, "tools", words[0])
        environment = {
            **os.environ, "PSI_OOMD": program or self.program, "PYTHONDONTWRITEBYTECODE": "1"
        }
        done = subprocess.run([first, *words[1:]], cwd=self.path, input=text.encode(),
                              capture_output=True, env=environment)
        found = Done(done.returncode, done.stdout.decode(), done.stderr.decode())
        if status is not None:
            must_be(f"the status of {' '.join(words)}, which said {found.said}", found.status,
                    status)
        return found

    def make(self, *words: str, status: int = 0) -> Done:
        """Runs tools/samples, which converts samples to the trace it.trace."""
        return self.run("samples", *words, "-o", "it.trace", status=status)

    def totals(self, trace: str = "it.trace") -> Totals:
        """Returns the totals that a replay of a trace prints, with ticks of 2 s."""
        printed = self.run("psi_oomd", "replay", trace, "--report-s=2", status=0).output
        return {
            (int(it[1]) // SECOND, it[2], it[3]): (int(it[4]), int(it[5]))
            for it in REPORT.finditer(printed)
        }


@contextlib.contextmanager
def room_of(program: str) -> Iterator[Room]:
    with tempfile.TemporaryDirectory() as path:
        yield Room(program, path)


class Row(NamedTuple):
    """A sample of a group and a resource: the totals (us) of `some` and `full`, and the time `at`
    (s after START).
    """

    at: float
    group: str
    resource: str
    some: int
    full: int


def csv(rows: Iterable[Row], more: Iterable[str] = ()) -> str:
    """Returns the rows as CSV in order of time, followed by the lines in `more`."""
    lines = [
        f"{START + it.at:.3f},{it.group},{it.resource},{it.some},{it.full}\n"
        for it in sorted(rows, key=lambda it: it.at)
    ]
    return "time,group,what,values\n" + "".join(lines) + "".join(f"{it}\n" for it in more)


def steady(
    group: str, resource: str, times: Iterable[float], some: float, full: float, start: float = 0.0,
    base: int = 0,
) -> list[Row]:
    """Returns samples of totals that grow by constant shares (0 to 1) of the time. At `start` (s)
    the totals are `base` us.
    """
    return [
        Row(
            at, group, resource, base + round(some * (at - start) * 1e6),
            base + round(full * (at - start) * 1e6),
        ) for at in times
    ]


def exact(_path: str, _resource: str) -> int:
    """Returns the largest error (us) of a total that rounding may cause."""
    return 2


def must_match(
    found: Totals, rows: Iterable[Row], near: Callable[[str, str], int] = exact,
    creations: dict[str, float] | None = None
) -> int:
    """Compares each sample at an even second with `found`, the totals that a replay printed. Raises
    if a total differs by more than `near` allows. Totals are counted from the group's first sample,
    or from 0 for groups in `creations`, which were created later. Returns the number of compared
    samples.
    """
    first: dict[tuple[str, str], Row] = {}
    count = 0
    for row in sorted(rows, key=lambda it: it.at):
        base = first.setdefault((row.group, row.resource), row)
        start = (0, 0) if creations and row.group in creations else (base.some, base.full)
        if row.at % 2 or not row.at:
            continue
        printed = found.get((int(row.at), row.group, row.resource))
        must(printed is not None, f"{row.group} {row.resource} is there at {row.at} s")
        assert printed
        wanted = row.some - start[0], row.full - start[1]
        if (row.group, row.resource) == ("/", "cpu"):
            printed, wanted = (printed[0], 0), (wanted[0], 0)
        is_near = all(
            abs(one - other) <= near(row.group, row.resource) for one, other in zip(printed, wanted)
        )
        must(is_near, f"{row.group} {row.resource} at {row.at} s: {printed} us, not {wanted} us")
        count += 1
    return count
