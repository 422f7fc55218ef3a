"""Formats the table of tools/compare: the totals of each file on the machine and in the trace.
Totals that exceed their limits are marked.
"""
from __future__ import annotations

from collections.abc import Sequence
from typing import NamedTuple

from psiread.pressure import File

LEVELS = ("some", "full")
MICROSECONDS = 10**6


class Limits(NamedTuple):
    """The allowed errors (percent) of totals at the root and in other groups. They apply to totals
    that grew by at least `least` us.
    """

    root: float
    groups: float
    least: int

    def most(self, file: File) -> float:
        """Returns the allowed error (percent) of this file's totals."""
        return self.root if file.path == "/" else self.groups


class Span(NamedTuple):
    """The range (us) of a total's growth, for a recording that doesn't determine the growth
    exactly.
    """

    low: int
    high: int


class Row(NamedTuple):
    """A file's row: the growth (us) of its totals some and full. `bars` contains the ranges of the
    trace's growth, or is None if the growth is exact. `right` is the correct growth if the kernel's
    32-bit sums overflowed, and None if not. `note` is shown in the last column.
    """

    file: File
    machine: tuple[int, int]
    trace: tuple[int, int]
    bars: tuple[Span, Span] | None = None
    right: tuple[int, int] | None = None
    note: str = ""


class Cell(NamedTuple):
    """The error of one total. `off` contains the smallest and the largest error of the trace
    (percent), or is None if the machine's total didn't grow. `is_asked` says whether the total grew
    enough for the limit to apply, and `is_beyond` whether the error exceeds the limit.
    """

    off: tuple[float, float] | None
    is_asked: bool
    is_beyond: bool


def bar_of(row: Row, level: int) -> Span:
    """Returns the range of the growth in the trace, of some (`level` is 0) or full (1)."""
    return row.bars[level] if row.bars else Span(row.trace[level], row.trace[level])


def cell_of(row: Row, level: int, limits: Limits) -> Cell:
    """Returns the error of some (`level` is 0) or full (1) in a row, and whether it exceeds the
    limit.
    """
    machine, bar, most = row.machine[level], bar_of(row, level), limits.most(row.file)
    is_asked = max(machine, bar.high) >= limits.least
    if not machine:
        return Cell(None, is_asked, is_asked)
    low, high = (100 * (it - machine) / machine for it in bar)
    return Cell((low, high), is_asked, is_asked and (low > most or high < -most))


def words_of(row: Row, level: int, cell: Cell) -> list[str]:
    """Returns the three cells for one level of a row: the machine's growth, the trace's growth, and
    the error.
    """
    words = "-"
    if cell.off:
        low, high = (f"{it:+.1f}" for it in cell.off)
        words = f"{low} % " if low == high else f"{low} .. {high} % "
    is_wrong = row.right is not None and row.right[level] != row.trace[level]
    return [
        str(row.machine[level]),
        str(row.trace[level]),
        f"{words}{'w ' * is_wrong}{'! ' * cell.is_beyond}".rstrip(),
    ]


def table_of(rows: Sequence[Sequence[str]]) -> str:
    """Returns a table in Markdown with aligned columns. The first two columns are aligned to the
    left.
    """
    widths = [max(len(row[place]) for row in rows) for place in range(len(rows[0]))]
    columns = list(enumerate(widths))
    lines = [
        "| "
        + " | ".join(
            row[place].ljust(width) if place < 2 else row[place].rjust(width)
            for place, width in columns
        )
        + " |"
        for row in rows
    ]
    rule = (
        "|"
        + "|".join("-" * (width + 1) + ("-" if place < 2 else ":") for place, width in columns)
        + "|"
    )
    return "\n".join([lines[0], rule, *lines[1:]])


def wrap_lines(rows: Sequence[Row]) -> list[str]:
    """Returns lines with the correct values of the machine's totals whose 32-bit sums overflowed.
    """
    lines = [
        f"  {row.file.path} {row.file.resource}: some {row.right[0]}, full {row.right[1]}"
        for row in rows
        if row.right is not None
    ]
    head = (
        "the machine is wrong there (w): a state held for more than 4.294 s between two of its"
        " samplings, and its sums have 32 bits"
    )
    return [f"{head}. By the trace it is, in us:", *lines, ""] if lines else []


def verdict_of(cells: Sequence[Cell], limits: Limits, has_bars: bool) -> str:
    """Returns the line that says how many totals exceed their limits, or that all totals are within
    them.
    """
    asked, beyond = sum(it.is_asked for it in cells), sum(it.is_beyond for it in cells)
    least, said = (
        f"{limits.least / MICROSECONDS:g} s",
        f"{limits.root:g} % at the root, {limits.groups:g} % in groups",
    )
    said += " of what the trace may be" * has_bars
    if beyond:
        return f"{beyond} of {asked} totals from {least} on are beyond (!) their limits: {said}"
    return (
        f"all {asked} totals from {least} on are within {said}"
        if asked
        else f"no total is from {least} on"
    )


class Shown(NamedTuple):
    """The parameters of a table. `head` are the lines above the table, `second` is the header of
    the trace's columns, and `notes` the header of the last column, or empty if there is no such
    column. `least` is the smallest growth (us) of a file that is shown.
    """

    head: list[str]
    second: str
    notes: str
    least: int


def report(rows: Sequence[Row], limits: Limits, shown: Shown) -> tuple[str, int]:
    """Returns the table with its remarks, and the number of totals that exceed their limits."""
    notes = [shown.notes] if shown.notes else []
    table = [
        [
            "group",
            "resource",
            "some: machine",
            shown.second,
            "",
            "full: machine",
            shown.second,
            "",
            *notes,
        ]
    ]
    cells = []
    chosen = [row for row in rows if max(*row.machine, *row.trace) >= shown.least]
    for row in rows:
        pair = [cell_of(row, level, limits) for level in range(len(LEVELS))]
        cells += pair
        if row in chosen:
            words = [word for level, cell in enumerate(pair) for word in words_of(row, level, cell)]
            table.append([row.file.path, row.file.resource, *words, *([row.note] if notes else [])])
    lines = [
        *shown.head,
        "",
        table_of(table),
        "",
        *wrap_lines(chosen),
        verdict_of(cells, limits, any(it.bars for it in rows)),
    ]
    return "\n".join(lines), sum(it.is_beyond for it in cells)
