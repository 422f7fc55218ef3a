"""Formats the output as text: a few lines about each requested group, or a table and a matrix of
all groups.
"""
from __future__ import annotations

from collections.abc import Callable, Sequence
from typing import Optional, TypeVar

from psicli.times import seconds
from psinames.known import Known
from psinames.tasks import Share, shares_text
from psireplay.groups import Group, Groups

from .figures import Figures, Part
from .json_output import Asked

MS = 10**6
# The default number of rows in each table, and the largest number of characters of a group's name
# in a column heading.
TOP = 10
HEAD = 22
NONE = "no task"
Row = TypeVar("Row", Figures, Part)


def three(ns: int) -> str:
    """Formats a time (ns) in seconds with three decimals."""
    ms = (ns + MS // 2) // MS
    return f"{ms // 1000}.{ms % 1000:03}"


def percent(part: int, whole: int) -> str:
    """Formats the share of `part` in `whole` in percent, with one decimal."""
    return f"{100 * part / whole:.1f}" if whole else "0.0"


def size(number: int) -> str:
    """Formats a memory growth (bytes) in the largest unit in which it is at least 1."""
    value, units = float(number), ["bytes", "KiB", "MiB", "GiB", "TiB"]
    while value >= 1024 and len(units) > 1:
        value, units = value / 1024, units[1:]
    text = f"{value:.0f}" if units[0] == "bytes" else f"{value:.1f}"
    return f"{'+' if number else ''}{text} {units[0]}"


def shortened(name: str) -> str:
    """Shortens a long name by omitting its start, since its end is the most specific part."""
    return name if len(name) <= HEAD else f"..{name[2 - HEAD :]}"


def columns(rows: list[list[str]], indent: str = "") -> list[str]:
    """Formats rows as a table whose first column is left-aligned and whose other columns are
    right-aligned.
    """
    widths = [max(len(row[place]) for row in rows) for place in range(len(rows[0]))]
    cells = (
        [row[0].ljust(widths[0]), *(cell.rjust(width) for cell, width in zip(row[1:], widths[1:]))]
        for row in rows
    )
    return [indent + "  ".join(row).rstrip() for row in cells]


def without_same(found: Sequence[Row], shown: Callable[[Row], object]) -> list[Row]:
    """Removes the row of a group if one of its children has equal values. `shown` returns a row's
    values.
    """
    by_group = {it.group: it for it in found}
    hidden = {
        above
        for it in found
        if it.group and (above := it.group.parent) and above in by_group
        and shown(it) == shown(by_group[above])
    }  # fmt: skip
    return [it for it in found if it.group not in hidden]


def with_names(lines: list[str], shares: Sequence[Sequence[Share]], head: str = "") -> list[str]:
    """Returns the lines of a table. If processes have names, each line ends with the processes of
    its row.
    """
    if not any(shares):
        return lines
    width = max(map(len, lines))
    texts = [head, *map(shares_text, shares)]
    return [f"{line.ljust(width)}  {text}".rstrip() for line, text in zip(lines, texts)]


class Formatter:
    """Formats the figures of groups of one trace."""

    def __init__(self, groups: Groups, asked: Asked, known: Known) -> None:
        self.groups, self.asked, self.known = groups, asked, known
        self.top = TOP if asked.top is None else asked.top
        self.when = f"between {seconds(asked.start)} s and {seconds(asked.to)} s"

    def shown(self, group: Group) -> str:
        """Returns the group's name, with container names instead of container ids."""
        return self.known.groups.shown(group.path) + self.groups.name(group).removeprefix(
            group.path
        )

    def name(self, of: Group, group: Optional[Group]) -> str:
        """Returns the name of `group` in a list of the parts of a wait or stall of the group `of`.
        `group` is None for the time in which no task ran.
        """
        if group is None:
            return NONE
        return self.shown(group) + (
            " itself" if group is of else " (in it)" if group.is_below(of) else ""
        )

    def parts(self, of: Group, parts: list[Part], whole: int, head: str) -> list[str]:
        """Returns a table of the longest parts, each with its share of `whole` (ns). The last line
        counts the omitted parts.
        """
        rows = [[head, "s", "of it"]]
        rows += [
            [self.name(of, it.group), three(it.time), f"{percent(it.time, whole)} %"]
            for it in parts[: self.top]
        ]
        left = len(parts) - self.top
        more = [f"  and {left} more: --top shows them"] if left > 0 else []
        return with_names(columns(rows, "  "), [it.shares for it in parts[: self.top]]) + more

    # ------------------------------------------------------------ lines about one group

    def group(self, it: Figures, growing: list[Figures]) -> list[str]:
        """Returns the lines about one group. The last lines are about the groups `growing`, whose
        memory grew in the requested time span.
        """
        lines = [self.waited(it)]
        lines += (
            self.parts(it.group, it.while_ran, it.waited, "while there ran") if it.waited else []
        )
        lines += (
            self.without(it)
            if it.while_victim is not None and self.asked.victim is not None
            else []
        )
        lines += self.beside(it, "for IO", "waited for IO", it.io, it.io_beside)
        lines += self.beside(it, "in a memory stall", "were in one", it.memory, it.memory_beside)
        return lines + (self.growth(it, growing) if it.memory else [])

    def waited(self, it: Figures) -> str:
        """Returns the line about the group's wait for processors."""
        name = self.shown(it.group)
        made, removed = it.group.made, it.group.removed
        if made > self.asked.to or (removed is not None and removed < self.asked.start):
            life = f"it was there from {seconds(made)} s" + (
                f" to {seconds(removed)} s" if removed is not None else ""
            )
            return f"{name} wasn't there {self.when}: {life}"
        if not it.waited:
            return f"{name} didn't wait for a processor {self.when}"
        many = sum(map(bool, it.waits))
        share = (
            f"{percent(it.waited, self.asked.length)} percent of the time on {many} of"
            f" {self.asked.cpus} processors"
        )
        return f"{name} waited {three(it.waited)} s for a processor {self.when} ({share})"

    def without(self, it: Figures) -> list[str]:
        """Returns the line about the victim's effect on the group's wait for processors."""
        ran, less = three(it.while_victim or 0), three(it.less or 0)
        return [
            f"  {self.asked.victim} ran there for {ran} s of it: without it at least {less} s less"
        ]

    def beside(self, it: Figures, where: str, did: str, whole: int, parts: list[Part]) -> list[str]:
        """Returns the lines about the groups that were in the same state at the same time. These
        groups need not be the cause, since a trace doesn't contain causes.
        """
        if not whole:
            return []
        if not parts:
            return [
                f"and {where} {three(whole)} s: no tasks of other groups {did} at the same time"
            ]
        first = (
            f"and {where} {three(whole)} s: of that, tasks of these groups {did} at the same time"
        )
        return [first, *self.parts(it.group, without_same(parts, lambda it: it.time), whole, "")]

    def growth(self, it: Figures, growing: list[Figures]) -> list[str]:
        """Returns the lines about memory. They list each group whose memory grew, or for which
        pages were scanned, in the requested time span.
        """
        if not growing:
            return []
        rows = [["", "grown", "pages scanned"]]
        for other in without_same(growing, lambda it: it.growth)[: self.top]:
            assert other.growth
            rows.append(
                [
                    self.name(it.group, other.group),
                    size(other.growth.grown),
                    str(other.growth.scanned),
                ]
            )
        return [
            f"and the memory of these groups grew or was scanned {self.when}",
            *columns(rows, "  "),
        ]

    # ------------------------------------------------------------ tables of all groups

    def table(self, found: list[Figures]) -> list[str]:
        """Returns the table of all groups that ran or waited. The group with the longest wait comes
        first.
        """
        some = without_same([it for it in found if it.has_some], lambda it: self.row(it)[1:])
        victim = self.asked.victim
        heads = [
            "group",
            "ran",
            "waited: processor",
            "IO",
            "memory stall",
            "memory grown",
            "scanned",
        ]
        heads += [f"while {shortened(victim)} ran", "at least less"] if victim is not None else []
        rows = [self.row(it) for it in some[: self.top]]
        shown = with_names(
            columns([heads, *rows]), [it.shares for it in some[: self.top]], "processes that ran"
        )
        lines = [
            f"times in s {self.when}, {self.asked.cpus} processors; the longest wait first",
            *shown,
        ]
        rest, idle = len(some) - len(rows), sum(not it.has_some for it in found)
        lines += [f"and {rest} more groups: --top shows them"] if rest > 0 else []
        lines += [f"and {idle} groups that neither ran nor waited"] if idle else []
        return lines

    def row(self, it: Figures) -> list[str]:
        """Returns the cells of a group's row in the table."""
        grown, scanned = (
            (size(it.growth.grown), str(it.growth.scanned)) if it.growth else ("-", "-")
        )
        cells = [
            self.shown(it.group),
            *map(three, (it.ran, it.waited, it.io, it.memory)),
            grown,
            scanned,
        ]
        without = ["-" if time is None else three(time) for time in (it.while_victim, it.less)]
        return cells + (without if self.asked.victim is not None else [])

    def matrix(self, found: list[Figures]) -> list[str]:
        """Returns the matrix of waits. It has a row for each group that waited, and a column for
        each group that ran during those waits.
        """
        waiting = without_same([it for it in found if it.waited], lambda it: it.while_ran)
        if not waiting:
            return ["no group waited for a processor"]
        totals: dict[Optional[Group], int] = {}
        for it in waiting:
            for part in it.while_ran:
                totals[part.group] = totals.get(part.group, 0) + part.time
        runners = sorted(totals, key=lambda group: -totals[group])
        shown, hidden = runners[: self.top], runners[self.top :]
        heads = [shortened(self.shown(it)) if it else NONE for it in shown] + (
            ["others"] if hidden else []
        )
        rows = [["waited \\ ran there", "s", *heads]]
        for it in sorted(waiting, key=lambda it: -it.waited)[: self.top]:
            times = {part.group: part.time for part in it.while_ran}
            cells = [times.get(group, 0) for group in shown] + (
                [sum(times.get(it, 0) for it in hidden)] if hidden else []
            )
            rows.append(
                [
                    self.shown(it.group),
                    three(it.waited),
                    *(three(cell) if cell else "." for cell in cells),
                ]
            )
        rest = len(waiting) - self.top
        return columns(rows) + (
            [f"and {rest} more groups waited: --top shows them"] if rest > 0 else []
        )


def as_text(
    groups: Groups, found: list[Figures], everyone: list[Figures], asked: Asked, known: Known
) -> str:
    """Returns the whole text: the lines about the requested groups `found`, or a table and a matrix
    of all groups if none was requested.
    """
    formatter = Formatter(groups, asked, known)
    if not found:
        return "\n".join([*formatter.table(everyone), "", *formatter.matrix(everyone), ""])
    growing = [it for it in everyone if it.growth and any(it.growth)]
    growing.sort(key=lambda it: tuple(it.growth or ()), reverse=True)
    return "\n\n".join("\n".join(formatter.group(it, growing)) for it in found) + "\n"
