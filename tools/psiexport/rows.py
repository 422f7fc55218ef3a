"""Converts the lines of a replay to rows of a table: one row for each report, signal and kill."""
from __future__ import annotations

from collections.abc import Iterable, Iterator
from typing import Optional, Union

from psicli.times import SECOND, WallTime
from psinames.clock import wall_text
from psinames.groups import GroupNames
from psinames.known import Span
from psireplay.lines import End, Event, Kill, Line, Pressure, Report
from psireplay.rules import Rules

Value = Union[str, int, float, None]
Row = dict[str, Value]
REPORT, SIGNAL, KILL = "report", "signal", "kill"
KINDS = (REPORT, SIGNAL, KILL)
AVERAGES = ("avg10", "avg60", "avg300")
PRESSURES = tuple(f"{level}_{it}" for level in ("some", "full") for it in (*AVERAGES, "total_us"))
# The columns of the CSV table, in order.
COLUMNS = (
    "kind", "time_s", "time", "group", "name", "resource", "level", *PRESSURES,
    "trigger", "threshold_us", "window_us", "ruleset", "action", "ruleset_name", "plugin",
)  # fmt: skip


def kind_of(line: Line) -> str:
    """Returns the kind of row for a line. Returns an empty string for the last line, which has no
    row.
    """
    if isinstance(line, Report):
        return REPORT
    return SIGNAL if isinstance(line, Event) else KILL if isinstance(line, Kill) else ""


def pressure_of(level: str, pressure: Optional[Pressure]) -> Row:
    """Returns the columns for one level of pressure: averages in percent, and the total in us."""
    if not pressure:
        return {}
    shares = {f"{level}_{name}": getattr(pressure, name) / 100 for name in AVERAGES}
    return {**shares, f"{level}_total_us": pressure.total}


class Exporter:
    """Converts lines to rows. `wall` is the time of day at the start of the trace, or None if it
    isn't known.
    """

    def __init__(
        self, wall: Optional[WallTime], groups: GroupNames, rules: Optional[Rules]
    ) -> None:
        self.wall, self.groups, self.rules = wall, groups, rules

    def row(self, line: Union[Report, Event, Kill]) -> Row:
        """Returns the row for a line."""
        row: Row = {"kind": kind_of(line), "time_s": line.time_ns / SECOND}
        if self.wall:
            row["time"] = wall_text(self.wall._replace(epoch=self.wall.epoch + line.time_ns))
        row["group"] = line.path
        if self.groups.shown(line.path) != line.path:
            row["name"] = self.groups.shown(line.path)
        if isinstance(line, Report):
            row["resource"] = line.resource
            return {**row, **pressure_of("some", line.some), **pressure_of("full", line.full)}
        if isinstance(line, Event):
            limits: Row = {"threshold_us": line.threshold, "window_us": line.window}
            what: Row = {"resource": line.resource, "level": line.level}
            return {**row, **what, "trigger": line.trigger, **limits}
        return {**row, "ruleset": line.ruleset, "action": line.action, **self.killer(line)}

    def killer(self, kill: Kill) -> Row:
        """Returns the names of a kill's ruleset and action, or nothing if the rules aren't known.
        """
        if not self.rules:
            return {}
        killer = self.rules.killer(kill)
        return {"ruleset_name": killer.ruleset, "plugin": killer.plugin}


def selected(
    lines: Iterable[Line], kinds: tuple[str, ...], span: Span
) -> Iterator[Union[Report, Event, Kill]]:
    """Yields the lines of these kinds whose time is within `span`, including both ends."""
    for line in lines:
        if isinstance(line, End) or kind_of(line) not in kinds:
            continue
        if span.start <= line.time_ns <= span.end:
            yield line
