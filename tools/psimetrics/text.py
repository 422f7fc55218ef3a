"""Formats families of metrics as OpenMetrics text, or as Prometheus's older text format.

OpenMetrics 1.0 (https://prometheus.io/docs/specs/om/open_metrics_spec/) has timestamps in seconds.
The older text of Prometheus (https://prometheus.io/docs/instrumenting/exposition_formats/) has them
in whole ms.
"""
from __future__ import annotations

from array import array
from typing import Callable, Iterator, NamedTuple

from psicli.times import SECOND, WallTime, seconds

MILLISECOND = SECOND // 1000
# The smallest distance (ns) between two points. Prometheus truncates times to whole ms, which may
# reduce the distance by 1 ms, and it rejects two points in the same ms.
NEAREST = 2 * MILLISECOND
Labels = tuple[tuple[str, str], ...]


class Points:
    """The values of a counter: times (ns since the start of the trace), and the count at each time.
    """

    def __init__(self) -> None:
        self.times, self.values = array("Q"), array("Q")

    def add(self, time_ns: int, value: int) -> None:
        """Appends a point. If the new point follows the previous one by less than NEAREST (ns), it
        replaces the previous point.
        """
        if self.times and time_ns - self.times[-1] < NEAREST:
            self.times.pop()
            self.values.pop()
        self.times.append(time_ns)
        self.values.append(value)


class Counter(NamedTuple):
    """A family of counters. `name` is without `_total`, and `help` is a description. `per_unit` is
    the number of counted units in one unit of the metric. For example, it is 1000000 if us are
    counted and the metric is in s.
    """

    name: str
    help: str
    per_unit: int

    def text(self, value: int) -> str:
        """Formats a value in the unit of the metric, without rounding."""
        return seconds(value * (SECOND // self.per_unit))


Families = dict[Counter, dict[Labels, Points]]


def escaped(value: str) -> str:
    """Escapes quotes, backslashes and newlines in the value of a label."""
    return value.replace("\\", "\\\\").replace('"', '\\"').replace("\n", "\\n")


def braced(labels: Labels) -> str:
    return (
        "{" + ",".join(f'{name}="{escaped(value)}"' for name, value in labels) + "}"
        if labels
        else ""
    )


def lines_of(
    family: Counter, metrics: dict[Labels, Points], when: Callable[[int], str]
) -> Iterator[str]:
    """Yields the lines of a family: one metric after another, and the points of each in order of
    time.
    """
    for labels in sorted(metrics):
        points = metrics[labels]
        head = f"{family.name}_total{braced(labels)}"
        yield from (
            f"{head} {family.text(value)} {when(at)}"
            for at, value in zip(points.times, points.values)
        )


def openmetrics(families: Families, start: WallTime) -> Iterator[str]:
    """Yields the lines of families in the OpenMetrics text format."""
    for family in sorted(families):
        yield f"# TYPE {family.name} counter"
        if family.name.endswith("_seconds"):
            yield f"# UNIT {family.name} seconds"
        yield f"# HELP {family.name} {family.help}"
        yield from lines_of(family, families[family], lambda at: seconds(start.epoch + at))
    yield "# EOF"


def prometheus(families: Families, start: WallTime) -> Iterator[str]:
    """Yields the lines of families in Prometheus's older text format."""
    for family in sorted(families):
        yield f"# HELP {family.name}_total {family.help}"
        yield f"# TYPE {family.name}_total counter"
        yield from lines_of(
            family, families[family], lambda at: str((start.epoch + at) // MILLISECOND)
        )
