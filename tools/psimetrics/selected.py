"""Selects the metrics of a part of a replay, and adds labels with the names of containers."""
from __future__ import annotations

from typing import Callable

from psinames.groups import GroupNames
from psinames.known import Span

from .text import Families, Labels, Points

# The names of two labels: PATH has a group's path, and NAME, as in cAdvisor, a container's name.
PATH, NAME = "id", "name"


def length_of(families: Families) -> int:
    """Returns the time (ns) of the last point."""
    return max(points.times[-1] for metrics in families.values() for points in metrics.values())


def points_in(points: Points, part: Span) -> Points:
    """Returns the points within a part of the replay, including both ends."""
    found = Points()
    for time_ns, value in zip(points.times, points.values):
        if part.start <= time_ns <= part.end:
            found.add(time_ns, value)
    return found


def changed(
    families: Families, change: Callable[[Labels, Points], tuple[Labels, Points]]
) -> Families:
    """Applies `change` to the labels and points of each metric. Removes metrics that have no
    points.
    """
    found: Families = {}
    for family, metrics in families.items():
        pairs = [change(*it) for it in metrics.items()]
        filled = {labels: points for labels, points in pairs if points.times}
        if filled:
            found[family] = filled
    return found


def in_part(families: Families, part: Span) -> Families:
    """Returns the families with only the points within a part of the replay."""
    return changed(families, lambda labels, points: (labels, points_in(points, part)))


def with_names(families: Families, names: GroupNames) -> Families:
    """Adds the name of the container as a label to the metrics of each container's group."""

    def named(labels: Labels) -> Labels:
        container = next((names.container(it) for label, it in labels if label == PATH), None)
        return (*labels, (NAME, container)) if container else labels

    return changed(families, lambda labels, points: (named(labels), points))
