"""Writes the output as JSON. Times are in ns, and sizes of memory in bytes."""
from __future__ import annotations

import json
from collections.abc import Sequence
from typing import Any, NamedTuple, Optional

from psinames.clock import wall_text
from psinames.known import Known
from psinames.tasks import Share
from psireplay.groups import Groups

from .figures import Figures, Part


class Asked(NamedTuple):
    """The request to print: `end` is the trace's end, and `start` and `to` are the ends of the
    requested time span (ns). `cpus` is the number of processors, `victim` a path, and `top` the
    largest number of rows.
    """

    trace: str
    end: int
    start: int
    to: int
    cpus: int
    victim: Optional[str]
    top: Optional[int]

    @property
    def length(self) -> int:
        """The length of the requested time span (ns)."""
        return self.to - self.start


def parts_of(groups: Groups, parts: list[Part], top: Optional[int]) -> list[dict[str, Any]]:
    """Returns the first `top` parts as JSON objects. `group` is null in a part in which no task
    ran.
    """
    return [
        {
            "group": groups.name(it.group) if it.group else None,
            "ns": it.time,
            **shares_of(it.shares),
        }
        for it in parts[:top]
    ]


def shares_of(shares: Sequence[Share]) -> dict[str, Any]:
    """Returns the run times of a part's processes for JSON. The result is empty if processes have
    no names.
    """
    rows = [
        {"name": it.name, "threads" if it.is_thread else "pids": list(it.numbers), "ns": it.time}
        for it in shares
    ]
    return {"processes": rows} if rows else {}


def group_of(groups: Groups, it: Figures, asked: Asked, is_named: bool) -> dict[str, Any]:
    """Returns the JSON object of a group. A requested group has more fields."""
    fields: dict[str, Any] = {
        "group": groups.name(it.group),
        "path": it.group.path,
        "made_ns": it.group.made,
        "removed_ns": it.group.removed,
        "ran_ns": it.ran,
        "waited_ns": it.waited,
        "waited_by_processor_ns": it.waits,
        "io_ns": it.io,
        "memory_ns": it.memory,
        "memory_grown_bytes": it.growth.grown if it.growth else None,
        "scanned_pages": it.growth.scanned if it.growth else None,
        **shares_of(it.shares),
        "while_ran": parts_of(groups, it.while_ran, asked.top),
    }
    if is_named:
        fields["io_at_the_same_time"] = parts_of(groups, it.io_beside, asked.top)
        fields["memory_at_the_same_time"] = parts_of(groups, it.memory_beside, asked.top)
    if asked.victim is not None:
        fields["while_victim_ran_ns"], fields["less_at_least_ns"] = it.while_victim, it.less
    return fields


def as_json(
    groups: Groups, found: list[Figures], everyone: list[Figures], asked: Asked, known: Known
) -> str:
    """Returns one JSON object that contains the request and an array of groups: the requested
    groups `found`, or all groups if none was requested.
    """
    whole = {
        "trace": asked.trace,
        "end_ns": asked.end,
        "from_ns": asked.start,
        "to_ns": asked.to,
        "began": wall_text(known.wall) if known.wall else None,
        "processors": asked.cpus,
        "victim": asked.victim,
        "groups": [group_of(groups, it, asked, bool(found)) for it in found or everyone],
    }
    return json.dumps(whole, indent=1) + "\n"
