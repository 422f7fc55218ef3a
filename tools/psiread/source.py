"""Defines the input of a conversion: the events in order of time, the losses, and other facts about
the recording. Ring-buffer pages and ftrace text are both read into this form.
"""
from __future__ import annotations

from collections import Counter
from dataclasses import dataclass, field
from typing import NamedTuple

from psicli.fault import Fault

from .events import Event, Gap


class Unreadable(Fault):
    """Raised if an input can't be used. The message says why."""


class ListedTask(NamedTuple):
    """A thread in a snapshot. `process` is the number of its process, `state` the letter of its
    state, and `path` its group's path as written in a trace.
    """

    process: int
    state: str
    processor: int
    path: str
    name: str = ""


@dataclass
class Snapshot:
    """A snapshot, taken at `time_ns` during the recording. `groups` contains the preference of each
    group, and `types` the types of groups if the recorder wrote them. `unaccounted` lists the
    groups whose pressure isn't accounted, and `tasks` contains the threads by number.
    """

    time_ns: int = 0
    groups: dict[str, str] = field(default_factory=dict)
    unaccounted: list[str] = field(default_factory=list)
    tasks: dict[int, ListedTask] = field(default_factory=dict)
    types: dict[str, str] = field(default_factory=dict)
    # Whether the snapshot's last line is the end mark, and whether its last line is cut off.
    has_end: bool = False
    is_cut: bool = False


@dataclass
class Source:
    """A recording. All times are in ns of the recording's own clock. A time plus `realtime` is in
    ns since 1970.
    """

    events: list[Event]
    processors: int
    start: int
    stop: int
    gaps: list[Gap] = field(default_factory=list)
    # The losses that concern the whole recording, or whose time isn't known. Because of them no
    # part of the recording is certainly complete.
    losses: list[str] = field(default_factory=list)
    # The number of repairs of each kind, and other remarks for the report.
    mended: Counter[str] = field(default_factory=Counter)
    notes: list[str] = field(default_factory=list)
    snapshot: Snapshot = field(default_factory=Snapshot)
    has_switch_probe: bool = False
    # Whether the events include each time at which the kernel sampled a group.
    has_sample_times: bool = False
    # Whether the events include the time at which psi counts a wakeup.
    has_ready_probe: bool = False
    realtime: int | None = None
    # The difference (ns) between the recorded machine's local time and UTC.
    ahead: int = 0
    # The names of containers and pods, by their ids.
    containers: dict[str, str] = field(default_factory=dict)
    # The number of bytes of pages that were read.
    bytes: int = 0
    # The time (ns) since which the events of a flight recorder are complete. It is 0 for other
    # recordings.
    whole_from: int = 0
