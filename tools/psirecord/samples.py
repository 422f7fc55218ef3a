"""Reads groups, tasks, memory and pressure from /proc and the control groups, since no event
contains their values.

The recorder reads them while events are recorded, and writes markers among the events that show the
time of each read. The events show the changes between two snapshots. A group or a task that
disappears before it is read is skipped.
"""
from __future__ import annotations

import os
from collections.abc import Callable, Iterator
from dataclasses import dataclass, field

from psirec import layout

from .machine import Machine, read_file

KIB = 1024
# Extended attributes of a group's folder. They ask oomd or systemd-oomd to kill the group first
# (`prefer`), last (`avoid`) or never (`omit`).
PREFERENCES = {
    "user.oomd_prefer": "prefer",
    "trusted.oomd_prefer": "prefer",
    "user.oomd_avoid": "avoid",
    "trusted.oomd_avoid": "avoid",
    "user.oomd_omit": "omit",
}

Mark = Callable[[str], bool]


@dataclass(frozen=True)
class Group:
    """A control group: its folder, its path as written in a recording, and the folder's inode
    number (0 for the root). The inode number changes if the group is removed and created again.
    """

    folder: str
    path: str
    number: int

    def is_root(self) -> bool:
        """Returns whether this is the root group. The root has no memory files, and its pressure
        files are in /proc.
        """
        return self.path == "/"


def groups(machine: Machine) -> Iterator[Group]:
    """Yields all control groups, each parent before its children."""
    pending = [(machine.groups, 0)]
    while pending:
        folder, number = pending.pop()
        yield Group(folder, layout.escaped_path(os.fsencode(folder[len(machine.groups) :])), number)
        try:
            with os.scandir(folder) as entries:
                children = sorted(
                    (it.path, it.inode()) for it in entries if it.is_dir(follow_symlinks=False)
                )
        except OSError:
            continue
        pending.extend(reversed(children))


# ---------------------------------------------------------------- memory samples


def memory_information(machine: Machine) -> dict[str, int]:
    """Returns the values of /proc/meminfo in bytes."""
    lines = (
        it.split()
        for it in read_file(f"{machine.proc}/meminfo").decode(errors="replace").splitlines()
    )
    return {it[0].rstrip(":"): int(it[1]) * KIB for it in lines if len(it) > 1}


def scanned_pages(group: Group) -> int:
    """Returns the number of scanned pages, `pgscan` in the text of `memory.stat`. Returns 0 if
    there is no such line.
    """
    for line in read_file(f"{group.folder}/memory.stat").splitlines():
        if line.startswith(b"pgscan "):
            return int(line.split()[1])
    return 0


def number_in(path: str) -> int | None:
    """Returns the number in a file. Returns None if the file can't be read, or if it contains no
    number.
    """
    words = read_file(path).split()
    return int(words[0]) if words and words[0].isdigit() else None


def is_accounted(group: Group) -> bool | None:
    """Returns whether the group's pressure is accounted, according to the file `cgroup.pressure`.
    Returns None if there is no such file: the root may have none, and before Linux 6.1 no group has
    one.
    """
    number = number_in(f"{group.folder}/cgroup.pressure")
    return None if number is None else number != 0


@dataclass
class MemorySampler:
    """Writes the memory of the machine and of each group as markers among the events. Also writes a
    marker for each change of `cgroup.pressure`, since no event shows these changes. `unaccounted`
    contains the groups whose pressure wasn't accounted at the last check. `too_long` counts the
    markers that were too long to be written.
    """

    machine: Machine
    mark: Mark
    unaccounted: set[Group] = field(default_factory=set)
    too_long: int = 0

    def sample(self) -> None:
        """Samples all groups once. The root has no memory files, so its memory use is the machine's
        total memory minus its available memory. Rules for the root need this value.
        """
        known = memory_information(self.machine)
        total, swap_total, swap_free = (
            known.get(it, 0) for it in ("MemTotal", "SwapTotal", "SwapFree")
        )
        self.write(layout.host_marker(total, swap_total, swap_free))
        self.write(
            layout.memory_marker(
                "/", total - known.get("MemAvailable", total), swap_total - swap_free, 0
            )
        )
        unaccounted = set()
        for group in groups(self.machine):
            self.sample_memory(group)
            if self.sample_accounting(group) is False:
                unaccounted.add(group)
        self.unaccounted = unaccounted

    def sample_memory(self, group: Group) -> None:
        """Writes a memory sample of a group. Has no effect if the group, like the root, has no
        memory files.
        """
        current = number_in(f"{group.folder}/memory.current")
        if current is not None:
            swap = number_in(f"{group.folder}/memory.swap.current") or 0
            self.write(layout.memory_marker(group.path, current, swap, scanned_pages(group)))

    def sample_accounting(self, group: Group) -> bool | None:
        """Returns whether the group's pressure is accounted, or None if it has no file
        `cgroup.pressure`. Writes a marker if that changed since the last check. A new group counts
        as accounted before its first check, even if an earlier group with the same path wasn't
        accounted.
        """
        is_on = is_accounted(group)
        if is_on is not None and is_on == (group in self.unaccounted):
            self.write(layout.accounting_marker(group.path, is_on))
        return is_on

    def write(self, marker: str) -> None:
        """Writes a marker. If the marker is too long, it is only counted: its path is too long for
        a trace, too.
        """
        if not self.mark(marker):
            self.too_long += 1


# ---------------------------------------------------------------- pressure files


@dataclass(frozen=True)
class Reading:
    """A reading: the contents of the pressure files of all groups, which were read between two
    markers. `time_s` is CLOCK_MONOTONIC in s.
    """

    time_s: float
    text: bytes


def read_pressure(machine: Machine, mark: Mark, number: int, time_s: float) -> Reading:
    """Reads the pressure files of all groups, between two markers that contain `number`. The result
    contains `time_s`. The kernel updates a group's totals at each read, so the totals depend on how
    often they are read.
    """
    mark(layout.pressure_marker(number, is_end=False))
    parts = []
    for group in groups(machine):
        for resource in layout.RESOURCES:
            path = (
                f"{machine.proc}/pressure/{resource}"
                if group.is_root()
                else f"{group.folder}/{resource}.pressure"
            )
            text = read_file(path)
            if text:
                head = layout.sample_line(number, group.path, resource)
                parts.append(head.encode(errors="surrogateescape") + b"\n" + text)
    mark(layout.pressure_marker(number, is_end=True))
    return Reading(time_s, b"".join(parts))


# ---------------------------------------------------------------- groups and tasks


@dataclass(frozen=True)
class Snapshot:
    """The groups and tasks at one time, as lines of text. `time_ns` is CLOCK_MONOTONIC in ns, taken
    before the first group is read. `unaccounted` has the groups whose pressure isn't accounted.
    """

    time_ns: int
    lines: list[str]
    unaccounted: set[Group]

    def text(self) -> bytes:
        """Returns the contents of the snapshot's file."""
        return "".join(
            f"{it}\n" for it in [layout.at_line(self.time_ns), *self.lines, layout.SNAPSHOT_END]
        ).encode(errors="surrogateescape")


def preference(group: Group) -> str:
    """Returns the preference that a group's extended attributes state. If several attributes exist,
    the first one in the order of PREFERENCES counts. Returns `none` if none exists.
    """
    for attribute, word in PREFERENCES.items():
        try:
            os.getxattr(group.folder, attribute)
        except OSError:
            continue
        return word
    return "none"


def task_line(machine: Machine, number: bytes, group: Group) -> str | None:
    """Returns the line of a thread of `group`, from /proc/TID. Returns None if the thread has
    ended.

    A thread's name may contain blanks and brackets, so the fields of `stat` are counted from the
    last bracket. The state is the first word after it, and the processor the 37th (fields 3 and 39
    in proc(5)).
    """
    folder = f"{machine.proc}/{number.decode()}"
    text = read_file(f"{folder}/stat")
    end = text.rfind(b")")
    words = text[end + 1 :].split()
    process = [
        it.split()[1]
        for it in read_file(f"{folder}/status").splitlines()
        if it.startswith(b"Tgid:")
    ]
    if end < 0 or len(words) < 37 or not process:
        return None
    name = os.fsdecode(text[text.find(b"(") + 1 : end])
    return layout.task_line(
        int(number), int(process[0]), words[0].decode(), int(words[36]), group.path, name
    )


def take_snapshot(machine: Machine, time_ns: int) -> Snapshot:
    """Reads all groups and their threads. `time_ns` is the current time (CLOCK_MONOTONIC, ns)."""
    lines, unaccounted = [], set()
    for group in groups(machine):
        lines.append(layout.group_line(group.path, preference(group)))
        kind = read_file(f"{group.folder}/cgroup.type").decode(errors="replace")
        if kind:
            lines.append(layout.type_line(group.path, kind))
        if is_accounted(group) is False:
            unaccounted.add(group)
            lines.append(layout.unaccounted_line(group.path))
        for number in read_file(f"{group.folder}/cgroup.threads").split():
            line = task_line(machine, number, group)
            if line:
                lines.append(line)
    return Snapshot(time_ns, lines, unaccounted)
