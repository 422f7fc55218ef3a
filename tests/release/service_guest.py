"""The part of tests/release/service that runs in the virtual machine: the load that causes
recordings, and the watcher of the recordings' folder. It needs only Python.

usage: service_guest.py load
       service_guest.py watch FOLDER BY_HAND KEEP KEEP_MB MINUTES

The watcher scans the folder every second. It shares no code with the service, and finds the
recordings that are being written in /proc/locks. It prints a line for each minute and each fault,
and a last line that begins with `watched`.
"""
from __future__ import annotations

import os
import sys
import time
from dataclasses import dataclass, field

SCAN_SECONDS = 1.0
MEGABYTE = 10**6
# Phases of the load. Each has a length (s), and the time (s) for which a process runs between two
# pauses. Short runs cause many events, so the sizes of recordings differ.
PHASES = ((20.0, 0.0005), (20.0, 0.02), (20.0, 0.1))
PROCESSES = 4
# The time (s) in each second for which all processes try to run.
BUSY_SECONDS = 0.2
PAUSE_SECONDS = 0.0002


@dataclass
class Found:
    """A recording that a scan found: its size (bytes), the time when its `meta` was last written
    (ns), and whether a recorder was writing it at any time during the scan.
    """

    bytes: int
    written_ns: int
    is_written: bool


@dataclass
class Minute:
    """The results of the scans in a minute: the largest number and the largest total size (bytes)
    of finished recordings, the number of recordings that began, and how many were deleted because
    of the limit on their number and because of the limit on their size.
    """

    most: int = 0
    most_bytes: int = 0
    begun: int = 0
    deleted_by_number: int = 0
    deleted_by_size: int = 0


def locked() -> set[int]:
    """Returns the inodes of all files that are locked with flock(2)."""
    with open("/proc/locks", encoding="ascii") as file:
        rows = [line.split() for line in file]
    return {int(row[5].rpartition(":")[2]) for row in rows if row[1] == "FLOCK"}


def size_of(path: str) -> int:
    """Returns the size (bytes) of all files below a folder. Files that are deleted during the scan
    count as 0 bytes.
    """
    total = 0
    for above, _, names in os.walk(path):
        for name in names:
            try:
                total += os.lstat(os.path.join(above, name)).st_size
            except FileNotFoundError:
                continue
    return total


def scan(folder: str) -> dict[str, Found]:
    """Returns the recordings in the folder by name. A recording counts as being written if it is
    locked at the beginning or at the end of the scan, since one recording may end and another begin
    in between.
    """
    before, metas, found = locked(), {}, {}
    for name in os.listdir(folder):
        try:
            metas[name] = os.stat(os.path.join(folder, name, "meta"))
        except FileNotFoundError:
            continue
    sizes = {name: size_of(os.path.join(folder, name)) for name in metas}
    inodes = before | locked()
    for name, meta in metas.items():
        if os.path.exists(os.path.join(folder, name, "meta")):
            found[name] = Found(sizes[name], meta.st_mtime_ns, meta.st_ino in inodes)
    return found


@dataclass
class Watcher:
    """Compares each scan with the limits and with the previous scan."""

    keep: int
    keep_bytes: int
    by_hand: str
    before: dict[str, Found] = field(default_factory=dict)
    minute: Minute = field(default_factory=Minute)
    faults: int = 0
    begun: int = 0
    deleted: int = 0

    def fault(self, what: str) -> None:
        """Counts and prints a fault."""
        self.faults += 1
        print(f"FAULT {what}", flush=True)

    def look(self, found: dict[str, Found]) -> None:
        """Checks the recordings that a scan found against the limits and the previous scan."""
        finished = [it for it in found.values() if not it.is_written]
        total = sum(it.bytes for it in finished)
        self.minute.most = max(self.minute.most, len(finished))
        self.minute.most_bytes = max(self.minute.most_bytes, total)
        if len(finished) > self.keep:
            self.fault(f"{len(finished)} finished recordings")
        if total > self.keep_bytes and len(finished) > 1:
            self.fault(f"{total} bytes in {len(finished)} finished recordings")
        if self.by_hand not in found or not found[self.by_hand].is_written:
            self.fault(f"{self.by_hand} isn't being written")
        self.compare(found)
        self.before = found

    def compare(self, found: dict[str, Found]) -> None:
        """Counts the recordings that began and that were deleted since the previous scan. Checks
        that only the oldest were deleted, and none that was being written.
        """
        gone = {name: it for name, it in self.before.items() if name not in found}
        stayed = [it for name, it in self.before.items() if name in found and not it.is_written]
        for name, it in gone.items():
            if it.is_written:
                self.fault(f"{name} was deleted while it was being written")
            if any(other.written_ns < it.written_ns for other in stayed):
                self.fault(f"{name} was deleted, which wasn't the oldest")
        new = sum(name not in self.before for name in found)
        self.minute.begun += new
        self.begun += new
        self.deleted += len(gone)
        # A recording counts towards the limits when it ends, and `stayed` lacks the one that has
        # just ended. If they are at least `keep` with it, the limit on their number has caused the
        # deletion.
        if len(stayed) + 1 >= self.keep:
            self.minute.deleted_by_number += len(gone)
        else:
            self.minute.deleted_by_size += len(gone)

    def end_minute(self, number: int) -> None:
        """Prints the results of a minute, and begins the next one."""
        it = self.minute
        print(
            f"minute {number}: {it.begun} begun, {it.deleted_by_number} deleted by number and"
            f" {it.deleted_by_size} by size, at most {it.most} finished and"
            f" {it.most_bytes / MEGABYTE:.3f} MB",
            flush=True,
        )
        self.minute = Minute()


def watch(folder: str, by_hand: str, keep: int, keep_mb: float, minutes: int) -> None:
    """Watches the folder for this many minutes."""
    watcher = Watcher(keep, int(keep_mb * MEGABYTE), by_hand)
    watcher.before = scan(folder)
    begin, minute = time.monotonic(), 1
    while minute <= minutes:
        watcher.look(scan(folder))
        if time.monotonic() >= begin + 60 * minute:
            watcher.end_minute(minute)
            minute += 1
        time.sleep(SCAN_SECONDS)
    print(
        f"watched {minutes} minutes: {watcher.begun} begun, {watcher.deleted} deleted,"
        f" {watcher.faults} faults",
        flush=True,
    )


def run_for(run_seconds: float) -> None:
    """Uses a processor from the beginning of a second for BUSY_SECONDS, in runs of this length (s).
    """
    time.sleep(1 - time.time() % 1)
    until = time.monotonic() + BUSY_SECONDS
    while time.monotonic() < until:
        pause = time.monotonic() + run_seconds
        while time.monotonic() < pause:
            pass
        time.sleep(PAUSE_SECONDS)


def load() -> None:
    """Keeps the processors busy for a part of each second, in phases with many and with few task
    switches.
    """
    for _ in range(PROCESSES - 1):
        if not os.fork():
            break
    while True:
        for seconds, run_seconds in PHASES:
            until = time.monotonic() + seconds
            while time.monotonic() < until:
                run_for(run_seconds)


def main(arguments: list[str]) -> None:
    """Parses the command line, and runs the load or the watcher."""
    if arguments == ["load"]:
        load()
    else:
        _, folder, by_hand, keep, keep_mb, minutes = arguments
        watch(folder, by_hand, int(keep), float(keep_mb), int(minutes))


if __name__ == "__main__":
    main(sys.argv[1:])
