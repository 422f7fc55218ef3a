"""Reads the file `meta` of a recording: how the recorder was run, why it ended, and how many events
were lost.
"""
from __future__ import annotations

import os
import re

from psicli.times import ns_of
from psirec.layout import META, SKETCH_END, VERSION, VERSIONS, WITHOUT_END, Key, Reason
from psirec.meta import Lines

from .files import text_of
from .kinds import recording_below
from .source import Unreadable

BIG_ENDIAN = ("s390x", "ppc64", "sparc64")


class Meta(Lines):
    """The lines of a recording's file `meta`, with a method for each value that a reader needs."""

    def processors(self) -> int:
        """Returns the number of the machine's processors."""
        count = self.one(Key.PROCESSORS)
        if count is None or not re.fullmatch("[1-9][0-9]{0,4}", count):
            raise Unreadable(f"{META}: there is no number of processors")
        return int(count)

    def version_fault(self) -> str | None:
        """Returns why this program can't read the recording, or None if it can."""
        version, words = self.one(Key.RECORDING), (self.one(Key.UNAME) or "").split()
        if version is not None and version not in VERSIONS:
            return f"{META}: this is a recording of version {version}, and {VERSION} is known"
        if words and words[-1] in BIG_ENDIAN:
            return f"{META}: pages of {words[-1]}, whose numbers are big-endian, aren't read"
        return None

    def end(self) -> str | None:
        """Returns the reason for which the recording ended. Returns None if the recorder wrote no
        reason, because it was killed or is still running.
        """
        if self.one(Key.RECORDING) is None:
            return Reason.SECONDS if self.last_key == SKETCH_END else None
        return self.one(Key.END)

    def ring_start(self) -> int:
        """Returns the time (ns) since which a flight recorder's buffers contain the events of all
        processors. Returns 0 for other recordings.
        """
        start = self.one(Key.RING_START) or ""
        return ns_of(start) if re.fullmatch(r"[0-9]{1,10}(\.[0-9]{1,9})?", start) else 0

    def bytes(self) -> int | None:
        """Returns the size (bytes) of all pages, as counted by the recorder. Returns None if the
        recorder was killed.
        """
        count = self.one(Key.BYTES) or ""
        return int(count) if re.fullmatch("[0-9]{1,15}", count) else None

    def has_snapshot_end(self) -> bool:
        """Returns whether the recorder ends each snapshot with the line SNAPSHOT_END."""
        return self.one(Key.RECORDING) not in (None, WITHOUT_END)

    def realtime(self) -> int | None:
        """Returns the number of ns by which CLOCK_REALTIME was ahead of CLOCK_MONOTONIC. Returns
        None if it wasn't recorded.
        """
        found = re.fullmatch(
            r"realtime ([0-9]{1,12}\.[0-9]{1,9}) monotonic ([0-9]{1,12}\.[0-9]{1,9})",
            self.one(Key.MOMENT) or "",
        )
        return ns_of(found[1]) - ns_of(found[2]) if found else None

    def ahead(self) -> int:
        """Returns the number of ns by which local time was ahead of UTC. Returns 0 if it wasn't
        recorded.
        """
        found = re.fullmatch("([+-])([0-9]{2}):([0-9]{2})", self.one(Key.ZONE) or "")
        minutes = 60 * int(found[2]) + int(found[3]) if found else 0
        return minutes * 60 * 10**9 * (-1 if found and found[1] == "-" else 1)

    def had_event(self, name: str) -> bool:
        """Returns whether the recorder had switched on the event `name`."""
        return any(event.rpartition("/")[2] == name for event in self.all(Key.EVENT))

    def has_all_bytes(self) -> bool:
        """Returns whether the folder must contain all bytes that `meta` counts. If the recording
        ended early, for example because the disk was full, bytes may be missing.
        """
        return self.end() is not None and not self.ended_early()

    def ended_early(self) -> bool:
        """Returns whether the recording ended because of a failure."""
        return (self.end() or "").split(" ")[0] in (Reason.DISK_FULL, Reason.FAILED)


def meta_of(folder: str) -> Meta:
    """Reads the `meta` of a recording. If the folder has no `meta`, raises Unreadable. The message
    suggests the recording below the folder, if there is exactly one.
    """
    if not os.path.lexists(folder):
        raise Unreadable(f"{folder}: No such file or directory")
    if os.path.isdir(folder) and not os.path.lexists(os.path.join(folder, META)):
        below = recording_below(folder)
        advice = f": did you mean {below}?" if below else ""
        raise Unreadable(f"{META}: No such file or directory: {folder} is no recording{advice}")
    return Meta(text_of(folder, META))
