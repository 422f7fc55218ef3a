"""Describes the recordings in a folder, as text lines or as metrics for node_exporter's textfile
collector.
"""
from __future__ import annotations

import os
import time
from collections.abc import Iterator

from psirec.layout import Key

from .stored import MEGABYTE, Stored, recordings

# The folder into which the service psi-record records.
SERVICE_FOLDER = "/var/lib/psi-record"
# The metrics, each with its help text.
GAUGES = (
    ("recordings", "Recordings in the folder, without the one that is being written."),
    ("recordings_bytes", "Bytes of these recordings."),
    (
        "incomplete_recordings",
        "Recordings with lost events, or whose recorder was killed or failed.",
    ),
    ("lost_events", "Events that were lost in these recordings."),
    (
        "last_end_timestamp_seconds",
        "When the newest of these recordings ended, in seconds since 1970.",
    ),
    ("active", "Whether a recorder is recording into the folder."),
    ("free_bytes", "Free space of the file system."),
)
WHOLE = ("seconds", "signal", "max-mb", "trigger")


def clock(seconds: float) -> str:
    return time.strftime("%Y-%m-%d %H:%M:%S UTC", time.gmtime(seconds))


def is_incomplete(it: Stored) -> bool:
    return it.lost() > 0 or it.reason() not in WHOLE


def free_bytes(folder: str) -> int:
    """Returns the disk space (bytes) that is available to an ordinary user."""
    found = os.statvfs(folder)
    return found.f_bavail * found.f_frsize


def waits_for(it: Stored) -> str:
    """Describes an unfinished recording: an ordinary one, or a flight recorder's, with the trigger
    for which the flight recorder waits. Without a trigger it runs until it is stopped.
    """
    ring, group = it.meta.all(Key.RING), it.meta.all(Key.RING_GROUP)
    if not ring or ring[0] == "none":
        return "until it is stopped" if ring else "an ordinary recording"
    return f"waits for {ring[0]}{f' of {group[0]}' if group else ''}"


def began(it: Stored) -> str:
    """Returns the time of day at which a recording began, according to the clocks in its `meta`."""
    words = (it.meta.one(Key.MOMENT) or "").split()
    return clock(float(words[1])) if len(words) > 1 else "an unknown time"


def row(it: Stored) -> str:
    """Returns the text line that describes a finished recording."""
    lost = f", {it.lost()} events lost" if it.lost() else ""
    return f"{it.name}  {clock(it.ended)}  {it.bytes / MEGABYTE:8.1f} MB  {it.reason()}{lost}"


def lines(folder: str) -> Iterator[str]:
    """Yields text lines that describe a folder of recordings."""
    found = recordings(folder)
    finished = [it for it in found if not it.is_written]
    total = sum(it.bytes for it in finished) / MEGABYTE
    many = f"{len(finished)} recording{'' if len(finished) == 1 else 's'}"
    yield f"{folder}: {many}, {total:.1f} MB; {free_bytes(folder) / MEGABYTE:.0f} MB free"
    yield from map(row, finished)
    written = [it for it in found if it.is_written]
    for it in written:
        yield f"recording now: {it.name}, since {began(it)}; {waits_for(it)}"
    if not written:
        yield "no recorder is recording into it now"


def escaped(text: str) -> str:
    """Escapes the value of a label for the text format of Prometheus."""
    return text.replace("\\", r"\\").replace('"', r"\"").replace("\n", r"\n")


def metrics(folder: str) -> str:
    """Returns the state of a folder in the text format of Prometheus."""
    found = recordings(folder)
    finished = [it for it in found if not it.is_written]
    values = {
        "recordings": len(finished),
        "recordings_bytes": sum(it.bytes for it in finished),
        "incomplete_recordings": sum(map(is_incomplete, finished)),
        "lost_events": sum(it.lost() for it in finished),
        "last_end_timestamp_seconds": int(finished[0].ended) if finished else 0,
        "active": int(len(found) > len(finished)),
        "free_bytes": free_bytes(folder),
    }
    label = f'{{folder="{escaped(folder)}"}}'
    text = ""
    for name, what in GAUGES:
        text += f"# HELP psi_record_{name} {what}\n# TYPE psi_record_{name} gauge\n"
        text += f"psi_record_{name}{label} {values[name]}\n"
    return text


def write_textfile(path: str, folder: str) -> None:
    """Writes the metrics of `folder` to `path`. The file is replaced by renaming, so node_exporter
    never reads an incomplete file.
    """
    text, part = metrics(folder), f"{path}.{os.getpid()}"
    try:
        file = os.open(part, os.O_WRONLY | os.O_CREAT | os.O_EXCL | os.O_NOFOLLOW, 0o644)
    except OSError as error:
        raise OSError(error.errno, error.strerror, path) from error
    try:
        with os.fdopen(file, "w", encoding="utf-8", errors="replace") as stream:
            os.fchmod(stream.fileno(), 0o644)
            stream.write(text)
        os.replace(part, path)
    except OSError:
        os.unlink(part)
        raise
