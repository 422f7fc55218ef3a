"""Lists the recordings in a folder, and deletes the oldest ones to stay within limits."""
from __future__ import annotations

import contextlib
import fcntl
import os
from collections.abc import Callable, Iterator
from dataclasses import dataclass

from psirec import layout
from psirec.layout import Key, Reason
from psirec.meta import Lines

from .folder import FOLDER_FLAGS, remove_all
from .machine import read_file

MEGABYTE = 10**6
FIRST = f"{Key.RECORDING} ".encode()


@dataclass(frozen=True)
class Limits:
    """The largest number of stored recordings, and their largest total size (bytes). None means no
    limit.
    """

    count: int | None = None
    bytes: int | None = None


@dataclass(frozen=True)
class Stored:
    """A stored recording. `name` is the name of its folder, and `ended` the time of the last write
    to its `meta` (s since 1970). `bytes` is the total size of its files. `is_written` says whether
    a recorder is still writing it, and `meta` contains the lines of its `meta`.
    """

    name: str
    ended: float
    bytes: int
    is_written: bool
    meta: Lines

    def reason(self) -> str:
        """Returns the reason for which the recording ended. Returns KILLED if its `meta` has no
        reason.
        """
        return self.meta.one(Key.END) or Reason.KILLED

    def lost(self) -> int:
        """Returns the number of lost events. For a flight recorder, overwritten events don't count,
        since it overwrites its buffers on purpose.
        """
        names = [it for it in layout.LOST_STATS if it != "overrun" or not self.meta.is_ring()]
        return sum(sum(self.meta.lost(name).values()) for name in names)


def is_locked(file: int) -> bool:
    """Returns whether a recorder is still writing the recording of this open `meta` file. A
    recorder locks that file until its process ends.
    """
    try:
        fcntl.flock(file, fcntl.LOCK_SH | fcntl.LOCK_NB)
    except OSError:
        return True
    fcntl.flock(file, fcntl.LOCK_UN)
    return False


def size_of(path: str) -> int:
    """Returns the total size (bytes) of the files in a folder. Links aren't followed."""
    total = 0
    with contextlib.suppress(OSError), os.scandir(path) as entries:
        for entry in entries:
            with contextlib.suppress(OSError):
                is_folder = entry.is_dir(follow_symlinks=False)
                total += (
                    size_of(entry.path) if is_folder else entry.stat(follow_symlinks=False).st_size
                )
    return total


def stored_at(path: str) -> Stored | None:
    """Returns the recording in this folder, or None if the folder isn't a recording."""
    try:
        file = os.open(f"{path}/{layout.META}", os.O_RDONLY | os.O_NOFOLLOW | os.O_NONBLOCK)
    except OSError:
        return None
    try:
        data, ended = read_file(f"/proc/self/fd/{file}"), os.fstat(file).st_mtime
        if not data.startswith(FIRST):
            return None
        meta = Lines(data.decode(errors="replace"))
        return Stored(os.path.basename(path), ended, size_of(path), is_locked(file), meta)
    finally:
        os.close(file)


def recordings(folder: str) -> list[Stored]:
    """Returns the recordings in a folder, the newest first."""
    found = []
    with contextlib.suppress(OSError), os.scandir(folder) as entries:
        names = [it.name for it in entries if it.is_dir(follow_symlinks=False)]
        found = [it for it in (stored_at(os.path.join(folder, name)) for name in names) if it]
    return sorted(found, key=lambda it: (-it.ended, it.name))


def beyond(found: list[Stored], limits: Limits, own: str) -> Iterator[Stored]:
    """Yields the recordings to delete so that the remaining ones are within the limits. `found`
    contains all recordings, the newest first. The newest finished recording and unfinished
    recordings are never deleted. `own` is the name of the recording that ends now, which counts as
    finished.
    """
    finished = [it for it in found if not it.is_written or it.name == own]
    total = 0
    for place, it in enumerate(finished):
        total += it.bytes
        is_many = limits.count is not None and place >= limits.count
        is_much = limits.bytes is not None and total > limits.bytes
        if place and (is_many or is_much) and not it.is_written:
            yield it


def delete(folder: str, name: str) -> None:
    """Deletes a recording. Links aren't followed. Raises PermissionError if the folder belongs to
    another user.
    """
    above = os.open(folder, FOLDER_FLAGS & ~os.O_NOFOLLOW)
    try:
        inner = os.open(name, FOLDER_FLAGS, dir_fd=above)
        try:
            if os.fstat(inner).st_uid != os.geteuid():
                raise PermissionError(1, "it belongs to somebody else", name)
            remove_all(inner)
        finally:
            os.close(inner)
        os.rmdir(name, dir_fd=above)
    finally:
        os.close(above)


def keep(folder: str, limits: Limits, tell: Callable[[str], None], own: str = "") -> None:
    """Deletes the oldest recordings until the remaining ones are within the limits. A recording
    that a recorder is still writing stays. `own` is the name of the recording that ends now and
    counts towards the limits, or empty if no recording ends.
    """
    if limits == Limits():
        return
    for it in beyond(recordings(folder), limits, own):
        try:
            delete(folder, it.name)
            tell(
                f"deleted {os.path.join(folder, it.name)}, {it.bytes / MEGABYTE:.1f} MB,"
                " to keep the limit"
            )
        except OSError as error:
            tell(f"{os.path.join(folder, it.name)} couldn't be deleted: {error.strerror}")
