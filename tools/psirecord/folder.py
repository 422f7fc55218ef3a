"""The folder of a recording, with the file names of `psirec.layout`. All writes are unbuffered, so
nothing is lost if the recorder is killed.

A recording shows which programs run on a machine, and contains addresses of its kernel, so only its
owner may read it. All files are opened through the descriptor of the folder, since during the
recording the owner of the parent folder may rename the recording's folder and put something else in
its place.
"""
from __future__ import annotations

import contextlib
import errno
import fcntl
import os

from psirec import layout

from .compressing import Compressor
from .machine import Machine, read_file

# A file that reserves disk space during the recording. The recorder deletes it at the end, so that
# the last lines of `meta` can be written even if the disk is full.
RESERVE = ".reserve"
RESERVE_BYTES = 1 << 18
FULL = (errno.ENOSPC, errno.EDQUOT, errno.EFBIG)
PAGE_BYTES = 4096
# The approximate size (bytes) of a part, in which a compressed recording stores a processor's
# pages.
PART_BYTES = 8 << 20
FOLDER_MODE, FILE_MODE = 0o700, 0o600
FOLDER_FLAGS = os.O_RDONLY | os.O_DIRECTORY | os.O_NOFOLLOW | os.O_CLOEXEC
NEW_FILE_FLAGS = os.O_WRONLY | os.O_CREAT | os.O_EXCL | os.O_NOFOLLOW | os.O_APPEND | os.O_CLOEXEC


class DiskFull(Exception):
    """Raised if a write fails because the disk is full, or because a quota or a size limit is
    reached.
    """


def append(file: int, data: bytes) -> None:
    """Writes all of `data` to the descriptor `file`. Raises DiskFull if there isn't enough space.
    """
    rest = memoryview(data)
    while rest:
        try:
            rest = rest[os.write(file, rest) :]
        except OSError as error:
            if error.errno in FULL:
                raise DiskFull(error.strerror) from error
            raise


def made_folder(name: str, above: int | None = None) -> int:
    """Creates a folder and returns its descriptor. `name` is relative to the open folder `above`,
    or to the working directory if `above` is None. Raises OSError if another user replaced the
    new folder before it was opened.
    """
    os.mkdir(name, FOLDER_MODE, dir_fd=above)
    folder = os.open(name, FOLDER_FLAGS, dir_fd=above)
    found = os.fstat(folder)
    if found.st_uid != os.geteuid() or found.st_mode & 0o077 or os.listdir(folder):
        os.close(folder)
        raise OSError(errno.EEXIST, "somebody put another folder in its place", name)
    return folder


def remove_all(folder: int) -> None:
    """Removes everything in an open folder. Links aren't followed."""
    with os.scandir(folder) as entries:
        found = [(it.name, it.is_dir(follow_symlinks=False)) for it in entries]
    for name, is_folder in found:
        if not is_folder:
            os.unlink(name, dir_fd=folder)
            continue
        inner = os.open(name, FOLDER_FLAGS, dir_fd=folder)
        try:
            remove_all(inner)
        finally:
            os.close(inner)
        os.rmdir(name, dir_fd=folder)


class Folder:
    """The folder of a new recording, and the open files in it."""

    def __init__(self, path: str, is_compressed: bool = False) -> None:
        """Creates the folder. Raises OSError if it already exists, and DiskFull if there isn't
        space for the first lines. The compressing process is started before other files are opened,
        since it must not inherit their descriptors.
        """
        self.path, self.bytes, self.page_bytes = path, 0, PAGE_BYTES
        self.raw: dict[int, int] = {}
        # The number of parts of each processor, and the size (bytes) of its last part.
        self.parts: dict[int, int] = {}
        self.part_bytes: dict[int, int] = {}
        self.descriptor = made_folder(path)
        self.compressor: Compressor | None = None
        try:
            if is_compressed:
                self.compressor = Compressor(self.descriptor)
            self.reserve()
            self.meta, self.pressure = self.made(layout.META), self.made(layout.PRESSURE)
            # The lock shows that the recorder is still writing the recording, so that nobody
            # deletes it.
            fcntl.flock(self.meta, fcntl.LOCK_EX)
            self.say(layout.Key.RECORDING, layout.VERSION)
        except BaseException:
            self.discard()
            raise

    def made(self, name: str) -> int:
        """Creates a file and returns its descriptor."""
        return os.open(name, NEW_FILE_FLAGS, FILE_MODE, dir_fd=self.descriptor)

    def reserve(self) -> None:
        """Reserves disk space for the last lines, if the file system supports it."""
        file = self.made(RESERVE)
        try:
            os.posix_fallocate(file, 0, RESERVE_BYTES)
        except OSError as error:
            if error.errno in FULL:
                raise DiskFull(error.strerror) from error
        finally:
            os.close(file)

    def release(self) -> None:
        """Frees the disk space that was reserved for the last lines."""
        with contextlib.suppress(FileNotFoundError):
            os.unlink(RESERVE, dir_fd=self.descriptor)

    def say(self, key: str, value: str) -> None:
        """Writes a line of `meta`. Uses the reserved disk space if the disk is full."""
        line = f"{key} {' '.join(value.splitlines())}\n".encode(errors="surrogateescape")
        try:
            append(self.meta, line)
        except DiskFull:
            self.release()
            append(self.meta, line)

    def write_formats(self, machine: Machine, events: list[str]) -> None:
        """Stores the kernel's format of ring-buffer pages and the formats of `events`, and sets the
        page size.
        """
        header = read_file(f"{machine.tracing}/events/header_page")
        parts = [b"== header_page\n" + header]
        for event in [*events, "ftrace/print"]:
            parts.append(
                b"== %s\n%s"
                % (event.encode(), read_file(f"{machine.tracing}/events/{event}/format"))
            )
        self.write_whole(layout.FORMATS, b"".join(parts))
        self.page_bytes = page_bytes(header)

    def write_whole(self, name: str, data: bytes) -> None:
        """Creates the file `name` in the folder with the contents `data`."""
        file = self.made(name)
        try:
            append(file, data)
        finally:
            os.close(file)

    def open_raw(self, processors: int) -> None:
        """Creates a file for the pages of each processor. In a compressed recording, this file is
        the first part.
        """
        for processor in range(processors):
            if self.compressor:
                self.begin_part(processor)
            else:
                self.raw[processor] = self.made(layout.raw_name(processor))

    def begin_part(self, processor: int) -> None:
        """Starts a new part for the pages of `processor`. The previous part is then complete."""
        if processor in self.raw:
            os.close(self.raw.pop(processor))
        part = self.parts.get(processor, 0)
        self.raw[processor] = self.made(layout.part_name(processor, part))
        self.parts[processor], self.part_bytes[processor] = part + 1, 0

    def finish_compressing(self) -> tuple[float, bool] | None:
        """Waits until all parts are compressed. Returns the processor time (s) of compressing, and
        whether all parts were compressed. Returns None if the recording isn't compressed.
        """
        compressor, self.compressor = self.compressor, None
        return compressor.finish() if compressor else None

    def append_pages(self, processor: int, pages: bytes) -> None:
        """Appends pages to a processor's file. If the disk is full, truncates the file after the
        last complete page, and raises DiskFull.
        """
        if self.compressor and self.part_bytes[processor] >= PART_BYTES:
            self.begin_part(processor)
        file = self.raw[processor]
        try:
            append(file, pages)
        except DiskFull:
            os.ftruncate(file, os.fstat(file).st_size // self.page_bytes * self.page_bytes)
            raise
        self.bytes += len(pages)
        if self.compressor:
            self.part_bytes[processor] += len(pages)

    def append_pressure(self, text: bytes) -> None:
        """Appends a reading of the pressure files to the recording."""
        append(self.pressure, text)

    def write_below(self, name: str, data: bytes) -> None:
        """Creates a file with the contents `data`. `name` may contain folders, which are then
        created too.
        """
        *folders, last = name.split("/")
        at = os.dup(self.descriptor)
        try:
            for folder in folders:
                above = at
                with contextlib.suppress(FileExistsError):
                    os.mkdir(folder, FOLDER_MODE, dir_fd=above)
                at = os.open(folder, FOLDER_FLAGS, dir_fd=above)
                os.close(above)
            file = os.open(last, NEW_FILE_FLAGS, FILE_MODE, dir_fd=at)
        finally:
            os.close(at)
        try:
            append(file, data)
        finally:
            os.close(file)

    def discard(self) -> None:
        """Removes the folder, because nothing was recorded. If another folder has replaced it at
        the path, that other folder stays.
        """
        self.finish_compressing()
        remove_all(self.descriptor)
        mine = os.fstat(self.descriptor)
        os.close(self.descriptor)
        with contextlib.suppress(FileNotFoundError):
            if os.path.samestat(mine, os.lstat(self.path)):
                os.rmdir(self.path)

    def close_files(self) -> None:
        """Waits until all parts are compressed, and closes all files of the recording."""
        self.finish_compressing()
        self.release()
        for file in [self.meta, self.pressure, *self.raw.values()]:
            os.close(file)
        self.raw.clear()

    def close(self) -> None:
        """Closes all files and the folder."""
        self.close_files()
        os.close(self.descriptor)


def page_bytes(header: bytes) -> int:
    """Returns the size (bytes) of a ring-buffer page: the offset plus the size of the field `data`
    in `header`, which is the contents of `events/header_page`.
    """
    for line in header.splitlines():
        words = {
            key: value for key, _, value in (it.strip().partition(b":") for it in line.split(b";"))
        }
        if words.get(b"field", b"").endswith(b" data"):
            return int(words[b"offset"]) + int(words[b"size"])
    return PAGE_BYTES
