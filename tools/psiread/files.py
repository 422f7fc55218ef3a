"""Opens the files in a recording's folder. Only regular files are opened, since a device or a FIFO
could block or never end. The decompressed size of a processor's pages is limited, so that a damaged
file can't fill the memory.
"""
from __future__ import annotations

import gzip
import os
import stat
import zlib
from typing import IO

from psirec.layout import PACKED, part_name, raw_name

from .source import Unreadable

# The limit of decompressed bytes per part if `meta` has no count of bytes, because the recorder was
# killed. The limit is eight times the size of a part.
MOST_PART_BYTES = 64 << 20
PIECE = 8 << 20


def open_regular(path: str) -> IO[bytes]:
    """Opens a regular file for reading. Raises Unreadable if the file isn't a regular file."""
    file = os.open(path, os.O_RDONLY | os.O_NONBLOCK | os.O_CLOEXEC)
    if not stat.S_ISREG(os.fstat(file).st_mode):
        os.close(file)
        raise Unreadable(f"{os.path.basename(path)}: it isn't a regular file")
    return os.fdopen(file, "rb")


def bytes_of(folder: str, name: str) -> bytes:
    """Returns the bytes of a file in the folder."""
    try:
        with open_regular(os.path.join(folder, name)) as file:
            return file.read()
    except OSError as fault:
        raise Unreadable(f"{name}: {fault.strerror}") from None


def text_of(folder: str, name: str) -> str:
    """Returns a file's text. Bytes that aren't UTF-8 become surrogates, so that no byte is lost."""
    return bytes_of(folder, name).decode("utf-8", "surrogateescape")


class Raw:
    """Reads a processor's pages, which are in one file or in several consecutive parts. If the
    parts are compressed, raises Unreadable after more than `most` decompressed bytes. `count` is
    the number of bytes that were read.
    """

    def __init__(self, folder: str, processor: int, most: int | None) -> None:
        self.name = raw_name(processor)
        self.names = parts_of(folder, processor) or [os.path.join(folder, self.name)]
        self.most = most if most is not None else MOST_PART_BYTES * len(self.names)
        self.count = 0
        try:
            self.file = open_part(self.names[0])
        except OSError as fault:
            raise Unreadable(f"{self.name}: {fault.strerror}") from None

    def read(self, size: int) -> bytes:
        """Returns the next `size` bytes, or fewer at the end."""
        try:
            data = bytearray(self.file.read(size))
            while self.names[1:] and len(data) < size:
                self.file.close()
                self.names = self.names[1:]
                self.file = open_part(self.names[0])
                data += self.file.read(size - len(data))
        except (OSError, EOFError, zlib.error) as fault:
            raise Unreadable(f"{self.name}: {getattr(fault, 'strerror', None) or fault}") from None
        self.count += len(data)
        if self.count > self.most and self.names[0].endswith(PACKED):
            raise Unreadable(
                f"{self.name}: unpacked it has more than {self.most} bytes, which is more than the"
                " recorder wrote"
            )
        return bytes(data)

    def read_all(self) -> bytes:
        """Returns all remaining bytes."""
        pieces = []
        while piece := self.read(PIECE):
            pieces.append(piece)
        return b"".join(pieces)


def parts_of(folder: str, processor: int) -> list[str]:
    """Returns the paths of a processor's parts, in order. A part may exist both plain and
    compressed, if the recorder was interrupted while it compressed the part. In this case the plain
    file is used.
    """
    names = set(os.listdir(folder))
    parts: list[str] = []
    while (
        found := {part_name(processor, len(parts)), part_name(processor, len(parts)) + PACKED}
        & names
    ):
        parts.append(os.path.join(folder, min(found)))
    return parts


def open_part(name: str) -> IO[bytes]:
    """Opens a part for reading. A compressed part is decompressed on the fly."""
    file = open_regular(name)
    if name.endswith(PACKED):
        return gzip.GzipFile(fileobj=file)  # type: ignore[return-value]
    return file
