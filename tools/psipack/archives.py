"""Writes reproducible archives: equal contents give equal bytes. Members are sorted by name, owned
by root, and all have the same time.
"""
from __future__ import annotations

import gzip
import io
import lzma
import os
import tarfile

from .tree import Member

# The format of a member's header in an ar archive: name, time, owner, group, mode and size (ar(5)).
AR_HEAD = "{name:<16}{time:<12}{owner:<6}{group:<6}{mode:<8}{size:<10}`\n"


def folders_of(paths: list[str]) -> list[str]:
    """Returns all folders that contain these paths, each after its parent."""
    found = {""}
    for path in paths:
        while path := os.path.dirname(path):
            found.add(path)
    return sorted(found - {"", "."})


def tar_of(members: list[Member], top: str, seconds: int) -> bytes:
    """Returns a tar archive with these members below the folder `top`. The time of each member is
    `seconds` (since 1970).
    """
    placed = {f"{top}/{member.path}": member for member in members}
    rows: list[tuple[str, Member | None]] = [(path, None) for path in folders_of(list(placed))]
    output = io.BytesIO()
    with tarfile.open(fileobj=output, mode="w", format=tarfile.GNU_FORMAT) as archive:
        for path, member in sorted([*rows, *placed.items()], key=lambda row: row[0]):
            info = tarfile.TarInfo(path)
            info.mtime, info.uname, info.gname = seconds, "root", "root"
            if member is None:
                info.type, info.mode = tarfile.DIRTYPE, 0o755
            elif member.target:
                info.type, info.mode, info.linkname = tarfile.SYMTYPE, 0o777, member.target
            else:
                info.size, info.mode = len(member.data), member.mode
            archive.addfile(info, io.BytesIO(member.data if member and not member.target else b""))
    return output.getvalue()


def gzipped(data: bytes, seconds: int) -> bytes:
    """Compresses bytes with gzip. The header has the time `seconds` (since 1970), and no file name.
    """
    output = io.BytesIO()
    with gzip.GzipFile(
        filename="", mode="wb", compresslevel=9, fileobj=output, mtime=seconds
    ) as stream:
        stream.write(data)
    return output.getvalue()


def xz_of(data: bytes) -> bytes:
    """Compresses bytes with xz, with options that dpkg accepts."""
    return lzma.compress(data, preset=6)


def ar_of(members: dict[str, bytes], seconds: int) -> bytes:
    """Returns an ar archive, the format of a Debian package (deb(5))."""
    parts = [b"!<arch>\n"]
    for name, data in members.items():
        head = AR_HEAD.format(
            name=name, time=seconds, owner=0, group=0, mode="100644", size=len(data)
        )
        parts += [head.encode(), data, b"\n" * (len(data) % 2)]
    return b"".join(parts)
