"""Opens an existing recording, which is a folder, an archive, or a folder on another machine."""
from __future__ import annotations

import os
import re
import shlex
from collections.abc import Iterator

from psicli.fault import Fault
from psirec.layout import META
from psirec.meta import is_recording

from .steps import Steps

ARCHIVE = re.compile(r"\.(tar(\.(gz|xz|bz2|zst))?|tgz|txz)$")
REMOTE = re.compile(r"([^/:]+):(.+)")
# The number of levels of subfolders that are searched for a recording.
DEEPEST = 2


def remote_of(source: str) -> tuple[str, str] | None:
    """Parses HOST:FOLDER, and returns the host and the folder. Returns None if the text has another
    form, or if a file with this name exists.
    """
    found = REMOTE.fullmatch(source)
    return (found[1], found[2]) if found and not os.path.exists(source) else None


def recordings_in(folder: str, depth: int = 0) -> Iterator[str]:
    """Yields the recordings in a folder, or the folder itself if it is a recording. Doesn't follow
    links.
    """
    if is_recording(folder):
        yield folder
        return
    with os.scandir(folder) as entries:
        inner = (
            sorted(it.path for it in entries if it.is_dir(follow_symlinks=False))
            if depth < DEEPEST
            else []
        )
    for path in inner:
        yield from recordings_in(path, depth + 1)


def only_recording(folder: str, name: str) -> str:
    """Returns the only recording in a folder. Raises a Fault if there is none or more than one.
    `name` is used in messages.
    """
    found = list(recordings_in(folder))
    if not found:
        raise Fault(
            f"{name} has no recording: a folder with a file `{META}`, as tools/record writes it"
        )
    named = [os.path.relpath(it, folder) for it in found]
    if len(found) > 1:
        raise Fault(
            f"{name} has several recordings: name one of {', '.join(named)}"
        )
    return found[0]


def unpack(steps: Steps, archive: str, into: str) -> str:
    """Unpacks an archive into a folder, and returns the path of its recording."""
    steps.run(
        f"tar -C {shlex.quote(into)} --no-same-owner -xf {shlex.quote(archive)}",
        what=f"unpacking {archive}",
    )
    return only_recording(into, archive)


def is_archive(source: str) -> bool:
    return os.path.isfile(source) and ARCHIVE.search(source) is not None


def folder_of(source: str) -> str:
    """Returns the folder `source`. Raises a Fault if it isn't a recording."""
    if os.path.isdir(source):
        return only_recording(source, source)
    if os.path.isfile(source):
        raise Fault(
            f"{source} is neither a folder nor an archive:"
            " .tar, .tar.gz, .tar.xz, .tar.bz2 or .tar.zst"
        )
    raise Fault(f"no file: {source}")
