"""Compresses the pages of a long recording while it is written, in a separate process with the
lowest priority.

The recorder writes pages in parts, and the compressor replaces each complete part by a gzip file.
If the machine is too busy for that, the recording temporarily needs more disk space, but nothing is
late or lost. If the recorder is killed, the parts that aren't compressed yet are still readable.
"""
from __future__ import annotations

import contextlib
import gzip
import os
import re
import select
import shutil
import signal
from collections.abc import Callable, Iterator

from psirec.layout import PACKED

from .waiting import ENDING

# The compression level, from 1 to 9. Level 1 saves the most bytes per second of processor time.
LEVEL = 1
LEAST_PRIORITY = 19
# The time (s) between two searches for complete parts.
PERIOD = 1.0
PART = re.compile(r"cpu(\d+)\.(\d+)\.raw")
UNFINISHED = ".part"


class Compressor:
    """A child process that compresses the complete parts of a recording. `folder` is the descriptor
    of the recording's folder.
    """

    def __init__(self, folder: int) -> None:
        reader, self.writer = os.pipe2(os.O_CLOEXEC)
        self.number = os.fork()
        if not self.number:
            status = 1
            with contextlib.suppress(BaseException):
                serve(folder, reader)
                status = 0
            os._exit(status)
        os.close(reader)

    def finish(self) -> tuple[float, bool]:
        """Waits until all parts are compressed. Returns the total processor time (s) of the
        process, and whether all parts were compressed.
        """
        os.close(self.writer)
        _, status, usage = os.wait4(self.number, 0)
        return usage.ru_utime + usage.ru_stime, status == 0


def serve(folder: int, line: int) -> None:
    """Compresses complete parts in the open folder `folder` until the other end of the pipe `line`
    is closed, and then the remaining parts. Ignores the signals that end a recording, since the
    recorder handles these signals. Closes all files that were inherited from the recorder.
    """
    for number in ENDING:
        signal.signal(number, signal.SIG_IGN)
    first, second = sorted((folder, line))
    os.closerange(3, first)
    os.closerange(first + 1, second)
    os.closerange(second + 1, 4096)
    with contextlib.suppress(OSError):
        os.setpriority(os.PRIO_PROCESS, 0, LEAST_PRIORITY)
        os.sched_setscheduler(0, os.SCHED_IDLE, os.sched_param(0))
    is_ended = False
    while not is_ended:
        is_ended = bool(select.select([line], [], [], PERIOD)[0])
        for name in whole_parts(folder, is_ended):
            compress(folder, name)


def whole_parts(folder: int, is_ended: bool) -> Iterator[str]:
    """Yields the names of the complete parts. For each processor these are all parts except the
    last one, or all parts if `is_ended`.
    """
    parts = sorted(
        (int(it[1]), int(it[2]), it[0]) for it in map(PART.fullmatch, os.listdir(folder)) if it
    )
    for place, (processor, _, name) in enumerate(parts):
        if is_ended or (place + 1 < len(parts) and parts[place + 1][0] == processor):
            yield name


def opener_in(folder: int) -> Callable[[str, int], int]:
    """Returns an `opener` for the function `open`, which opens names in the open folder `folder`.
    The opener doesn't follow links, and gives new files the mode 0600.
    """
    return lambda name, flags: os.open(
        name, flags | os.O_NOFOLLOW | os.O_CLOEXEC, 0o600, dir_fd=folder
    )


def compress(folder: int, name: str) -> None:
    """Compresses the file `name` of an open folder. The file is removed when its gzip file is
    complete.
    """
    unfinished = name + PACKED + UNFINISHED
    opener = opener_in(folder)
    with open(name, "rb", opener=opener) as source, open(unfinished, "xb", opener=opener) as target:
        with gzip.GzipFile("", "wb", LEVEL, target) as packed:
            shutil.copyfileobj(source, packed, 1 << 20)
    os.rename(unfinished, name + PACKED, src_dir_fd=folder, dst_dir_fd=folder)
    os.unlink(name, dir_fd=folder)
