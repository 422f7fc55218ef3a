"""Recognizes what kind of file an operator passed, by its first bytes, to give advice if the file
isn't of the expected kind.
"""
from __future__ import annotations

import glob
import os
import re

from psirec.meta import is_recording

# The number of bytes, from the start of a file, that are needed to recognize its kind.
HEAD = 64
TRACE_HEADER = re.compile(rb"psitrace [0-9]+ cpus=")
# The first bytes of each kind of file, and a message that names the kind and gives advice.
KINDS = (
    (b"\x1f\x8b", "it is compressed by gzip: unpack it with gunzip -c"),
    (b"\xfd7zXZ\0", "it is compressed by xz: unpack it, an archive with tar xf"),
    (b"\x28\xb5\x2f\xfd", "it is compressed by zstd: unpack it with zstd -dc"),
    (b"\x17\x08Dtracing", "it is trace-cmd's binary file: trace-cmd report prints its text"),
    (b"PERFILE2", "it is perf's binary file: perf script prints its text"),
    (b"report ", "it is what psi_oomd replay printed, not a trace"),
    (b"kill ", "it is what psi_oomd replay printed, not a trace"),
    (b"event ", "it is what psi_oomd replay printed, not a trace"),
    (b"stall cpu=", "it is what psi_oomd stall printed, not a trace"),
    (b"# tracer:", "it is text of ftrace: tools/psitrace makes a trace of it"),
)  # fmt: skip
RULES = "it seems to be a rules file"


def kind_of(head: bytes) -> str | None:
    """Returns a message, with advice, about a file that begins with these bytes. Returns None if
    the file may be a trace, or if its kind isn't known.
    """
    if not head:
        return "it is empty"
    if TRACE_HEADER.match(head):
        line = head.split(b"\n")[0]
        return (
            "its lines end as on Windows: remove the carriage returns"
            if line.endswith(b"\r")
            else None
        )
    if head.startswith(b"{") and b"\0" not in head:
        return RULES
    return next((text for start, text in KINDS if head.startswith(start)), None)


def kind_of_file(name: str) -> str | None:
    """Returns a message, with advice, about the kind of a file or folder. Returns None if the kind
    isn't known, if the file can't be read, or if `name` is the standard input.
    """
    if os.path.isdir(name):
        return (
            "it is a recording: tools/psitrace makes a trace of it"
            if is_recording(name)
            else "it is a folder"
        )
    try:
        if not os.path.isfile(name):
            return None
        with open(name, "rb") as file:
            return kind_of(file.read(HEAD))
    except OSError:
        return None


def is_trace(name: str) -> bool:
    """Returns whether a file begins like a trace."""
    try:
        if not os.path.isfile(name):
            return False
        with open(name, "rb") as file:
            return TRACE_HEADER.match(file.read(HEAD)) is not None
    except OSError:
        return False


def recording_below(folder: str) -> str | None:
    """Returns the recording one or two levels below `folder`. Returns None unless there is exactly
    one.
    """
    found = [
        path
        for pattern in ("*", "*/*")
        for path in glob.glob(os.path.join(glob.escape(folder), pattern))
        if is_recording(path)
    ]
    return found[0] if len(found) == 1 else None
