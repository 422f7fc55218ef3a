"""Recognizes what kind of file an operator passed, so that a message can name the kind and give
advice.
"""
from __future__ import annotations

import os
import re
from typing import Callable, NamedTuple, Optional

from psirec.meta import is_recording

# The number of bytes, from the start of a file, by which its kind is recognized.
HEAD = 4096
TRACE, RULES, REPLAY, JSON = (
    "a trace",
    "a rules file",
    "the output of replay",
    "JSON, like a rules file",
)


class Kind(NamedTuple):
    """A kind of file, and advice on how to use such a file. In the advice, `{name}` is a
    placeholder for the file's name.
    """

    what: str
    advice: str = ""


def starts(*prefixes: bytes) -> Callable[[bytes], bool]:
    return lambda head: head.startswith(prefixes)


def has(pattern: bytes) -> Callable[[bytes], bool]:
    return lambda head: re.match(pattern, head) is not None


# Each test of a file's first bytes, with the kind of file that it recognizes. The first successful
# test counts.
KINDS: tuple[tuple[Callable[[bytes], bool], Kind], ...] = (
    (lambda head: not head, Kind("empty")),
    (starts(b"\x1f\x8b"), Kind("compressed by gzip", "`gunzip -c {name}` prints its content")),
    (starts(b"\xfd7zXZ\0"), Kind("compressed by xz", "`xz -dc {name}` prints its content")),
    (starts(b"\x28\xb5\x2f\xfd"), Kind("compressed by zstd",
    "`zstd -dc {name}` prints its content")),
    (starts(b"BZh"), Kind("compressed by bzip2", "`bzip2 -dc {name}` prints its content")),
    (starts(b"\x17\x08\x44tracing"), Kind(
        "trace-cmd's binary format",
        "`trace-cmd report -N {name}` prints text that `psi_oomd import` reads")),
    (has(rb"\s*[\[{]"), Kind(JSON)),
    (has(rb"[^\n]*\r\n"), Kind("a text whose lines end in CR LF",
    "`tr -d '\\r' < {name}` removes each CR")),
    (has(rb"psitrace [0-9]"), Kind(TRACE)),
    (has(rb"(report|event|kill|live|end) [0-9]"), Kind(REPLAY, "give the trace that was replayed")),
    (has(rb"# tracer:|cpus=[0-9]+\n|version = [0-9]+\n"), Kind(
        "text of ftrace", "`psi_oomd import {name} --cpus N` converts it to a trace")),
)  # fmt: skip


def kind_of(head: bytes) -> Optional[Kind]:
    """Returns the kind of a file that begins with `head`. Returns None if the kind isn't known."""
    return next((kind for test, kind in KINDS if test(head)), None)


def file_kind(path: str) -> Optional[Kind]:
    """Returns the kind of a regular file. Returns None if the kind isn't known, or if the file
    isn't regular: a pipe, for example, can't be read twice.
    """
    if not os.path.isfile(path):
        return None
    try:
        with open(path, "rb") as file:
            return kind_of(file.read(HEAD))
    except OSError:
        return None


def kind_message(kind: Optional[Kind], expected: str, name: str) -> str:
    """Returns the part of a message that says what kind of file was passed instead of the kind
    `expected`. The text is empty if the file's kind isn't known or is the expected one.
    """
    if not kind or (kind.what, expected) in ((expected, expected), (JSON, RULES)):
        return ""
    advice = kind.advice.format(name=name)
    if (kind.what, expected) == (TRACE, REPLAY):
        advice = f"`psi_oomd replay {name}` prints what this tool reads"
    elif kind.what == REPLAY and expected != TRACE:
        advice = ""
    return f"it is {kind.what}, not {expected}" + (f": {advice}" if advice else "")


def what_it_is(path: str, expected: str, name: Optional[str] = None) -> str:
    """Returns the part of a message that says what kind of file `path` is, instead of the kind
    `expected`. The text is empty if the file's kind isn't known. `name` is the file's name in
    messages, if that differs from the path.
    """
    return kind_message(file_kind(path), expected, path if name is None else name)


def why_refused(said: str, path: str, name: Optional[str] = None) -> str:
    """Returns the message `said`, in which the program rejected a trace or rules. If it rejected a
    trace's first line, or rules that aren't JSON, appends what kind of file it is.
    """
    expected = (
        TRACE if said.startswith("trace line 1: ") else RULES if said.endswith("BadJson") else ""
    )
    found = what_it_is(path, expected, name) if expected else ""
    return f"{said}: {found}" if found else said


def folder_message(name: str) -> str:
    """Returns the message for a folder in place of a trace."""
    if is_recording(name):
        return f"{name} is a recording: `tools/psitrace {name}` makes a trace of it"
    return f"{name} is a folder"
