"""Escapes the names of tasks and containers. Users choose these names, so without escapes a name
could send control characters to a terminal.
"""
from __future__ import annotations

import re

ESCAPE = re.compile(r"\\x([0-9a-f]{2})")


def escaped(name: bytes) -> str:
    """Escapes a name. Each backslash, and each byte that isn't part of a printable character,
    becomes `\\xHH`. An escaped name can be printed unchanged.
    """
    text = name.decode("utf-8", "surrogateescape")
    return "".join(it if it.isprintable() and it != "\\" else escapes(it) for it in text)


def escapes(letter: str) -> str:
    """Returns an escape for each byte of a character."""
    return "".join(f"\\x{byte:02x}" for byte in letter.encode("utf-8", "surrogateescape"))


def is_escaped(text: str) -> bool:
    """Returns whether `text` is an escaped name. Such a name is printable, and each of its
    backslashes begins an escape.
    """
    return text.isprintable() and "\\" not in ESCAPE.sub("", text)
