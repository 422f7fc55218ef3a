"""Parsers for command-line arguments. Each parses the text of one argument, and raises Malformed if
the text is invalid.
"""
from __future__ import annotations

import re
from collections.abc import Callable

from .fault import Malformed
from .times import MINUTE, SECOND, WallTime, ns_of, wall_time


def whole_number(least: int, most: int) -> Callable[[str], int]:
    """Returns a parser for whole numbers from `least` to `most`, both inclusive."""

    def read(word: str) -> int:
        if not re.fullmatch("0|[1-9][0-9]{0,8}", word) or not least <= int(word) <= most:
            raise Malformed(f"{word} isn't a whole number from {least} to {most}")
        return int(word)

    return read


def decimal(word: str) -> float:
    """Parses a number of at least 0, with or without decimals."""
    if not re.fullmatch(r"[0-9]{1,9}(\.[0-9]{1,9})?", word):
        raise Malformed(f"{word} isn't a number of at least 0")
    return float(word)


def nanoseconds(word: str) -> int:
    """Parses a number of seconds with at most nine decimals. Returns ns."""
    if not re.fullmatch(r"[0-9]{1,9}(\.[0-9]{1,9})?", word):
        raise Malformed(f"{word} isn't a number of seconds with at most nine decimals")
    return ns_of(word)


def length(word: str) -> int:
    """Parses a duration in whole seconds or minutes, such as `720` or `12min`. Returns ns."""
    found = re.fullmatch(r"([1-9][0-9]{0,5})(s|min)?", word)
    if not found:
        raise Malformed(f"{word} isn't a length of time such as 720 or 12min")
    return int(found[1]) * (MINUTE if found[2] == "min" else SECOND)


def point(word: str) -> int | WallTime:
    """Parses a time: either seconds since the start of a trace, which are returned in ns, or a time
    of day with a time zone.
    """
    if "T" in word:
        return wall_time(word)
    try:
        return nanoseconds(word)
    except Malformed as fault:
        raise Malformed(f"{fault}, nor a time such as 2026-11-28T13:58:12Z") from None
