"""Matches control-group paths against oomd's patterns. oomd passes each pattern to glob(3) with
GLOB_BRACE, relative to the mount point of the cgroup file system.
"""
from __future__ import annotations

import re
from collections.abc import Iterable

ROOT = "/"
MAGIC = re.compile(r"[*?\[]")
NOTHING = re.compile("(?!)")


def split(text: str, mark: str) -> list[str]:
    """Splits a text at `mark`. Returns the parts that aren't empty."""
    return [it for it in text.split(mark) if it]


def closing_brace(text: str, start: int) -> int | None:
    """Returns the index of the brace that closes the opening brace right before `start`. Returns
    None if no brace closes it.
    """
    depth, at = 0, start
    while at < len(text):
        if text[at] == "\\":
            at += 2
            continue
        if text[at] == "}":
            if depth == 0:
                return at
            depth -= 1
        elif text[at] == "{":
            depth += 1
        at += 1
    return None


def without_braces(text: str) -> str:
    """Returns the pattern without its braces. oomd splits the patterns at commas first, so each
    pair of braces contains a single alternative.
    """
    found = re.match(r"(?:[^\\{]|\\.)*", text, re.DOTALL)
    start = found.end() if found else 0
    if start >= len(text) or text[start] != "{":
        return text
    end = closing_brace(text, start + 1)
    if end is None:
        return text
    return without_braces(text[:start] + text[start + 1 : end] + text[end + 1 :])


def bracket(text: str, at: int) -> tuple[str, int] | None:
    """Converts the bracket expression at the index `at` to a regular expression. Returns it with
    the index after the expression, or None if the bracket isn't closed.
    """
    start = at + 1
    is_negated = text[start : start + 1] in ("!", "^")
    first = start + is_negated
    end = text.find("]", first + 1)
    if end < 0:
        return None
    inner = re.sub(r"\\(.)", r"\1", text[first:end])
    escaped = re.sub(r"([\\\[\]^&~|])", r"\\\1", inner)
    return f"[{'^' if is_negated else ''}{escaped}]", end + 1


def component(text: str) -> re.Pattern[str]:
    """Converts a path component to a regular expression. Only a literal dot matches a dot at the
    start of a name.
    """
    at, parts = 0, []
    while at < len(text):
        mark = text[at]
        found = bracket(text, at) if mark == "[" else None
        if found:
            parts.append(found[0])
            at = found[1]
            continue
        if mark == "\\" and at + 1 < len(text):
            at += 1
            parts.append(re.escape(text[at]))
        else:
            parts.append({"*": ".*", "?": "."}.get(mark, re.escape(mark)))
        at += 1
    guard = r"(?!\.)" if MAGIC.match(text) else ""
    try:
        return re.compile(guard + "".join(parts), re.DOTALL)
    except re.error:
        return NOTHING


class Patterns:
    """The patterns in the argument `cgroup` of a plugin."""

    def __init__(self, text: str) -> None:
        self.text = text
        joined = ["/".join(split(it, "/")) for it in split(text, ",")]
        self.ways = [[component(part) for part in split(without_braces(it), "/")] for it in joined]

    def matches(self, path: str) -> bool:
        """Returns whether a group's path matches one of the patterns."""
        names = split(path, "/")
        return any(
            len(way) == len(names) and all(part.fullmatch(name) for part, name in zip(way, names))
            for way in self.ways
        )

    def among(self, paths: Iterable[str]) -> list[str]:
        """Returns the matching paths, in the order of `paths`."""
        return [it for it in paths if self.matches(it)]
