"""Formats counts, names and lists for messages."""
from __future__ import annotations

import difflib

# The largest number of groups that a message lists.
NAMED = 8


def counted(number: int, what: str) -> str:
    """Returns a count with its noun: `no kill`, `1 kill`, `2 kills`."""
    return f"{number or 'no'} {what}{'' if number == 1 else 's'}"


def quoted(text: str) -> str:
    """Quotes a text for a message. Unprintable characters are escaped, so the result is a single
    line.
    """
    plain = text.replace("\\", "\\\\").replace("'", "\\'")
    shown = (
        it if it.isprintable() else it.encode("unicode_escape", "surrogatepass").decode()
        for it in plain
    )
    return f"'{''.join(shown)}'"


def listed(names: list[str], last: str = "and") -> str:
    """Joins names into a list: `a, b and c`."""
    return f" {last} ".join(filter(None, [", ".join(names[:-1]), *names[-1:]]))


def suggested(word: str, names: list[str]) -> str:
    """Returns the known names that are most similar to a mistyped name, as a list for a message. If
    none is similar, returns the first known names.
    """
    near = difflib.get_close_matches(word, [it for it in names if it != "/"], NAMED)
    near = near or [it for it in names if it.endswith(f"/{word.strip('/')}")] or names[:NAMED]
    return f"{', '.join(near[:NAMED])}{'' if len(near) == len(names) else ', ..'}"
