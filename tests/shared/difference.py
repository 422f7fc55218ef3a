"""Shows the difference of two values as a unified diff."""
from __future__ import annotations

import difflib
import pprint
from collections.abc import Mapping, Sequence

# Longer lines are wrapped at this column, so that a difference in the middle of a long line is
# visible.
COLUMNS = 160
# The largest number of lines in a difference. A longer one is cut in the middle.
MOST_LINES = 80


def wrapped(line: str) -> list[str]:
    """Splits a line into pieces of at most COLUMNS characters."""
    return [line[at : at + COLUMNS] for at in range(0, len(line), COLUMNS)] or [""]


def text_lines(text: str) -> list[str]:
    """Returns the lines of a text, with control characters escaped."""
    lines = text.split("\n")
    ends = lines.pop() == ""
    shown = [
        line if line.isprintable() else line.encode("unicode_escape").decode() for line in lines
    ]
    return (
        [piece for line in shown for piece in wrapped(line)]
        if ends
        else [*text_lines(text + "\n"), "(no newline at the end)"]
    )


def lines_of(value: object) -> list[str]:
    """Returns a value as a list of lines. For a text these are its lines, and for a sequence or
    mapping the lines of all items.
    """
    if isinstance(value, (bytes, bytearray)):
        return lines_of(value.decode("utf-8", "backslashreplace"))
    if isinstance(value, str):
        return text_lines(value) if "\n" in value or len(value) > COLUMNS else [repr(value)]
    if isinstance(value, Mapping):
        return [line for key, item in value.items() for line in item_lines(repr(key), item)]
    if isinstance(value, Sequence) and not hasattr(value, "_fields"):
        return [line for item in value for line in item_lines("", item)]
    return [
        piece
        for line in pprint.pformat(value, width=COLUMNS).splitlines()
        for piece in wrapped(line)
    ]


def item_lines(name: str, item: object) -> list[str]:
    """Returns the lines of an item. If `name` isn't empty, the name precedes the first line."""
    lines = lines_of(item) if isinstance(item, (str, bytes)) else [repr(item)]
    lines = [piece for line in lines for piece in wrapped(line)]
    head = f"{name}: " if name else ""
    return [head + lines[0], *lines[1:]] if lines else [head]


def cut(lines: list[str]) -> list[str]:
    """Returns the lines. If there are more than MOST_LINES, one line with their number replaces the
    lines in the middle.
    """
    if len(lines) <= MOST_LINES:
        return lines
    half = MOST_LINES // 2
    return [
        *lines[:half],
        f".. {len(lines) - 2 * half:,} more lines of the difference ..",
        *lines[-half:],
    ]


def difference(expected: object, actual: object) -> str:
    """Returns a text that shows the difference of the actual and the expected value."""
    old, new = lines_of(expected), lines_of(actual)
    if len(old) <= 1 and len(new) <= 1 or old == new:
        return f"  expected: {expected!r}\n  actual:   {actual!r}"
    found = list(difflib.unified_diff(old, new, "expected", "actual", n=2, lineterm=""))
    return "\n".join(f"  {line}" for line in cut(found))
