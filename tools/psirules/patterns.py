"""Matches patterns of groups' paths in rules files. A pattern has components separated by `/`, in
which `*` matches any string.
"""
import re

COMPONENT = r"[A-Za-z0-9_.@:\\*-]+"
PATTERN = re.compile(rf"/|/?{COMPONENT}(?:/{COMPONENT})*")


def is_pattern(text: str) -> bool:
    """Whether `text` is a pattern that can match a path: its components contain only the characters
    of paths and `*`, and no component is `.` or `..`.
    """
    return bool(PATTERN.fullmatch(text)) and not {".", ".."} & set(text.split("/"))


def matches(pattern: str, path: str) -> bool:
    """Whether `pattern` matches `path`: they have the same number of components, and each component
    matches.
    """
    wanted, found = ([it for it in text.split("/") if it] for text in (pattern, path))
    return len(wanted) == len(found) and all(
        re.fullmatch(".*".join(map(re.escape, one.split("*"))), other)
        for one, other in zip(wanted, found)
    )
