"""Parses the file `meta` of a recording, for the recorder and for the tools that read recordings.
"""
from __future__ import annotations

import os
import re

from .layout import META, Key


class Lines:
    """The content of a file `meta`: the values of each key, in order."""

    def __init__(self, text: str) -> None:
        lines = [line.partition(" ") for line in text.splitlines() if line]
        self.values: dict[str, list[str]] = {}
        for key, _, value in lines:
            self.values.setdefault(key, []).append(value)
        self.last_key = lines[-1][0] if lines else ""

    def all(self, key: str) -> list[str]:
        """Returns all values of a key, in order."""
        return self.values.get(key, [])

    def one(self, key: str) -> str | None:
        """Returns the first value of a key, or None if the key is absent."""
        return next(iter(self.all(key)), None)

    def is_ring(self) -> bool:
        """Returns whether this recording was made by a flight recorder."""
        return Key.RING in self.values

    def lost(self, line: str) -> dict[int, int]:
        """Returns the number of lost events of each processor that lost any, from the lines of
        `stats` with the name `line`.
        """
        form = re.compile(rf"cpu([0-9]{{1,5}}) {line}: ([0-9]{{1,19}})")
        found = (form.fullmatch(it) for it in self.all(Key.STATS))
        return {int(it[1]): int(it[2]) for it in found if it and int(it[2])}


def is_recording(folder: str) -> bool:
    """Returns whether a folder is a recording: whether it has a file `meta`."""
    return os.path.isfile(os.path.join(folder, META))
