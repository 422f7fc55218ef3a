"""Computes, from memory samples, how much the memory of groups grew and how many pages were scanned
for each group.
"""
from __future__ import annotations

from typing import NamedTuple


class Growth(NamedTuple):
    """The growth (bytes) of a group's memory in a time span, and the increase of its count of
    scanned pages. The growth is the highest sample in the time span minus the last sample before
    the time span. Without an earlier sample, the first sample in the time span is subtracted.
    """

    grown: int
    scanned: int


class Samples:
    """The memory samples of the current time span, keyed by the group's number. The last sample
    before the time span counts as its first sample: it is the group's memory at the start.
    """

    def __init__(self) -> None:
        self.first: dict[int, int] = {}
        self.highest: dict[int, int] = {}
        self.last: dict[int, tuple[int, int]] = {}
        self.scanned: dict[int, int] = {}

    def take(self, group: int, current: int, pages: int) -> None:
        """Adds a sample of a group: the bytes in use, and the count of scanned pages."""
        if group in self.last:
            self.scanned[group] += max(0, pages - self.last[group][1])
            self.highest[group] = max(self.highest[group], current)
        else:
            self.first[group] = self.highest[group] = current
            self.scanned[group] = 0
        self.last[group] = current, pages

    def taken(self) -> dict[int, Growth]:
        """Returns the growth of each group in the current time span, and starts a new time span."""
        found = {
            group: Growth(self.highest[group] - self.first[group], self.scanned[group])
            for group in self.last
        }
        self.first = {group: current for group, (current, _) in self.last.items()}
        self.highest = dict(self.first)
        self.scanned = dict.fromkeys(self.last, 0)
        return found
