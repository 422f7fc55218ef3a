"""Selects the part of a recording to convert: a time window, or the longest part of it without
losses.
"""
from __future__ import annotations

from collections import Counter
from collections.abc import Iterable
from typing import NamedTuple

from .events import NEVER, Gap
from psicli.times import seconds_to_ms


class Window(NamedTuple):
    """A window of time, in ns of the recording's clock. It includes both ends."""

    start: int
    end: int

    def length(self) -> int:
        """Returns the window's length (ns)."""
        return self.end - self.start


def overlapping(gaps: Iterable[Gap], window: Window) -> list[Gap]:
    """Returns the gaps that overlap the window. A gap extends from the last event before a loss to
    the first event after it.
    """
    return [gap for gap in gaps if gap.end > window.start and gap.start < window.end]


def longest_stretch(gaps: Iterable[Gap], window: Window) -> Window:
    """Returns the longest part of the window in which no processor lost events. If several parts
    have this length, returns the first of them.
    """
    best, start = Window(window.start, window.start), window.start
    for gap in sorted(gaps, key=lambda it: it.start):
        stretch = Window(start, min(max(gap.start, start), window.end))
        if stretch.length() > best.length():
            best = stretch
        start = min(max(start, gap.end), window.end)
    last = Window(start, window.end)
    return last if last.length() > best.length() else best


def loss_text(gaps: Iterable[Gap], whole: Window) -> str:
    """Returns a text that says how many events each processor lost, and when (s since the start of
    `whole`).
    """
    gaps = list(gaps)
    lost = Counter({gap.processor: 0 for gap in gaps})
    for gap in gaps:
        lost[gap.processor] += gap.lost
    counts = ", ".join(
        f"cpu {processor}: {lost[processor] or 'unknown'}" for processor in sorted(lost)
    )
    first = max(min(gap.start for gap in gaps), whole.start) - whole.start
    last = (
        max(whole.end if gap.end == NEVER else min(gap.end, whole.end) for gap in gaps)
        - whole.start
    )
    return f"{counts} events, between {seconds_to_ms(first)} s and {seconds_to_ms(last)} s"
