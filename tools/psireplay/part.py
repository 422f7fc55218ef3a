"""Selects the part of a trace whose kills a tool shows, and the clock by which their times are
printed.
"""
from __future__ import annotations

import contextlib
from collections.abc import Iterable, Iterator, Mapping
from typing import Any, Optional, Protocol, TypeVar

from psicli.times import Shown, time_text
from psinames.known import Span, known_of, must_fit, span_in

from .trace import end_of

# The names of the options of `add_times` that select a part.
SELECTING = ("start", "end", "at", "window")


class Timed(Protocol):
    """Anything that has a time in a trace (ns)."""

    @property
    def time_ns(self) -> int: ...


Event = TypeVar("Event", bound=Timed)


def part_of(
    trace: str, values: Mapping[str, Any], length: Optional[int] = None
) -> Optional[Span]:
    """Returns the part that the options of `add_times` select, or None if they select none.
    `length` is the trace's length (ns), if it can't be read from the trace's file.
    """
    must_fit(values)
    if all(values[name] is None for name in SELECTING):
        return None
    wall = known_of(trace, values).wall
    return span_in(values, wall, end_of(trace) if length is None else length)


def within(found: Iterable[Event], part: Optional[Span]) -> list[Event]:
    """Returns the events in a part, including those at its ends. Returns all events if the part is
    None.
    """
    return [it for it in found if part is None or part.start <= it.time_ns <= part.end]


def part_text(part: Optional[Span]) -> str:
    """Returns a text, to be appended to a sentence, that says which part is shown. The text is
    empty for the whole trace.
    """
    return f" from {time_text(part.start)} to {time_text(part.end)}" if part else ""


def show_clock(trace: str, values: Mapping[str, Any]) -> None:
    """Makes tools print times of a trace also as times of day, if the time of day at its start is
    known.
    """
    Shown.wall = known_of(trace, values).wall


@contextlib.contextmanager
def clock_of(trace: str, values: Mapping[str, Any]) -> Iterator[None]:
    """A context in which times of a trace are also printed as times of day."""
    before = Shown.wall
    show_clock(trace, values)
    try:
        yield
    finally:
        Shown.wall = before
