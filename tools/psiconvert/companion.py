"""Creates the companion file of a converted trace. It contains the names of tasks and containers,
and the time of day at the start.
"""
from __future__ import annotations

from typing import NamedTuple

from psicli.times import WallTime
from psinames.companion import Companion
from psinames.lives import Life
from psiread.source import Source
from psiread.window import Window

from .convert import Converted


class Written(NamedTuple):
    """A trace that was written: its size (bytes) and its SHA-256."""

    size: int
    digest: str


def companion(
    source: Source, converted: Converted, window: Window, written: Written, has_names: bool
) -> Companion:
    """Returns the companion of a trace, with or without names."""
    length = converted.world.now
    known = Companion(written.size, written.digest, length, begins=converted.begins)
    if source.realtime is not None:
        known.start = WallTime(window.start - converted.begins + source.realtime, source.ahead)
    clocks = converted.world.clocks
    if has_names:
        known.containers = source.containers
        known.busy = clocks.finish(length) if clocks else []
        known.window = clocks.length if clocks else 0
        whole = [it for it in converted.world.lives if it.first <= length]
        known.tasks = whole if converted.folded is None else busiest_lives(known)
    return known


def busiest_lives(known: Companion) -> list[Life]:
    """Returns an entry for each process that is among the busiest of some window. Its task label is
    0, since a folded trace doesn't contain the recorded tasks.
    """
    lives: dict[int, Life] = {}
    for busy in known.busy:
        since = busy.window * known.window
        for process in busy.processes:
            life = lives.get(process.number)
            if life is None:
                life = lives[process.number] = Life(0, since, process.number, process.number)
            life.last = min(since + known.window, known.length)
            if process.name:
                life.rename(since, process.name)
    return sorted(lives.values(), key=lambda it: (it.first, it.task))
