"""Helpers for the checks of folding: they fold traces, compare replays, and make traces whose
groups and tasks all exist from start to end.
"""
from __future__ import annotations

import os
import random
from collections.abc import Sequence

from shared.machine import Machine
from harness import must, must_be
from shared.stored import run
from shared.traces import MS, Event, Maker

from psifold.fold import Fold  # noqa: E402
from psifold.victims import Victim  # noqa: E402


def folded(trace: str, window: int, victims: Sequence[Victim] = ()) -> tuple[str, Fold]:
    """Folds a trace into windows of `window` ns. Returns the folded trace and its Fold."""
    header, *lines = trace.splitlines()
    found = [header]
    fold = Fold(int(header.partition("cpus=")[2]), window, found.extend, victims)
    fold.take(lines)
    return "\n".join([*found, ""]), fold


def printed(program: str, trace: str, *words: str) -> bytes:
    """Returns the output of a psi_oomd command on a trace; the command must succeed."""
    done = run([program, words[0], "-", *words[1:]], trace.encode())
    must_be(f"the status of {' '.join(words)}, which said {done.said}", done.status, 0)
    return done.output


def must_replay_alike(
    what: str, program: str, trace: str, other: str, window: int, words: Sequence[str] = ()
) -> None:
    """Fails unless replays of both traces print the same bytes, for ticks of one, two and three
    windows. `window` is in ns.
    """
    for times in (1, 2, 3):
        if window * times <= 60_000 * MS:
            arguments = ("replay", f"--tick-ms={window * times // MS}", "--report-s=1", *words)
            must_print_alike(f"{what}, at {times} windows", printed(program, trace, *arguments),
                             printed(program, other, *arguments))


def must_print_alike(what: str, wanted: bytes, found: bytes) -> None:
    """Fails if the outputs differ, and shows the first line that differs."""
    for line, other in zip(wanted.splitlines(), found.splitlines()):
        must_be(what, other, line)
    must_be(f"{what}, how many lines", len(found.splitlines()), len(wanted.splitlines()))


class Settled(Maker):
    """Makes traces in which all groups and tasks exist from the start, so that no task is added to
    a victim later.
    """

    FIRST = {**Maker.FIRST, "fork": 0, "move": 0, "group": 0, "rmgroup": 0, "stall": 3, "side": 4}
    OFTEN = {1: FIRST, 2: {**FIRST, "irq": 4, "pressure": 3}}

    def __init__(self, seed: int, version: int) -> None:
        super().__init__(seed, version)
        self.tick = self.draw.choice((333, 1000, 2000)) * MS
        for path in self.PATHS:
            self.begin(("group", path))
        for _ in range(self.draw.randint(4, 20)):
            for event in self.some_fork():
                self.begin(event)

    def begin(self, event: Event) -> None:
        """Adds an event at time 0 to the trace."""
        self.machine.take(*event)
        self.lines.append(f"0 {' '.join(event)}")

    def some_side(self) -> list[Event]:
        (path,) = self.some(self.machine.live)
        size, swap, scanned = (str(self.draw.choice((0, 50, 4096, 9000))) for _ in range(3))
        return self.some(
            [("mem", path, size, swap, scanned)] * 3 + [("host", "9999", "9999", swap)]
        )


class Wide(Maker):
    """Makes traces of 1, 16 or 64 processors with up to hundreds of groups."""

    PATHS = tuple(f"/g{one}{below}" for one in range(80) for below in ("", "/a", "/a/b", "/c"))

    def __init__(self, seed: int, version: int) -> None:
        super().__init__(seed, version)
        cpus = self.draw.choice((1, 16, 64))
        self.machine, self.last_interrupts = Machine(cpus), [0] * cpus
        self.lines = [f"psitrace {version} cpus={cpus}"]
        for path in self.PATHS[: self.draw.choice((40, 320))]:
            self.machine.take("group", path)
            self.lines.append(f"0 group {path}")


def window_of(maker: Maker, number: int) -> int:
    """Returns the length (ns) of a window for a generated trace: one, two or three of the trace's
    ticks.
    """
    return random.Random(number).choice((1, 1, 2, 3)) * maker.tick


def files_of(folder: str) -> list[str]:
    """Returns the paths of the valid traces in a folder."""
    names = (
        os.path.join(folder, name) for name in sorted(os.listdir(folder)) if name.endswith(".trace")
    )
    return [name for name in names if "refused" not in name]


def text_of(name: str) -> str:
    """Returns the text of a file."""
    with open(name, encoding="ascii") as file:
        return file.read()


def lines_between(trace: str, start: int, end: int) -> list[str]:
    """Returns the lines of a trace after the time `start` and up to the time `end` (ns)."""
    found = [line for line in trace.splitlines()[1:] if start < int(line.split(" ")[0]) <= end]
    must(trace.endswith("\n"), "the trace ends with a newline")
    return found
