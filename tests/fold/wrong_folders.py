"""Checks that faults in the folding code are detected. The code replays each window before it
writes the window. Each check replaces a function of the code by a wrong version, which differs from
the right one in one way.
"""
from __future__ import annotations

import re
from collections.abc import Callable
from typing import Any

from fold.common import folded, must_replay_alike
from harness import Wrong, must
from psifold import fold, processor
from psifold.check import Different
from psifold.joint import Element, Kind
from psifold.lines import Line, Writer
from psifold.world import Catalog
from shared.traces import MS

SECOND = 1000 * MS


def wrong_lines(change: Callable[[list[Line]], list[Line]]) -> Callable[[Any], Any]:
    """Returns a wrapper for `Writer.write` that applies `change` to the returned lines."""

    def wrap(write: Any) -> Any:
        return lambda self, *arguments: change(write(self, *arguments))

    return wrap


def without_first(verb: str) -> Callable[[list[Line]], list[Line]]:
    """Returns a function that removes the first line with this verb."""

    def change(lines: list[Line]) -> list[Line]:
        place = next((place for place, (_, words) in enumerate(lines) if words.startswith(verb)),
                     None)
        return lines if place is None else lines[:place] + lines[place + 1 :]

    return change


def us_later(lines: list[Line]) -> list[Line]:
    """Moves the lines in the second half of a window to a time 1 us later, except lines at the
    window's edges.
    """
    middle = lines[len(lines) // 2][0] if lines else 0
    return [
        (time_ns + 1000 if time_ns >= middle and time_ns % SECOND else time_ns, words)
        for time_ns, words in lines
    ]


def elsewhere(lines: list[Line]) -> list[Line]:
    """Moves all tasks and interrupts of processor 0 to processor 1."""
    return [
        (time_ns,
         re.sub(r"^(switch|irq) 0 ", r"\1 1 ", re.sub(r"^((?:wake|fork) .*) 0$", r"\1 1", words)))
        for time_ns, words in lines
    ]


def state_lost(few: Any) -> Any:
    """Wraps the function that chooses joint states. The wrapper drops the shortest state and adds
    its time to the longest.
    """

    def change(*arguments: Any) -> Any:
        found = few(*arguments)
        if len(found.times) > 2:
            shortest, longest = (
                choose(found.times, key=found.times.__getitem__) for choose in (min, max)
            )
            found.times[longest] += found.times.pop(shortest)
        return found

    return change


def other_kind(joint_state: Any) -> Any:
    """Wraps `joint_state`. In the wrapper, tasks that wait for IO count as ready."""
    swap = {Kind.WAITING: Kind.READY}
    return lambda self, state: frozenset(
        Element(it.path, swap.get(it.kind, it.kind)) for it in joint_state(self, state)
    )


def early(write: Any) -> Any:
    """Wraps `Writer.write`. The wrapper ignores the joint state that must come first, and moves
    lines from 1 ns after a window's start to the start.
    """

    def change(
        self: Any, start: int, durations: Any, interrupts: Any = (), present: Any = None
    ) -> list[Line]:
        lines: list[Line] = write(self, start, durations, interrupts)
        return [(start if time_ns == start + 1 else time_ns, words) for time_ns, words in lines]

    return change


WRONG: tuple[tuple[str, object, str, Callable[[Any], Any]], ...] = (
    ("a joint state is lost", processor, "few_of", state_lost),
    ("moments are a us later", Writer, "write", wrong_lines(us_later)),
    ("a processor is another", Writer, "write", wrong_lines(elsewhere)),
    ("a wakeup is lost", Writer, "write", wrong_lines(without_first("wake"))),
    ("a switch is lost", Writer, "write", wrong_lines(without_first("switch"))),
    ("a stall is lost", Writer, "write", wrong_lines(without_first("stall"))),
    ("interrupts are lost", Writer, "write", wrong_lines(without_first("irq"))),
    ("a wait is another kind", Catalog, "joint_state", other_kind),
    ("tasks stay in a removed group", Writer, "empty", lambda _: lambda *__: []),
    ("a group has no task any more", Writer, "keep", lambda _: lambda *__: []),
    ("a group has a task at the tick before", Writer, "write", early),
    ("a sample is moved over an edge", fold.Fold, "lines_of", lambda lines_of: moved(lines_of)),
    ("a sample is lost", fold.Fold, "lines_of", lambda lines_of: lost(lines_of)),
)
WRONGED = """psitrace 2 cpus=2
0 group /a
0 group /b
0 group /c
0 group /d
0 fork 4 /c 1
0 switch 1 4 idle
0 switch 1 0 sleep
0 fork 1 /a 0
0 fork 2 /b 0
0 fork 3 / 1
0 switch 0 1 idle
100000000 stall 1
300000000 irq 0 1000
400000000 switch 0 2 iowait
500000000 wake 1 0
600000000 mem /a 5 0 0
700000000 switch 0 1 sleep
800000000 unstall 1
1000000001 fork 9 /d 1
1200000000 switch 0 0 iowait
1300000000 move 1 /b
1300000000 rmgroup /a
1400000000 wake 2 1
1700000000 switch 1 2 idle
2500000000 end
"""


def moved(lines_of: Any) -> Any:
    """Wraps `lines_of`. The wrapper moves memory samples to the end of the window's lines, and
    their times by one second.
    """

    def change(*arguments: Any) -> list[str]:
        lines: list[str] = lines_of(*arguments)
        samples = [line for line in lines if " mem " in line]
        return [
            *(line for line in lines if line not in samples),
            *(f"{int(it.split()[0]) + SECOND} mem /a 5 0 0" for it in samples),
        ]

    return change


def lost(lines_of: Any) -> Any:
    """Wraps `lines_of`. The wrapper drops memory samples."""
    return lambda *arguments: [line for line in lines_of(*arguments) if " mem " not in line]


def check_wrong_folders(program: str) -> None:
    """Each wrong version is detected before its window is written. The right version is accepted.
    """
    must_replay_alike("a right folder", program, WRONGED, folded(WRONGED, SECOND)[0], SECOND)
    for what, place, name, wrong in WRONG:
        right = getattr(place, name)
        written: list[str] = []
        setattr(place, name, wrong(right))
        try:
            fold.Fold(2, SECOND, written.extend).take(WRONGED.splitlines()[1:])
            raise Wrong(f"{what}, and nobody finds it: {written}")
        except Different as error:
            must("differs" in str(error) or "can't stand" in str(error) or "removed" in str(error),
                 f"{what}: {error}")
        finally:
            setattr(place, name, right)
        must(not any(line.endswith(" end") for line in written), f"{what}: nothing more is written")
