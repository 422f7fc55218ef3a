"""Writes a trace. Events are first written to a temporary file: the header has the number of
processors and a group's tasks precede the events, but both are known only at the end.
"""
from __future__ import annotations

import shutil
import tempfile
from collections.abc import Iterable
from typing import IO

from .plan import MOST_PROCESSORS

# The processor on which tasks are created and exit. Blocks use all other processors.
FIRST = 0
PIECE = 1 << 20


class Tasks:
    """The tasks of a group, which are created together with the group at `time` (ns). The lines
    that create them are inserted at the offset `at` (bytes) of the temporary file.
    """

    def __init__(self, path: str) -> None:
        self.path, self.at, self.time = path, 0, 0
        self.numbers: list[int] = []

    def lines(self) -> Iterable[str]:
        """Yields the lines that create the tasks on the processor FIRST, and the lines that put
        them to sleep.
        """
        yield from (f"{self.time} fork {it} {self.path} {FIRST}\n" for it in self.numbers)
        how = "idle"
        for number in self.numbers:
            yield f"{self.time} switch {FIRST} {number} {how}\n"
            how = "sleep"
        if self.numbers:
            yield f"{self.time} switch {FIRST} 0 sleep\n"

    def count(self) -> int:
        """Returns the number of lines that `lines` yields."""
        return 2 * len(self.numbers) + 1 if self.numbers else 0


class TraceFile:
    """The events of a trace, and the tasks of its groups."""

    def __init__(self) -> None:
        self.events: IO[bytes] = tempfile.TemporaryFile(prefix="samples-")
        self.position = self.lines = self.task_lines = 0
        self.processors = 0
        self.lives: list[Tasks] = []

    def write(self, lines: list[str]) -> None:
        """Writes lines of events. Each line ends in a newline."""
        data = "".join(lines).encode("ascii")
        self.events.write(data)
        self.position += len(data)
        self.lines += len(lines)

    def put_tasks(self, tasks: Tasks, time: int) -> None:
        """Marks the current place for the lines that create a group's tasks, at `time` (ns)."""
        tasks.at, tasks.time = self.position, time
        self.lives.append(tasks)

    def count(self) -> int:
        """Returns the number of lines of the trace. For the lines that create tasks it counts an
        upper bound.
        """
        return self.lines + self.task_lines

    def finish(self, head: list[str], end: int, file: IO[bytes]) -> None:
        """Writes the complete trace to `file`. It ends at `end` (ns). `head` has the lines after
        the header.
        """
        cpus = self.processors + 1
        file.write(f"psitrace 1 cpus={cpus}\n".encode())
        file.writelines(it.encode("ascii") for it in head)
        self.events.seek(0)
        at = 0
        for life in self.lives:
            copy(self.events, file, life.at - at)
            at = life.at
            file.writelines(it.encode("ascii") for it in life.lines())
        shutil.copyfileobj(self.events, file, PIECE)
        file.write(f"{end} end\n".encode())
        self.events.close()


def copy(source: IO[bytes], target: IO[bytes], count: int) -> None:
    """Copies `count` bytes."""
    while count > 0:
        data = source.read(min(count, PIECE))
        target.write(data)
        count -= len(data)


assert MOST_PROCESSORS < 64
