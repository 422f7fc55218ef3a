"""Replaces the paths of groups and the numbers of tasks in a trace by consecutive numbers, so that
the trace can be published without them.
"""
from __future__ import annotations

import re
from collections.abc import Iterable, Iterator

from psinames.busy import Busy, Process
from psinames.companion import Companion
from psinames.lives import Life
from psiworld.groups import ROOT, parent_of

# The index of the word that is a task's number, by a line's verb.
OF_TASKS = b"fork", b"wake", b"stall", b"unstall", b"migrate", b"move"
TASK_AT = {**dict.fromkeys(OF_TASKS, 2), b"switch": 3}
WITHOUT = (b"irq", b"host", b"end")
# The patterns that find a group's path and a task's number in a line of the summary.
PATH = re.compile(r"(?<![^ ,:])/[A-Za-z0-9_.@:\\/-]+(?<![,:.])")
NUMBER = re.compile(r"(?<=chose task )[0-9]+")


class Anonymous:
    """The replacements of groups and tasks. They are numbered in the order in which the summary and
    the trace mention them, so repeated conversions of a recording give equal numbers.
    """

    def __init__(self) -> None:
        self.paths = {ROOT: ROOT}
        self.numbers = {0: 0}

    def path(self, path: str) -> str:
        """Returns a path with a number for each component, such as `/g1/g2`."""
        if path not in self.paths:
            parent = self.path(parent_of(path))
            self.paths[path] = f"{parent.rstrip('/')}/g{len(self.paths)}"
        return self.paths[path]

    def number(self, number: int) -> int:
        """Returns the number that replaces a task's number."""
        return self.numbers.setdefault(number, len(self.numbers))

    def line(self, line: bytes) -> bytes:
        """Replaces the paths and the task numbers in a line of a trace."""
        fields = line.split(b" ")
        verb = fields[1] if len(fields) > 1 else b""
        if verb in WITHOUT or not verb or not fields[0].isdigit():
            return line
        place = TASK_AT.get(verb)
        if place is not None:
            fields[place] = b"%d" % self.number(int(fields[place]))
        if verb not in (b"wake", b"switch"):
            fields = [it if it[:1] != b"/" else self.path(it.decode()).encode() for it in fields]
        return b" ".join(fields)

    def parts(self, parts: Iterable[bytes]) -> Iterator[bytes]:
        """Yields an anonymous trace in parts. A part of the original may end in the middle of a
        line.
        """
        rest = b""
        for part in parts:
            *lines, rest = (rest + part).split(b"\n")
            if lines:
                yield b"".join(self.line(line) + b"\n" for line in lines)
        if rest:
            yield self.line(rest)

    def text(self, text: str) -> str:
        """Replaces the paths and the task numbers in a line of the summary."""
        shown = PATH.sub(lambda found: self.path(found[0]), text)
        return NUMBER.sub(lambda found: str(self.number(int(found[0]))), shown)

    def companion(self, known: Companion) -> None:
        """Makes a companion anonymous in place: removes all names, and replaces paths and numbers.
        Must be called after the trace was made anonymous, since the trace determines the numbers.
        """
        known.containers.clear()
        known.tasks = [self.life(it) for it in known.tasks]
        known.busy = [self.busy(it) for it in known.busy]

    def life(self, life: Life) -> Life:
        """Returns a copy of a task's lifetime, without names and with anonymous numbers."""
        label, task, process = (self.number(it) for it in (life.label, life.task, life.process))
        found = Life(label, life.first, task, process)
        found.last = life.last
        return found

    def busy(self, busy: Busy) -> Busy:
        """Returns an anonymous copy of an entry that lists the busiest processes of a group."""
        processes = tuple(Process(self.number(it.number), "", it.ran) for it in busy.processes)
        return busy._replace(path=self.path(busy.path), processes=processes)
