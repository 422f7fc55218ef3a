"""The trigger of a flight recorder, which signals pressure of the machine or of one group. The
group may be created later, or be removed and created again.
"""
from __future__ import annotations

import os

from .machine import Machine


class Trigger:
    """A trigger in the kernel's syntax, `RESOURCE some|full THRESHOLD WINDOW`. `group` is the path
    of its group, or empty for the whole machine. `file` is the descriptor that signals pressure, or
    -1 while the trigger is closed.
    """

    def __init__(self, machine: Machine, words: str, group: str = "") -> None:
        self.machine, self.words, self.group = machine, words, group
        self.file = -1
        self.identity: tuple[int, int] | None = None

    def open(self) -> int | None:
        """Opens the trigger. Returns the poll(2) condition for its signal, or None if the group
        doesn't exist yet.
        """
        self.identity = self.found()
        if self.group and not self.identity:
            return None
        resource, words = self.words.split(" ", 1)
        self.file, condition = self.machine.open_trigger(resource, words, self.group)
        return condition

    def found(self) -> tuple[int, int] | None:
        """Returns the device number and the inode number of the group's folder, or None if the
        group doesn't exist.
        """
        try:
            it = os.stat(f"{self.machine.groups}{self.group}")
        except OSError:
            return None
        return it.st_dev, it.st_ino

    def is_current(self) -> bool:
        """Returns whether the trigger is open and its group wasn't replaced by another group."""
        return self.file >= 0 and (not self.group or self.identity == self.found())

    def close(self) -> None:
        """Closes the trigger, if it is open."""
        if self.file >= 0:
            os.close(self.file)
            self.file = -1
