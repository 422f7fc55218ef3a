"""Defines the common parts of oomd's plugins: their results, their state during an evaluation, and
their durations.
"""
from __future__ import annotations

from abc import ABC, abstractmethod
from dataclasses import dataclass, field
from enum import Enum
from typing import TYPE_CHECKING, Any

from psicli.times import SECOND
from psioomd.configuration import PluginUse
from psioomd.machine import Machine
from psireplay.groups import Group

if TYPE_CHECKING:
    from psioomd.outcome import Victim


class Result(Enum):
    """The result of a plugin. A detector is true if it returns CONTINUE or PAUSED. A chain of
    actions stops after an action that returns STOP or PAUSED.
    """

    CONTINUE = "CONTINUE"
    STOP = "STOP"
    PAUSED = "ASYNC_PAUSED"


class Pauses(ABC):
    """The interface through which an action changes the pause of its ruleset."""

    @abstractmethod
    def pause(self, seconds: int) -> None:
        """Sets the length (s) of the pause after the current chain of actions. It replaces the
        ruleset's own length.
        """


@dataclass
class Look:
    """An evaluation of the rules: its time (ns), its number from 1, the machine, and values from
    earlier evaluations.
    """

    now: int
    number: int
    machine: Machine
    scanned: dict[Group, int] = field(default_factory=dict)
    """The number of pages scanned for each group up to the previous evaluation."""
    average: dict[Group, int] = field(default_factory=dict)
    """The decaying average of each group's memory (bytes), including this evaluation."""
    ruleset: Pauses | None = None
    """The ruleset whose detectors fired at this evaluation. None until they fire."""
    victims: list["Victim"] = field(default_factory=list)
    """The victims that plugins have chosen, until the ruleset stores them."""


class Plugin(ABC):
    """A detector or an action, with the values of its arguments."""

    def __init__(self, use: PluginUse, args: dict[str, Any]) -> None:
        self.name, self.place, self.args = use.name, use.place, args

    @abstractmethod
    def run(self, look: Look) -> Result:
        """Runs the detector or the action at an evaluation."""

    def why(self) -> str:
        """Returns a text that says what the plugin found at its last evaluation."""
        return self.name

    def nearest(self) -> str:
        """Returns a text that says how near the plugin came to its limit, over all evaluations. The
        text is empty if the plugin has no limit.
        """
        return ""


def result(is_true: bool) -> Result:
    return Result.CONTINUE if is_true else Result.STOP


class Duration:
    """A condition that counts only if it has been true for a number of whole seconds."""

    def __init__(self, seconds: int) -> None:
        self.seconds = seconds
        self.since: int | None = None
        # The longest time (ns) for which the condition was true.
        self.longest = 0

    def holds(self, now: int, is_true: bool) -> bool:
        """Updates the condition at the time `now` (ns). Returns whether it has been true for the
        required time.
        """
        if not is_true:
            self.since = None
            return False
        self.since = now if self.since is None else self.since
        self.longest = max(self.longest, now - self.since)
        return (now - self.since) // SECOND >= self.seconds
