"""Defines the options for the conversion of samples."""
from __future__ import annotations

from typing import NamedTuple


class Trigger(NamedTuple):
    """A trigger from --trigger: the path of its group, and the other fields of its line (resource,
    level, threshold and window in us).
    """

    path: str
    fields: str


class Options(NamedTuple):
    """The options for a conversion: triggers, the length of the warm-up (ticks), and whether totals
    grow between samples as avg10 indicates.
    """

    triggers: tuple[Trigger, ...] = ()
    lead: int = 0
    is_shaped: bool = False

    def later(self) -> Options:
        """Returns the options for all parts of a trace after the first. These have no warm-up."""
        return self._replace(lead=0)
