"""Defines the errors of oomd: a rejected configuration, and a crash."""
from __future__ import annotations

from psicli.fault import Fault


class Refused(Fault):
    """Raised if oomd rejects a configuration. The message contains the position in the
    configuration and oomd's reason.
    """

    def __init__(self, place: str, reason: str) -> None:
        super().__init__(f"{place}: oomd refuses this: {reason}")
        self.place, self.reason = place, reason


class Crash(Exception):
    """Raised if an input makes oomd 0.5.0 crash."""
