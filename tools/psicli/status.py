"""Defines the exit statuses of the tools and of psi_oomd. Some tools exit with the status of
psi_oomd.
"""
from __future__ import annotations

import enum


class Status(enum.IntEnum):
    """The exit statuses of the tools. docs/OPERATING.md has the same table."""

    DONE = 0
    FOUND = 1
    FAILED = 2
    INCOMPLETE = 3
    DIFFERENT = 4
    NO_GROUP = 11
    NO_TIME = 12
    NO_SUM = 13
    INTERRUPTED = 130


class ProgramStatus(enum.IntEnum):
    """The exit statuses of psi_oomd and its launcher, as in docs/COMMANDS.md."""

    WRONG_WORDS = 1
    TRACE_REFUSED = 2
    RULES_REFUSED = 3
    NO_FILE = 4
    READ_FAULT = 5
    WRITE_FAULT = 6
    NO_MEMORY = 7
    NOT_BUILT = 70
