"""Defines the exceptions that end a tool with a message."""
from __future__ import annotations

import argparse

from .status import Status


class Fault(Exception):
    """An error that ends the tool. The message says what is wrong and how to correct it; `status`
    is the exit status.
    """

    def __init__(self, message: str, status: int = Status.FAILED) -> None:
        super().__init__(message)
        self.status = status


class Malformed(Fault, argparse.ArgumentTypeError):
    """Raised if a command-line argument is malformed. The parser adds the argument's name to the
    message.
    """
