"""Starts a tool: imports the module that implements it, and runs the module's `main`."""
from __future__ import annotations

import importlib
import sys

from .status import Status


# A rules file may contain numbers of any length, but Python rejects more than 4300 digits by
# default.
if hasattr(sys, "set_int_max_str_digits"):
    sys.set_int_max_str_digits(0)


def start(module: str) -> None:
    """Runs `main` of the named module, and exits with its status. If an interrupt arrives during
    the imports, the tool exits without a message.
    """
    try:
        status = importlib.import_module(module).main()
    except KeyboardInterrupt:
        status = Status.INTERRUPTED
    sys.exit(status)
