"""Runs a tool: reports errors on standard error, and exits without a message if the reader of the
output closes it.
"""
from __future__ import annotations

import contextlib
import io
import os
import sys
from collections.abc import Callable

from .fault import Fault
from .parser import tool_name
from .status import Status


def complain(message: str) -> None:
    """Prints a line on standard error, after the tool's name. Ignores a closed standard error."""
    if sys.stderr is not None:
        with contextlib.suppress(OSError, ValueError):
            print(f"{tool_name()}: {message}", file=sys.stderr, flush=True)


def write(data: bytes) -> None:
    """Writes bytes to standard output."""
    sys.stdout.buffer.write(data)


def run(work: Callable[[], int]) -> int:
    """Runs a tool, flushes its output, and returns the exit status."""
    if not isinstance(sys.stdout, io.TextIOWrapper):
        complain("there is no standard output")
        return Status.FAILED
    sys.stdout.reconfigure(errors="backslashreplace")
    try:
        return ended(work)
    except Fault as fault:
        complain(str(fault))
        return fault.status
    except MemoryError:
        complain("out of memory")
    except BrokenPipeError:
        drop_output()
    except OSError as fault:
        drop_output()
        complain(f"{fault.filename or 'the output'}: {fault.strerror}")
    except KeyboardInterrupt:
        drop_output()
        return Status.INTERRUPTED
    return Status.FAILED


def ended(work: Callable[[], int]) -> int:
    """Runs a tool, flushes its output, and returns its status. The output is also flushed if the
    tool raises an exception, such as the SystemExit of --help.
    """
    try:
        return work()
    finally:
        sys.stdout.flush()


def drop_output() -> None:
    """Redirects standard output to /dev/null after its reader has closed it, so that the flush at
    the end of the process succeeds.
    """
    nothing = os.open(os.devnull, os.O_WRONLY)
    os.dup2(nothing, 1)
    os.close(nothing)
