"""Ends the processes of an interrupted step, after they have had time to undo their changes."""
from __future__ import annotations

import contextlib
import os
import signal
import subprocess
import time
from typing import NamedTuple

# The time (s) within which the processes of a step must undo their changes, and the time (s)
# between two checks whether they have ended.
UNDO_SECONDS = 60.0
CHECK_SECONDS = 0.05


class Process(NamedTuple):
    """A process: its pid, and its start time, since a pid may be reused."""

    number: int
    start: int


def running() -> dict[Process, int]:
    """Returns all running processes of the machine, each with its parent's pid."""
    found = {}
    for name in filter(str.isdecimal, os.listdir("/proc")):
        with contextlib.suppress(OSError), open(f"/proc/{name}/stat", "rb") as file:
            # The words after the name of the process in parentheses, which are the fields from
            # number 3 of proc_pid_stat(5).
            words = file.read().rpartition(b")")[2].split()
            if words[0] != b"Z":
                found[Process(int(name), int(words[19]))] = int(words[1])
    return found


def with_descendants(known: set[Process]) -> set[Process]:
    """Returns those of the processes `known` that still run, and all their descendants."""
    parents = running()
    found = new = known & parents.keys()
    while new:
        numbers = {it.number for it in new}
        new = {it for it, parent in parents.items() if parent in numbers} - found
        found = found | new
    return found


def send(process: Process, number: signal.Signals) -> None:
    """Sends a signal to a process. Uses sudo if the process belongs to root."""
    try:
        os.kill(process.number, number)
    except PermissionError:
        words = ["sudo", "-n", "kill", f"-{number.value}", str(process.number)]
        subprocess.run(words, stdin=subprocess.DEVNULL, stderr=subprocess.DEVNULL)
    except ProcessLookupError:
        pass


def end(step: subprocess.Popen[bytes]) -> None:
    """Sends SIGTERM to a step and its descendants, and waits until they have ended. Sends SIGKILL
    to those that haven't ended after UNDO_SECONDS.
    """
    known = {it for it in running() if it.number == step.pid}
    asked: set[Process] = set()
    until = time.monotonic() + UNDO_SECONDS
    while known := with_descendants(known):
        is_late = time.monotonic() > until
        for it in known if is_late else known - asked:
            send(it, signal.SIGKILL if is_late else signal.SIGTERM)
        asked |= known
        if is_late:
            break
        time.sleep(CHECK_SECONDS)
        step.poll()
    step.wait()
