"""Runs a program of the operator after each recording, for example to notify somebody or to upload
the recording.
"""
from __future__ import annotations

import contextlib
import os
import stat
import subprocess
import time
from collections.abc import Callable

from .waiting import Signals, Waiting

# The time (s) after which a hook is terminated, and the additional time (s) after which it is
# killed.
MOST_SECONDS, KILL_SECONDS = 600.0, 10.0
LOOK_SECONDS = 0.2
OTHERS_WRITE = stat.S_IWGRP | stat.S_IWOTH


def why_not(path: str) -> str | None:
    """Returns the reason why the recorder, which is root, refuses to run the program at `path`.
    Returns None if the recorder runs it.
    """
    if not os.path.isabs(path):
        return "it must be a whole path, since a service has no working directory"
    try:
        found = os.stat(path)
    except OSError as error:
        return str(error.strerror)
    if not stat.S_ISREG(found.st_mode) or not os.access(path, os.X_OK):
        return "it isn't a program"
    if found.st_uid not in (0, os.geteuid()) or found.st_mode & OTHERS_WRITE:
        return "others may write to it"
    return None


def make_ordinary() -> None:
    """Gives the new process an ordinary priority, and lets the kernel's OOM killer choose it.
    Without this, it would inherit the recorder's settings.
    """
    with contextlib.suppress(OSError):
        os.setpriority(os.PRIO_PROCESS, 0, 0)
    with contextlib.suppress(OSError), open(
        "/proc/self/oom_score_adj", "w", encoding="ascii"
    ) as file:
        file.write("0")


def wait_for(child: subprocess.Popen[bytes], signals: Signals) -> str | None:
    """Waits for the end of the hook. Terminates it after MOST_SECONDS, or if a signal was received,
    and then returns the reason. Returns None if the hook ended by itself, with any exit status.
    """
    waiting, end = Waiting(signals), time.monotonic() + MOST_SECONDS
    while child.poll() is None:
        if signals.came or time.monotonic() > end:
            child.terminate()
            try:
                child.wait(KILL_SECONDS)
            except subprocess.TimeoutExpired:
                child.kill()
                child.wait()
            return "a signal came" if signals.came else f"it ran for {MOST_SECONDS:.0f} s"
        waiting.until(time.monotonic() + LOOK_SECONDS)
    return None


def run_hook(path: str, folder: str, signals: Signals, tell: Callable[[str], None]) -> None:
    """Runs the program `path`, with the recording's folder as its argument. A failure is reported,
    and has no other effect.
    """
    fault = why_not(path)
    if fault:
        tell(f"the hook {path} wasn't run: {fault}")
        return
    words = [path, os.path.abspath(folder)]
    try:
        child = subprocess.Popen(
            words, stdin=subprocess.DEVNULL, stdout=subprocess.DEVNULL, preexec_fn=make_ordinary
        )
    except OSError as error:
        tell(f"the hook {path} couldn't be run: {error.strerror}")
        return
    why = wait_for(child, signals)
    if why:
        tell(f"the hook {path} was terminated: {why}")
    elif child.returncode:
        tell(f"the hook {path} ended with status {child.returncode}")
