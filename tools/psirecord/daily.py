"""Limits the number of recordings per day, so that a service that is restarted again and again
doesn't fill the disk with recordings.
"""
from __future__ import annotations

import contextlib
import os
import time
from collections.abc import Callable

from psirec.layout import META

from .waiting import Signals, Waiting

DAY_SECONDS = 86400.0
# The longest time (s) between two checks. In between, somebody may set the clock or remove
# recordings.
LOOK_SECONDS = 60.0


def recording_times(folder: str) -> list[float]:
    """Returns the time (s since 1970) at which each recording in a folder ended."""
    times = []
    with contextlib.suppress(OSError), os.scandir(folder) as entries:
        for entry in entries:
            with contextlib.suppress(OSError):
                times.append(os.stat(f"{entry.path}/{META}", follow_symlinks=False).st_mtime)
    return times


def seconds_to_wait(folder: str, limit: int, now: float) -> float:
    """Returns the time (s) until fewer than `limit` recordings are younger than a day. A recording
    that seems to end after `now` doesn't count: it was made before the clock was set back.
    """
    latest = sorted((it for it in recording_times(folder) if it <= now), reverse=True)
    return max(0.0, latest[limit - 1] + DAY_SECONDS - now) if len(latest) >= limit else 0.0


def wait_for_room(out: str, limit: int, signals: Signals, tell: Callable[[str], None]) -> bool:
    """Waits until the daily limit permits another recording in the folder that contains `out`.
    Returns False if a signal ended the wait.
    """
    folder = os.path.dirname(os.path.abspath(out))
    waiting, is_announced = Waiting(signals), False
    while signals.came is None:
        seconds = seconds_to_wait(folder, limit, time.time())
        if not seconds:
            return True
        if not is_announced:
            tell(
                f"{folder} has {limit} recordings of the last 24 hours: the next one begins in"
                f" {seconds / 3600:.1f} hours"
            )
            is_announced = True
        waiting.until(time.monotonic() + min(seconds, LOOK_SECONDS))
    return False
