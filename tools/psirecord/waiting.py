"""Waits for the next job, a signal or pressure with a single poll(2), so that none of the three is
delayed.
"""
from __future__ import annotations

import os
import select
import signal
import time
from collections.abc import Callable
from dataclasses import dataclass
from types import FrameType

ENDING = (signal.SIGINT, signal.SIGTERM, signal.SIGHUP)


class Signals:
    """The signals that end a recording. SIGHUP doesn't end it if SIGHUP is ignored, as with nohup.
    The handler only stores the signal, so that it never interrupts a change of the machine or an
    undo step.
    """

    def __init__(self) -> None:
        self.came: signal.Signals | None = None
        self.reader, writer = os.pipe2(os.O_NONBLOCK | os.O_CLOEXEC)
        signal.set_wakeup_fd(writer, warn_on_full_buffer=False)
        for number in ENDING:
            if signal.getsignal(number) != signal.SIG_IGN or number != signal.SIGHUP:
                signal.signal(number, self.note)

    def note(self, number: int, _: FrameType | None) -> None:
        """Stores the signal, unless an earlier one is already stored."""
        self.came = self.came or signal.Signals(number)

    def end_by_it(self) -> None:
        """Ends this process by the signal that was received, as if the signal hadn't been caught.
        """
        if self.came:
            signal.signal(self.came, signal.SIG_DFL)
            signal.raise_signal(self.came)

    def ignore(self) -> None:
        """Ignores further signals, so that a late signal doesn't change the exit status."""
        for number in ENDING:
            signal.signal(number, signal.SIG_IGN)


class Waiting:
    """Waits until a certain time, and reports whether pressure was signaled."""

    def __init__(self, signals: Signals) -> None:
        self.poll = select.poll()
        self.poll.register(signals.reader, select.POLLIN)
        self.signals, self.trigger = signals, -1

    def watch(self, trigger: int, condition: int) -> None:
        """Adds the file `trigger` to the polled files. poll(2) reports `condition` for this file if
        pressure was signaled.
        """
        self.trigger = trigger
        self.poll.register(trigger, condition)

    def unwatch(self) -> None:
        """Stops watching the file, since one signal of pressure is enough."""
        self.poll.unregister(self.trigger)
        self.trigger = -1

    def until(self, time_s: float) -> bool:
        """Waits until `time_s` (CLOCK_MONOTONIC, s), a signal or pressure. Returns True if pressure
        was signaled and no signal was received.
        """
        pause = max(0.0, time_s - time.monotonic())
        found = [file for file, _ in self.poll.poll(int(pause * 1000 + 0.999))]
        return self.trigger in found and self.signals.came is None


@dataclass
class Job:
    """A periodic job. `due` is the time of its next run (CLOCK_MONOTONIC, s), and `period` is in s.
    """

    run: Callable[[], None]
    due: float
    period: float
    # Whether every period needs its own run. If so, a late run is followed by one run for each
    # period that has passed. If not, a single late run replaces them.
    is_each_due: bool = False

    def run_until(self, time_s: float) -> None:
        """Runs the job if it is due at `time_s`. If `is_each_due`, runs the job once for each
        period that has passed, and otherwise once.
        """
        while self.due <= time_s:
            self.run()
            self.due += self.period
            if not self.is_each_due:
                self.due = max(self.due, time.monotonic())
                return
