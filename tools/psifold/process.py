"""Folds a trace in a second process, while the first process replays the events of a recording. The
first process sends lines in batches, and receives the result at the end.
"""
from __future__ import annotations

import contextlib
import multiprocessing
import signal
from multiprocessing.connection import Connection

from psiread.source import Unreadable

from .fold import Fold, Outcome

END = b""


class Here:
    """Folds a trace in this process. Has the same methods as `Elsewhere`."""

    def __init__(self, fold: Fold) -> None:
        self.fold = fold

    def take(self, lines: list[str]) -> None:
        """Folds further lines of the trace."""
        self.fold.take(lines)

    def end(self) -> None:
        """Called after the last line of the trace. Does nothing in this class."""

    def stop(self) -> None:
        """Called if folding is abandoned. Does nothing in this class."""

    def outcome(self) -> Outcome:
        """Returns the result of folding the lines so far."""
        return self.fold.outcome()


class Elsewhere:
    """Folds a trace in another process."""

    def __init__(self, fold: Fold) -> None:
        context = multiprocessing.get_context("fork")
        there, self.lines = context.Pipe(duplex=False)
        self.results, results_end = context.Pipe(duplex=False)
        self.process = context.Process(
            target=serve, args=(fold, there, results_end, (self.lines, self.results))
        )
        self.process.start()
        self.found: Outcome | None = None
        there.close()
        results_end.close()

    def take(self, lines: list[str]) -> None:
        """Sends lines to the other process. If that process has ended because a line is invalid,
        raises its error.
        """
        try:
            if not lines:
                return
            self.lines.send_bytes("\n".join(lines).encode("ascii"))
        except BrokenPipeError:
            self.end()

    def end(self) -> None:
        """Waits until the other process has ended, and raises its error if there was one."""
        with contextlib.suppress(BrokenPipeError):
            self.lines.send_bytes(END)
        self.lines.close()
        try:
            self.found, fault = self.results.recv()
        except EOFError:
            raise Unreadable("the process that folds has ended: was there no memory?") from None
        self.process.join()
        if fault is not None:
            raise fault

    def stop(self) -> None:
        """Makes the other process exit without a result."""
        self.lines.close()
        self.results.close()

    def outcome(self) -> Outcome:
        """Returns the result of folding all lines."""
        assert self.found
        return self.found


def serve(
    fold: Fold, lines: Connection, results: Connection, others: tuple[Connection, Connection]
) -> None:
    """The main function of the other process: folds the lines that arrive on `lines`, and sends the
    result to `results`. `others` are inherited connections, which must be closed.
    """
    signal.signal(signal.SIGINT, signal.SIG_IGN)
    for line in others:
        line.close()
    fault: Exception | None = None
    try:
        while part := lines.recv_bytes():
            fold.take(part.decode("ascii").split("\n"))
    except EOFError:
        return
    except Exception as found:  # the process that sends the lines raises it again
        fault = found
    lines.close()
    results.send((fold.outcome(), fault))
