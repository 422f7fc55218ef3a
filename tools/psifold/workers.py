"""Folds the windows of all processors. At first this process folds them. At the first large window,
it starts several worker processes, and each folds a share of the processors from then on. Results
are returned in the order in which windows were submitted.

The size of a window is its number of joint states. A joint state (see joint.py) says in which
states each group has tasks on a processor. Folding takes longer for a window with more of them.
"""
from __future__ import annotations

import contextlib
import multiprocessing
import os
import signal
from collections import deque
from collections.abc import Iterator, Sequence
from multiprocessing.connection import Connection
from multiprocessing.process import BaseProcess
from queue import Queue
from threading import Thread
from typing import NamedTuple

from psiread.source import Unreadable

from .processor import FoldedProcessor, Piece, Turn
from .sums import Plan, Sums
from .world import Catalog

# MUCH is the number of joint states, added up over all processors, from which a window is large:
# the first such window starts the worker processes. A trace that has only smaller windows is folded
# without them. MOST_WORKERS is the largest number of worker processes, even on a machine with more
# processors.
MUCH, MOST_WORKERS = 4_000, 8


class Work(NamedTuple):
    """A window to fold: what was added to the catalog since the last window (`news`), the sums of
    time to preserve (`plan`, or None if they didn't change), and the input of each processor
    (`turns`).
    """

    news: tuple[list[str], list[int | None], list[int]]
    plan: Plan | None
    turns: dict[int, Turn]


class Share:
    """A share of the processors, which are folded in one process, with its own copy of the catalog.
    """

    def __init__(self, processors: Sequence[int], count: int) -> None:
        self.catalog = Catalog()
        self.folded = {processor: FoldedProcessor(processor, count) for processor in processors}
        self.sums = Sums(self.catalog, [])

    def of(self, work: Work) -> Work:
        """Returns the window's data for the processors of this share."""
        return work._replace(turns={processor: work.turns[processor] for processor in self.folded})

    def fold(self, work: Work) -> dict[int, Piece]:
        """Folds a time window, and returns the results by processor."""
        self.catalog.add(*work.news)
        if work.plan is not None:
            self.sums = Sums(self.catalog, work.plan)
        return {
            processor: self.folded[processor].fold(turn, self.sums, self.catalog)
            for processor, turn in work.turns.items()
        }

    def serve(self, own: Connection, others: Sequence[Connection]) -> None:
        """The main function of a worker process: folds the windows that arrive on a connection,
        until its other end is closed. A thread receives windows as soon as they arrive, so the
        sender never waits. `others` are inherited connections, which must be closed.
        """
        signal.signal(signal.SIGINT, signal.SIG_IGN)
        for line in others:
            line.close()
        due: Queue[Work | None] = Queue()
        Thread(target=take_all, args=(own, due), daemon=True).start()
        with contextlib.suppress(BrokenPipeError):
            while (work := due.get()) is not None:
                own.send(self.fold(work))


def take_all(line: Connection, due: Queue[Work | None]) -> None:
    """Puts all windows that arrive on a connection into a queue, and then None."""
    with contextlib.suppress(EOFError, OSError):
        while True:
            due.put(line.recv())
    due.put(None)


@contextlib.contextmanager
def reporting_ended() -> Iterator[None]:
    """A context manager that raises Unreadable if a worker process has ended without a result."""
    try:
        yield
    except (EOFError, BrokenPipeError, ConnectionResetError):
        raise Unreadable("a process that folds has ended: was it out of memory?") from None


class Workers:
    """Distributes the processors among worker processes. `most` limits the number of processes;
    None means one fewer than this machine's processors.
    """

    def __init__(self, processors: int, most: int | None = None) -> None:
        most = max(len(os.sched_getaffinity(0)) - 1 if most is None else most, 1)
        count = min(processors, MOST_WORKERS, most)
        self.shares = [Share(range(start, processors, count), processors) for start in range(count)]
        self.lines: list[Connection] = []
        self.processes: list[BaseProcess] = []
        self.waiting: deque[dict[int, Piece] | None] = deque()

    def hand_in(self, work: Work) -> None:
        """Submits the next time window to the worker processes, or folds it in this process."""
        if (
            not self.lines
            and len(self.shares) > 1
            and sum(len(turn.spent) for turn in work.turns.values()) >= MUCH
        ):
            self.start()
        if self.lines:
            for share, line in zip(self.shares, self.lines):
                with reporting_ended():
                    line.send(share.of(work))
            self.waiting.append(None)
        else:
            self.waiting.append(
                {
                    number: piece
                    for share in self.shares
                    for number, piece in share.fold(share.of(work)).items()
                }
            )

    def take_out(self) -> dict[int, Piece]:
        """Returns the results, by processor, of the oldest window whose results are still
        outstanding.
        """
        pieces = self.waiting.popleft()
        if pieces is not None:
            return pieces
        with reporting_ended():
            return {number: piece for line in self.lines for number, piece in line.recv().items()}

    def start(self) -> None:
        """Starts a worker process for each share."""
        context = multiprocessing.get_context("fork")
        pairs = [context.Pipe() for _ in self.shares]
        every = [end for pair in pairs for end in pair]
        for share, (here, there) in zip(self.shares, pairs):
            others = [end for end in every if end is not there]
            process = context.Process(target=share.serve, args=(there, others), daemon=True)
            process.start()
            self.processes.append(process)
            self.lines.append(here)
        for _, there in pairs:
            there.close()

    def close(self) -> None:
        """Ends the worker processes. All results must have been returned before."""
        for line in self.lines:
            line.close()
        for process in self.processes:
            process.join()
