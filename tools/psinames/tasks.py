"""Attributes the tasks of a trace to their processes, and formats the run times of processes."""
from __future__ import annotations

from collections.abc import Iterable, Mapping
from typing import NamedTuple, Optional

from .companion import Companion
from .lives import Life

# The number of processes that are listed by name.
SHOWN = 3
# The text that is printed in place of the name of an unknown process.
UNNAMED = "?"
MS = 10**6


class Share(NamedTuple):
    """The run time (ns) of all processes with the same name, and their pids; or of a single thread,
    and its tid.
    """

    name: str
    numbers: tuple[int, ...]
    time: int
    is_thread: bool = False


class Tasks:
    """The tasks of a trace, keyed by label. A label that was reused has several tasks. With
    `has_threads`, each thread counts by itself; without it, a thread counts for its process.
    """

    def __init__(self, known: Optional[Companion], has_threads: bool = False) -> None:
        self.has_threads = has_threads
        self.lives: dict[int, list[Life]] = {}
        for life in known.tasks if known else ():
            if life.label:
                self.lives.setdefault(life.label, []).append(life)

    def runner(self, label: int, now: int) -> Optional[Life]:
        """Finds the task with the label `label` that was created at `now` (ns). Returns the task to
        which its run time is attributed: the first thread of its process, or with `has_threads` the
        task itself. Returns None if there is no such task.
        """
        for life in self.lives.get(label, ()):
            if life.first == now:
                return life if self.has_threads else life.leader
        return None

    def shares(self, times: Mapping[Optional[Life], int], now: int) -> list[Share]:
        """Adds up the run times (ns) of tasks that have the same name at `now` (ns). Returns the
        sums in descending order.
        """
        found: dict[tuple[str, int], tuple[set[int], int]] = {}
        for life, time in times.items():
            name = (life.name_at(now) if life else "") or UNNAMED
            number = (life.task if self.has_threads else life.process) if life else 0
            numbers, before = found.get((name, number if self.has_threads else 0), (set[int](), 0))
            found[name, number if self.has_threads else 0] = numbers | {number}, before + time
        shares = [
            Share(name, tuple(sorted(numbers)), time, self.has_threads)
            for (name, _), (numbers, time) in found.items()
        ]
        return sorted(shares, key=lambda it: (-it.time, it.name, it.numbers))


def seconds_text(ns: int) -> str:
    """Formats a time (ns) in seconds with three decimals."""
    ms = (ns + MS // 2) // MS
    return f"{ms // 1000}.{ms % 1000:03} s"


def share_text(share: Share) -> str:
    """Formats a share, for example as `import` (pid 4711) or `grep` (812 processes)."""
    many = f"{len(share.numbers)} processes"
    if len(share.numbers) == 1:
        many = f"{'thread' if share.is_thread else 'pid'} {share.numbers[0]}"
    return f"`{share.name}`" if share.name == UNNAMED else f"`{share.name}` ({many})"


def shares_text(shares: Iterable[Share], others: int = 0) -> str:
    """Formats the first shares with names and times, and the rest as one sum. `others` is the run
    time (ns) of all processes that aren't in `shares`.
    """
    shares = list(shares)
    named = [f"{share_text(it)} {seconds_text(it.time)}" for it in shares[:SHOWN]]
    rest = shares[SHOWN:]
    count, time = sum(len(it.numbers) for it in rest), sum(it.time for it in rest) + others
    if time:
        who = "others" if others else f"{count} other{'s' if count > 1 else ''}"
        named.append(f"{who} {seconds_text(time)}")
    return ", ".join(named)


# ---------------------------------------------------------------- shares in windows of time


def busiest(known: Companion, path: str, start: int, end: int) -> tuple[list[Share], int]:
    """Adds up the run times (ns) of the busiest processes in a group and its descendants. Counts
    the windows that begin between `start` and `end` (ns). Returns the shares, and the run time (ns)
    of all other processes. A process that isn't among the busiest of a window counts there as
    another process.
    """
    prefix = path.rstrip("/") + "/"
    names: dict[int, Life] = {}
    for life in known.tasks:
        if life.task == life.process or life.process not in names:
            names[life.process] = life
    times: dict[Optional[Life], int] = {}
    ran = 0
    for busy in known.busy:
        is_in_time = start <= busy.window * known.window < max(end, start + 1)
        if is_in_time and f"{busy.path}/".startswith(prefix):
            ran += busy.ran
            for process in busy.processes:
                found = names.get(process.number)
                times[found] = times.get(found, 0) + process.ran
    return Tasks(None).shares(times, end), ran - sum(times.values())
