"""Stores rows of samples, and returns them in order of time. At most MOST_IN_MEMORY rows are in
memory, and all others in temporary files.
"""
from __future__ import annotations

import bisect
import heapq
import marshal
import tempfile
from collections.abc import Iterator
from operator import itemgetter
from typing import IO

# The number of rows that are sorted in memory, and the number of rows that are read or written at
# once.
MOST_IN_MEMORY = 300_000
BATCH = 5_000

# A row as a plain tuple, which the module marshal can write. Its fields are those of rows.Row.
Plain = tuple[int, str, int, tuple[int, ...], tuple[int, int]]
ORDER = itemgetter(0, 1, 2)


class Store:
    """Stores rows in any order, and then yields them in order of time."""

    def __init__(self) -> None:
        self.rows: list[Plain] = []
        self.runs: list[IO[bytes]] = []
        self.file: IO[bytes] | None = None
        # The time (ns) of the first row of each batch, and the batch's offset (bytes) in the sorted
        # file.
        self.times: list[int] = []
        self.offsets: list[int] = []

    def put(self, row: Plain) -> None:
        """Adds a row. Rows may be added in any order."""
        self.rows.append(row)
        if len(self.rows) >= MOST_IN_MEMORY:
            self.spill()

    def spill(self) -> None:
        """Sorts the rows in memory, and writes them to a temporary file."""
        self.rows.sort(key=ORDER)
        run = tempfile.TemporaryFile(prefix="samples-")
        for start in range(0, len(self.rows), BATCH):
            marshal.dump(self.rows[start : start + BATCH], run)
        self.runs.append(run)
        self.rows = []

    def sort(self) -> Iterator[Plain]:
        """Yields all rows in order of time. May be called only once. Afterwards, `since` can yield
        the rows again.
        """
        if not self.runs:
            self.rows.sort(key=ORDER)
            yield from self.rows
            return
        self.spill()
        self.file = tempfile.TemporaryFile(prefix="samples-")
        batch: list[Plain] = []
        for row in heapq.merge(*map(rows_in, self.runs), key=ORDER):
            batch.append(row)
            if len(batch) == BATCH:
                self.write(batch)
                batch = []
            yield row
        if batch:
            self.write(batch)
        self.runs = []

    def write(self, batch: list[Plain]) -> None:
        """Writes a batch of sorted rows."""
        assert self.file
        self.times.append(batch[0][0])
        self.offsets.append(self.file.tell())
        marshal.dump(batch, self.file)

    def since(self, time: int) -> Iterator[Plain]:
        """Yields all rows from `time` (ns) on. Some earlier rows may precede them."""
        if self.file is None:
            first = bisect.bisect_left(self.rows, time, key=itemgetter(0))
            for place in range(first, len(self.rows)):
                yield self.rows[place]
            return
        first = max(0, bisect.bisect_left(self.times, time) - 1)
        for offset in self.offsets[first:]:
            self.file.seek(offset)
            yield from marshal.load(self.file)


def rows_in(run: IO[bytes]) -> Iterator[Plain]:
    """Yields the rows of a sorted temporary file."""
    run.seek(0)
    while True:
        try:
            batch = marshal.load(run)
        except EOFError:
            run.close()
            return
        yield from batch
