#!/usr/bin/env python3
"""Times `psi_oomd import` of 100 MB of ftrace text, and `wc -lw` on the same file for comparison.

usage: bench/import_time.py [--program PATH]     (the built program)

The text is a stored recording that is repeated with later times. The programs run alternately, five
times each. Prints the best wall-clock time (s) of each, their ratio and, if GNU time is installed,
the peak memory of `import`. This is a benchmark, which asserts nothing.
"""
from __future__ import annotations

import os
import re
import shutil
import sys
import tempfile

from built import program_of
from effort import peak_of
from measure import once
from shared.stored import text

SIZE = 100_000_000
RUNS = 5
TIMED = "raw-2cpu"
MOMENT = re.compile(rb" ([0-9]+)(\.[0-9]{6}: )")


def later(data: bytes, seconds: int) -> bytes:
    """Returns the text with `seconds` added to each of its times."""
    return MOMENT.sub(lambda it: b" %d%b" % (int(it[1]) + seconds, it[2]), data)


def long_text(path: str) -> None:
    """Writes a text of about SIZE bytes: a stored recording, repeated with later times."""
    data = text(TIMED)
    times = [int(it[1]) for it in MOMENT.finditer(data)]
    length = times[-1] - times[0] + 1
    with open(path, "wb") as file:
        for number in range(-(-SIZE // len(data))):
            file.write(later(data, number * length))


def measure(program: str, folder: str) -> None:
    """Runs both programs alternately, and prints their times."""
    path = os.path.join(folder, "text")
    long_text(path)
    runs = [
        (once(["wc", "-lw", path]), once([program, "import", path, "--cpus", "2"]))
        for _ in range(RUNS)
    ]
    count, seconds = (min(run[which].clock for run in runs) for which in (0, 1))
    print(
        f"{os.path.getsize(path)} bytes: wc -lw {count:.3f} s, import {seconds:.3f} s, "
        f"{seconds / count:.2f} times"
    )
    if shutil.which("time"):
        print(
            f"peak memory of import: {peak_of([program, 'import', path, '--cpus', '2'], folder)} KB"
        )


def main() -> None:
    program, _ = program_of(sys.argv[1:])
    with tempfile.TemporaryDirectory() as folder:
        measure(program, folder)


if __name__ == "__main__":
    main()
