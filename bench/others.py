#!/usr/bin/env python3
"""Compares the speed of perf and trace-cmd with the speed of psi_oomd and psi_convert on the same
number of scheduler events.

usage: bench/others.py [--events N] [--rounds N]     (1000000 events, 3 rounds)

Needs root, tracefs in /sys/kernel/tracing, and Debian's packages linux-perf and trace-cmd. The load
is `perf bench sched pipe`: switches and wakeups of two processes that wake each other. perf records
it once. In a second run the kernel fills ring buffers, and both trace-cmd and psi_convert read
their pages. psi_oomd reads a generated trace with as many events as perf recorded. Prints for each
command its number of events, and the microseconds of processor time and of wall-clock time per
event. Each time is the shortest of all rounds. The benchmark checks no result.
"""
from __future__ import annotations

import argparse
import contextlib
import os
import shutil
import subprocess
import sys
import tempfile
from collections.abc import Iterator
from typing import NamedTuple

from built import program_of
from measure import Taken, once, write_trace

sys.dont_write_bytecode = True
sys.path.append(os.path.join(os.path.dirname(os.path.dirname(os.path.abspath(__file__))), "tools"))

from psirec.layout import FORMATS  # noqa: E402
from psiread.table import table_of  # noqa: E402

TRACING = "/sys/kernel/tracing"
EVENTS = ("sched/sched_switch", "sched/sched_wakeup")
# One loop of `perf bench sched pipe` causes two switches and two wakeups.
EVENTS_OF_A_PASS = 4
# The largest number of bytes that an event occupies in a ring buffer.
EVENT_BYTES = 100


class Reader(NamedTuple):
    """A command that reads a recording or a trace, and the number of events that it reads."""

    name: str
    words: list[str]
    events: int


def load(events: int) -> list[str]:
    """Returns the benchmark command that causes about `events` events."""
    return ["perf", "bench", "sched", "pipe", "-l", str(events // EVENTS_OF_A_PASS)]


def must_run(words: list[str]) -> None:
    """Runs a command. If the command fails, the benchmark ends with its message."""
    done = subprocess.run(words, capture_output=True, text=True)
    if done.returncode != 0:
        sys.exit(f"{' '.join(words)}: status {done.returncode}: {done.stderr.strip()[-300:]}")


def lines_with(mark: bytes, words: list[str]) -> int:
    """Returns how many of the lines that a command prints contain `mark`."""
    with subprocess.Popen(words, stdout=subprocess.PIPE, stderr=subprocess.DEVNULL) as run:
        assert run.stdout is not None
        return sum(mark in line for line in run.stdout)


def perf_readers(events: int, room: str) -> list[Reader]:
    """Records the benchmark with perf, and returns the perf commands that read the recording. `perf
    sched timehist` reads all events, but prints a line only for each switch.
    """
    data = os.path.join(room, "perf.data")
    chosen = [word for name in EVENTS for word in ("-e", name.replace("/", ":"))]
    must_run(["perf", "record", "-q", "-a", "-m", "4096", *chosen, "-o", data, "--", *load(events)])
    script, timehist = ["perf", "script", "-i", data], ["perf", "sched", "timehist", "-i", data]
    count = lines_with(b" sched:", script)
    return [Reader("perf script", script, count), Reader("perf sched timehist", timehist, count)]


def write(path: str, text: str) -> None:
    """Writes a setting of tracefs, or a file."""
    with open(path, "w", encoding="ascii") as file:
        file.write(text)


def text_of(path: str) -> str:
    with open(path, encoding="ascii") as file:
        return file.read()


@contextlib.contextmanager
def traced(events: int) -> Iterator[str]:
    """Creates a tracing instance whose buffers hold all events on each processor, and records the
    benchmark in it. Yields the instance's folder, and removes the instance at the end.
    """
    folder = f"{TRACING}/instances/bench_others"
    os.mkdir(folder)
    try:
        write(f"{folder}/buffer_size_kb", str(events * EVENT_BYTES // 1024))
        for name in EVENTS:
            write(f"{folder}/events/{name}/enable", "1")
        must_run(load(events))
        write(f"{folder}/tracing_on", "0")
        yield folder
    finally:
        os.rmdir(folder)


def copy_pages(source: str, path: str) -> None:
    """Copies all pages of a processor's ring buffer from the file `source` to the file `path`."""
    buffer = os.open(source, os.O_RDONLY | os.O_NONBLOCK)
    try:
        with open(path, "wb") as file, contextlib.suppress(BlockingIOError):
            while page := os.read(buffer, 1 << 16):
                file.write(page)
    finally:
        os.close(buffer)


def pages_of(events: int, room: str) -> list[str]:
    """Records the benchmark into ring buffers. Returns the paths of files with the pages, one file
    for each processor.
    """
    paths = []
    with traced(events) as folder:
        for number in range(os.cpu_count() or 1):
            paths.append(os.path.join(room, f"cpu{number}"))
            copy_pages(f"{folder}/per_cpu/cpu{number}/trace_pipe_raw", paths[-1])
    return paths


def write_table(room: str) -> str:
    """Writes the table of the kernel's event formats that psi_convert reads. Returns the table's
    path.
    """
    parts = [f"== header_page\n{text_of(f'{TRACING}/events/header_page')}"]
    for name in (*EVENTS, "ftrace/print"):
        parts.append(f"== {name}\n{text_of(f'{TRACING}/events/{name}/format')}")
    write(os.path.join(room, FORMATS), "".join(parts))
    table = os.path.join(room, "table")
    write(table, table_of(room))
    return table


def page_readers(convert: str, events: int, room: str) -> list[Reader]:
    """Records the benchmark, and returns the commands of trace-cmd and psi_convert that read its
    pages.
    """
    pages, data, head = pages_of(events, room), os.path.join(room, "trace.dat"), f"{room}/head.dat"
    must_run(["trace-cmd", "restore", "-c", "-o", head])
    must_run(["trace-cmd", "restore", "-i", head, "-o", data, *pages])
    report = ["trace-cmd", "report", "-i", data]
    converted = [convert, "events", write_table(room), *pages]
    return [
        Reader("trace-cmd report", report, lines_with(b" sched_", report)),
        Reader("psi_convert events", converted, lines_with(b" sched_", converted)),
    ]


def own_readers(program: str, events: int, room: str) -> list[Reader]:
    """Generates a trace of this number of events, and returns the commands of psi_oomd that read
    it.
    """
    trace = write_trace(program, events, os.path.join(room, "psi.trace"))
    replay = [program, "replay", trace, "--workers"]
    return [
        Reader("psi_oomd check", [program, "check", trace], events),
        Reader("psi_oomd replay, 1 worker", [*replay, "1"], events),
        Reader("psi_oomd replay, 4 workers", [*replay, "4"], events),
    ]


def least(words: list[str], rounds: int) -> Taken:
    """Runs a command `rounds` times. Returns the shortest wall-clock time and the shortest
    processor time (s).
    """
    times = [once(words) for _ in range(rounds)]
    return Taken(min(it.clock for it in times), min(it.processor for it in times))


def main() -> int:
    parser = argparse.ArgumentParser(
        description=__doc__, formatter_class=argparse.RawDescriptionHelpFormatter
    )
    parser.add_argument("--events", type=int, default=1_000_000)
    parser.add_argument("--rounds", type=int, default=3)
    options = parser.parse_args()
    missing = [it for it in ("perf", "trace-cmd") if shutil.which(it) is None]
    if missing:
        sys.exit(f"bench/others.py: not installed: {', '.join(missing)}")
    program, convert = program_of([])[0], program_of([], "psi_convert")[0]
    with tempfile.TemporaryDirectory() as room:
        others = perf_readers(options.events, room) + page_readers(convert, options.events, room)
        print("| command | events | processor time, us each | wall-clock time, us each |")
        print("|---|---|---|---|")
        for it in [*others, *own_readers(program, others[0].events, room)]:
            taken = least(it.words, options.rounds)
            processor, clock = (s * 1e6 / it.events for s in (taken.processor, taken.clock))
            print(f"| `{it.name}` | {it.events:,} | {processor:.3f} | {clock:.3f} |", flush=True)
    return 0


if __name__ == "__main__":
    sys.exit(main())
