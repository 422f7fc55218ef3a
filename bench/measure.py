#!/usr/bin/env python3
"""Times the commands of psi_oomd on a generated trace of an hour, relative to `wc -lw`, counts
their instructions per line, and times a trace of the largest machine.

usage: bench/measure.py [--program PATH] [--rounds N] [--events N]     (the built program, 10
    rounds, 3600000 events)

Prints for each command the instructions per line (by callgrind, if installed; they don't depend on
the machine), the best and the median wall-clock time and the median processor time relative to `wc
-lw` on the same file, and the peak resident memory (MB, by GNU time). Then it prints how many
seconds an hour of the largest allowed machine takes, with 1,024 actions at each evaluation. This is
a benchmark, which asserts nothing. README has the latest table.
"""
from __future__ import annotations

import dataclasses
import os
import shutil
import statistics
import subprocess
import sys
import tempfile
import time

from built import program_of
from effort import instructions_of, peak_of
from greatest import greatest_lines, greatest_rules

SHAPE = ("--seed", "1", "--cpus", "8", "--groups", "40")
# The sizes (lines) of a short and a long trace. The instructions per line are the difference of the
# instructions for both, divided by the difference of the sizes.
SHORT, LONG = 20_000, 60_000
COMMANDS: dict[str, tuple[str, ...]] = {
    "check": ("check", "TRACE"),
    "stall": ("stall", "TRACE"),
    **{
        f"replay, {count} workers": ("replay", "TRACE", "--workers", str(count))
        for count in (1, 4, 64)
    },
    **{
        f"live, {count} workers": ("replay", "TRACE", "--live", "/", "--workers", str(count))
        for count in (1, 4, 64)
    },
    "live, ticks of 144 ms": (
        "replay", "TRACE", "--live", "/", "--tick-ms", "144", "--report-s", "0"
    ),
    "replay, ticks of 144 ms": ("replay", "TRACE", "--tick-ms", "144", "--report-s", "0"),
}
GREATEST_EVENTS = 1_000_000


@dataclasses.dataclass(frozen=True)
class Taken:
    """The wall-clock time and the processor time of a run (s)."""

    clock: float
    processor: float


def once(words: list[str]) -> Taken:
    """Runs a command once, and returns its times. A command that fails ends the benchmark."""
    before = time.perf_counter()
    child = subprocess.Popen(words, stdout=subprocess.DEVNULL)
    _, status, usage = os.wait4(child.pid, 0)
    clock = time.perf_counter() - before
    if status != 0:
        sys.exit(f"{' '.join(words)}: status {os.waitstatus_to_exitcode(status)}")
    return Taken(clock, usage.ru_utime + usage.ru_stime)


def write_trace(program: str, events: int, path: str) -> str:
    """Writes a generated trace of `events` events, and returns its path."""
    with open(path, "wb") as file:
        subprocess.run([program, "gen", *SHAPE, "--events", str(events)], stdout=file, check=True)
    return path


def with_trace(program: str, words: tuple[str, ...], trace: str) -> list[str]:
    return [program, *(trace if word == "TRACE" else word for word in words)]


def instructions(program: str, room: str) -> dict[str, float]:
    """Returns the instructions per line of each command, or an empty dict if callgrind isn't
    installed.
    """
    if shutil.which("valgrind") is None:
        return {}
    short, long = (
        write_trace(program, size, os.path.join(room, f"{size}.trace")) for size in (SHORT, LONG)
    )
    counted = {}
    for name, words in COMMANDS.items():
        less, more = (
            instructions_of(with_trace(program, words, trace), room) for trace in (short, long)
        )
        counted[name] = (more - less) / (LONG - SHORT)
    return counted


def in_turns(runs: dict[str, list[str]], rounds: int) -> dict[str, list[Taken]]:
    """Times each run once in each round, so that a busy period of the machine affects all runs
    equally.
    """
    taken: dict[str, list[Taken]] = {name: [] for name in runs}
    for _ in range(rounds):
        for name, words in runs.items():
            taken[name].append(once(words))
    return taken


def row(name: str, counted: float | None, peak: int, taken: list[Taken], count: list[Taken]) -> str:
    """Returns the table row of a command: its instructions per line, its times relative to `count`
    (the times of `wc -lw`), and its peak memory. `peak` is in KB, and is printed in MB.
    """
    best = min(it.clock for it in taken) / min(it.clock for it in count)
    clock = (
        statistics.median(it.clock for it in taken) / statistics.median(it.clock for it in count)
    )
    processor = statistics.median(it.processor for it in taken) / statistics.median(
        it.processor for it in count
    )
    shown = "-" if counted is None else f"{counted:,.0f}"
    return f"{name:<26}{shown:>12}{best:>8.2f}{clock:>8.2f}{processor:>11.2f}{peak / 1000:>6.0f}"


def print_hour(program: str, events: int, rounds: int, room: str) -> None:
    """Prints the table for a generated trace of an hour with `events` events."""
    trace = write_trace(program, events, os.path.join(room, "hour.trace"))
    counted = instructions(program, room)
    runs = {"wc -lw": ["wc", "-lw", trace]} | {
        name: with_trace(program, words, trace) for name, words in COMMANDS.items()
    }
    taken = in_turns(runs, rounds)
    count = taken.pop("wc -lw")
    print(
        f"{events} events, {os.path.getsize(trace)} bytes, {rounds} rounds; wc -lw "
        f"{min(it.clock for it in count):.3f} s"
    )
    print(f"{'':<26}{'instructions':>12}{'best':>8}{'median':>8}{'processor':>11}{'MB':>6}")
    for name, its in taken.items():
        print(row(name, counted.get(name), peak_of(runs[name], room), its, count), flush=True)
    os.remove(trace)


def print_greatest(program: str, room: str) -> None:
    """Prints the times for an hour of the largest machine, with rules and without."""
    trace, rules = os.path.join(room, "greatest.trace"), os.path.join(room, "greatest.json")
    with open(trace, "w", encoding="utf-8") as file:
        file.writelines(f"{line}\n" for line in greatest_lines(GREATEST_EVENTS))
    with open(rules, "w", encoding="utf-8") as file:
        file.write(greatest_rules())
    for name, words in (("with 1,024 actions", ("--rules", rules)), ("without rules", ())):
        took = once([program, "replay", trace, *words])
        print(
            (
                f"the largest machine, {name}: {took.clock:.1f} s, {took.processor:.1f} of "
                "processor time"
            ),
            flush=True,
        )


def main() -> None:
    program, arguments = program_of(sys.argv[1:])
    numbers = {"--rounds": 10, "--events": 3_600_000}
    while len(arguments) > 1 and arguments[0] in numbers:
        numbers[arguments[0]], arguments = int(arguments[1]), arguments[2:]
    if arguments:
        sys.exit(__doc__)
    with tempfile.TemporaryDirectory() as room:
        print_hour(program, numbers["--events"], numbers["--rounds"], room)
        print_greatest(program, room)


if __name__ == "__main__":
    main()
