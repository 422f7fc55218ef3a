#!/usr/bin/env python3
"""Measures the accuracy of traces that are made from samples: of averages on recordings of
machines, and of kills by rules on simulated machines.

usage: bench/samples.py averages FOLDER.. [--every 2,5,15,30]
       bench/samples.py rules [--machines 30] [--seed 200] [--seconds 300] [--every 2,5,15,30]
       bench/samples.py peaks [--every 5,15,30]
       bench/samples.py speed [--seconds 300]

averages: the differences (percentage points) between avg10 at the nearest tick and the machine's
own readings, for a trace of events and for traces of samples, each after a warm-up of 12 minutes.
Pressure files that never exceed 2 percent are left out. rules: the evaluations at which each of
eleven rules fires on a trace of events at ticks of a second, and on traces of its samples; and the
first kills. peaks: the highest avg10 of a single full stall. speed: the time for a machine of 57
groups, 14 of them busy. PSI_OOMD names the program.
"""
from __future__ import annotations

import argparse
import os
import re
import subprocess
import sys
import tempfile
import time
from collections.abc import Iterator

sys.dont_write_bytecode = True
TOP = os.path.dirname(os.path.dirname(os.path.abspath(__file__)))
sys.path.append(os.path.join(TOP, "tools"))

from machines import Machine, big_tree, small_tree  # noqa: E402
from psiread.pressure import machine_readings  # noqa: E402
from psiread.files import text_of  # noqa: E402
from psiread.recording import read_recording  # noqa: E402
from psireplay.program import program_path  # noqa: E402
from sampling import REPORT, SECOND, csv_of  # noqa: E402
from samples_rules import Agreement, by_rule, kills_of, rules, rules_file, run  # noqa: E402

LEAD, LEAD_TEXT, LEAST = 720 * SECOND, "12min", 2.0
FILE = re.compile(
    r"sample (\d+) (\S+) (io|memory|cpu)\nsome avg10=([\d.]+) [^\n]*\nfull avg10=([\d.]+) "
)
# The averages avg10 (percent), keyed by time (ns), group and level. A level is twice the index of
# the resource, plus 1 for full.
Averages = dict[tuple[int, str, int], float]


def averages_of(trace: str) -> Averages:
    """Returns avg10 of all groups at each tick of a replay of the trace."""
    printed = run(program_path(), "replay", "--report-s=2", "--", trace).decode()
    found = {}
    for it in REPORT.finditer(printed):
        base = 2 * ("io", "memory", "cpu").index(it[3])
        found[int(it[1]), it[2], base], found[int(it[1]), it[2], base + 1] = (
            float(it[4]), float(it[8]),
        )
    return found


class Recording:
    """The readings of a recording's pressure files. `times` has the time (ns of the recording's
    clock) of each reading by its number, and `machine` has avg10 (percent) by reading, group and
    level.
    """

    def __init__(self, folder: str) -> None:
        self.folder, source = folder, read_recording(folder, True)
        self.start = source.start
        self.times = {
            number: min(it.time_ns for it in files.values())
            for number, files in machine_readings(folder, source).items()
        }
        self.first = min(self.times.values())
        self.machine: dict[tuple[int, str, int], float] = {}
        for number, path, resource, some, full in FILE.findall(text_of(folder, "pressure")):
            base = 2 * ("io", "memory", "cpu").index(resource)
            self.machine[int(number), path, base], self.machine[int(number), path, base + 1] = (
                float(some), float(full),
            )

    def errors(self, replayed: Averages, start: int) -> list[float]:
        """Returns the differences (percentage points) between the machine's readings and the
        averages of a replay. The replayed trace begins at `start` (ns of the recording's clock).
        """
        found: dict[tuple[str, int], list[tuple[float, float]]] = {}
        for (number, path, level), value in self.machine.items():
            if number in self.times and self.times[number] >= self.first and (level, path) != (
                5, "/"
            ):
                at = (self.times[number] - start + SECOND) // (2 * SECOND) * 2 * SECOND
                other = replayed.get((at, path, level))
                if other is not None:
                    found.setdefault((path, level), []).append((value, other))
        shown = [values for values in found.values() if any(max(it) > LEAST for it in values)]
        pairs = [it for values in shown for it in values]
        return [abs(one - other) for one, other in pairs]

    def chosen(self, every: int) -> set[int]:
        """Returns the numbers of the readings that sample the recording each `every` s: for each
        multiple of `every`, the first reading that isn't more than 0.5 s before it.
        """
        found, due = set(), 0
        for number, at in sorted(self.times.items()):
            if at - self.first >= due - SECOND // 2:
                found.add(number)
                due = (
                    at - self.first + SECOND // 2
                ) // (every * SECOND) * every * SECOND + every * SECOND
        return found


def sampled_recording(recording: Recording, every: int, room: str) -> str:
    """Writes a trace from one reading each `every` s. Returns the trace's path."""
    name, lines = os.path.join(room, "samples.csv"), []
    pattern = (
        r"sample (\d+) (\S+) (\w+)\nsome (\S+) (\S+) (\S+) total=(\d+)\n"
        r"full (\S+) (\S+) (\S+) total=(\d+)\n"
    )
    keep = recording.chosen(every)
    for it in re.finditer(pattern, text_of(recording.folder, "pressure")):
        if int(it[1]) in keep:
            at = recording.times[int(it[1])]
            shares = [it[place].partition("=")[2] for place in (4, 5, 6, 8, 9, 10)]
            lines.append(
                f"{at // SECOND}.{at % SECOND:09},{it[2]},{it[3]},{it[7]},{it[11]},"
                f"{','.join(shares)}\n"
            )
    with open(name, "w", encoding="ascii") as file:
        file.writelines(lines)
    trace = os.path.join(room, f"{every}.trace")
    run(os.path.join(TOP, "tools/samples"), name, "-o", trace, "--lead-in", LEAD_TEXT, "--averages",
        "no")
    return trace


def averages(options: argparse.Namespace) -> None:
    """Prints the table of errors of averages."""
    intervals = [int(it) for it in options.every.split(",")]
    print(f"| recording | readings | event trace | {' | '.join(f'{it} s' for it in intervals)} |")
    whole: dict[str, list[float]] = {}
    for folder in options.folders:
        recording = Recording(folder)
        with tempfile.TemporaryDirectory() as room:
            trace = os.path.join(room, "events.trace")
            with open(trace, "wb") as file:
                file.write(
                    run(
                        os.path.join(TOP, "tools/psitrace"), folder, "--force", "--lead-in",
                        LEAD_TEXT,
                    )
                )
            columns = {"events": recording.errors(averages_of(trace), recording.start - LEAD)}
            for every in intervals:
                if len(recording.chosen(every)) > 2:
                    trace = sampled_recording(recording, every, room)
                    columns[f"{every} s"] = recording.errors(
                        averages_of(trace), recording.first - LEAD
                    )
        for name, errors in columns.items():
            whole.setdefault(name, []).extend(errors)
        cells = [
            f"{sum(it) / len(it):.2f} / {max(it):.0f}" if it else "-" for it in columns.values()
        ]
        name = os.path.basename(folder.rstrip("/").removesuffix("/rec").removesuffix("/out"))
        print(f"| {name} | {len(recording.times)} | {' | '.join(cells)} |", flush=True)
    print(
        "| all | | "
        f"{' | '.join(f'{sum(it) / len(it):.2f} / {max(it):.0f}' for it in whole.values())} |"
    )


# ---------------------------------------------------------------- kills by rules


def simulated(seed: int, seconds: int, room: str) -> str:
    """Writes the trace of a simulated machine with four processors and ten groups. Returns its
    path.
    """
    trace = os.path.join(room, "machine.trace")
    with open(trace, "w", encoding="ascii") as file:
        file.writelines(f"{it}\n" for it in Machine(seed, seconds, 4, small_tree(7), 7).lines())
    return trace


def sampled_trace(trace: str, every: int, room: str) -> str:
    """Samples a trace each `every` s, and writes a trace from these samples. Returns the new
    trace's path.
    """
    name, output = os.path.join(room, "samples.csv"), os.path.join(room, f"{every}.trace")
    with open(name, "w", encoding="ascii") as file:
        file.write(csv_of(program_path(), trace, every))
    run(os.path.join(TOP, "tools/samples"), name, "-o", output)
    return output


def replayed(
    options: argparse.Namespace, intervals: list[int]
) -> Iterator[dict[str, dict[tuple[int, int], str]]]:
    """Yields the kills on each simulated machine, by kind of replay: events with ticks of one
    second (`truth`) and of two seconds, and samples at each interval (s).
    """
    for seed in range(options.seed, options.seed + options.machines):
        with tempfile.TemporaryDirectory() as room:
            file, trace = os.path.join(room, "rules.json"), simulated(seed, options.seconds, room)
            with open(file, "w", encoding="ascii") as output:
                output.write(rules_file())
            found = {
                "truth": kills_of(trace, file, "--tick-ms=1000"),
                "events, 2 s": kills_of(trace, file),
            }
            found.update(
                {f"{it} s": kills_of(sampled_trace(trace, it, room), file) for it in intervals}
            )
            yield found


def rules_table(options: argparse.Namespace) -> None:
    """Prints the tables of rules."""
    intervals = [int(it) for it in options.every.split(",")]
    columns = ["events, 2 s", *(f"{it} s" for it in intervals)]
    table = {(name, rule): Agreement() for name in columns for rule in range(len(rules()))}
    count = 0
    try:
        for found in replayed(options, intervals):
            for name, rule in table:
                table[name, rule] = table[name, rule].plus(
                    by_rule(found["truth"], rule), by_rule(found[name], rule)
                )
            count += 1
            print(f"{count} machines", file=sys.stderr, flush=True)
    except KeyboardInterrupt:
        pass
    print(
        f"{count} machines of {options.seconds} s: evaluations at which both fire, of either / "
        "same victim of these"
    )
    print(f"| rule | {' | '.join(columns)} |")
    for rule, text in enumerate(rules()):
        print(f"| {text} | {' | '.join(table[name, rule].cell() for name in columns)} |")
    sums = {
        name: Agreement(
            *(sum(it) for it in zip(*(table[name, rule] for rule in range(len(rules())))))
        ) for name in columns
    }
    print(f"| all | {' | '.join(sums[name].cell() for name in columns)} |")
    print(
        "| first kills within 6 s / 20 s | "
        f"{' | '.join(f'{it.near} / {it.far} of {it.first}' for it in sums.values())} |"
    )


# ---------------------------------------------------------------- highest averages of short stalls


def peak(length: float, begin: float, every: int) -> float:
    """Returns the highest avg10 (percent) of a full stall of `length` s that begins at `begin` (s).
    `every` is the sampling interval (s), or 0 for the machine's own totals. docs/PRESSURE.md gives
    the formula.
    """

    def total(at: float) -> float:
        return min(max(at - begin, 0.0), length)

    def known_total(at: float) -> float:
        if not every:
            return total(at)
        before = at // every * every
        return total(before) + (total(before + every) - total(before)) * (at - before) / every

    average = best = 0
    for tick in range(1, 100):
        active = int((known_total(2 * tick) - known_total(2 * tick - 2)) * 50 + 1e-9) * 2048
        average = (average * 1677 + active * 371 + (2047 if active >= average else 0)) // 2048
        best = max(best, average)
    return best / 2048


def peaks(options: argparse.Namespace) -> None:
    """Prints a table of the highest avg10 of short stalls. The value depends on when the stall
    begins, so each cell contains the lowest and the highest value.
    """
    intervals = [int(it) for it in options.every.split(",")]
    for length in (2, 5, 10, 20, 30, 60):
        begins = [30 + step / 2 for step in range(60)]
        found = [[peak(length, begin, every) for begin in begins] for every in (0, *intervals)]
        print(f"| {length} | {' | '.join(f'{min(it):.0f}-{max(it):.0f}' for it in found)} |")


# ---------------------------------------------------------------- speed of the conversion


def speed(options: argparse.Namespace) -> None:
    """Prints how much faster than real time the samples of a machine with 57 groups are converted,
    and the peak memory of the conversion.
    """
    with tempfile.TemporaryDirectory() as room:
        trace = os.path.join(room, "machine.trace")
        with open(trace, "w", encoding="ascii") as file:
            file.writelines(
                f"{it}\n" for it in Machine(1, options.seconds, 16, big_tree(8, 6), 14).lines()
            )
        for every in map(int, options.every.split(",")):
            name = os.path.join(room, "samples.csv")
            with open(name, "w", encoding="ascii") as file:
                file.write(csv_of(program_path(), trace, every))
            begin = time.monotonic()
            words = [
                "/usr/bin/env", sys.executable, os.path.join(TOP, "tools/samples"), name, "-o",
                os.path.join(room, "it.trace"),
            ]
            child = subprocess.Popen(words, stderr=subprocess.DEVNULL)
            _, status, usage = os.wait4(child.pid, 0)
            taken = time.monotonic() - begin
            print(
                  f"{every} s: {options.seconds / taken:.0f} times as fast as time, "
                  f"{options.seconds / usage.ru_utime:.0f} by its own "
                  f"processor time, {usage.ru_maxrss // 1024} MB, status {status}")  # fmt: skip


def main() -> int:
    parser = argparse.ArgumentParser(
        description=__doc__, formatter_class=argparse.RawDescriptionHelpFormatter
    )
    commands = parser.add_subparsers(dest="command", required=True)
    for name, work in (
        ("averages", averages), ("rules", rules_table), ("peaks", peaks), ("speed", speed)
    ):
        command = commands.add_parser(name)
        command.set_defaults(work=work)
        command.add_argument("--every", default="2,5,15,30")
        if name == "averages":
            command.add_argument("folders", nargs="+")
        else:
            command.add_argument("--seconds", type=int, default=300)
            command.add_argument("--machines", type=int, default=30)
            command.add_argument("--seed", type=int, default=200)
    options = parser.parse_args()
    options.work(options)
    return 0


if __name__ == "__main__":
    sys.exit(main())
