#!/usr/bin/env python3
"""Measures the cost of small runs of the programs, compares it with the figures stored in
bench/effort.json, and prints figures that rose.

usage: bench/effort.py [--program PATH] [--store] [NAME ..]

Without PATH, the built psi_oomd is measured. Without NAME, all runs of bench/effort_runs.py are
measured. Runs of psi_observe use the program that PSI_OBSERVE names, or the built one.

Time depends on the machine, so these are counted instead:

    instructions a line   (those of a larger input - those of a smaller one) / the lines, or ticks,
                          between them; without the cost of starting a run
    instructions          in thousands, with the smaller input, including the start
    reads, opens          system calls with the larger input, less those that load the program (a
                          run without arguments)
    writes, threads       calls that write, and threads that were started
    memory calls          calls that allocate and free memory from the system, counted as reads are;
                          not counted for runs with threads, since the number varies
    peak                  the peak resident memory with the larger input, in KB; the least of three
                          runs

A figure in instructions or KB may rise by 3 percent, and a peak by a further 256 KB. In runs with a
thread that reads the clocks of running threads, figures vary, and may rise by a further percentage
that is stored with the run. A number of calls must equal the stored number: one thread instead of
four is no gain. A figure that fell by more than it may rise is reported, but isn't a fault.
`--store` stores the figures again, and the commit shows the difference. Figures are valid for the
architecture and the C library that are stored with them: on another system, measure and store the
state before a change first.

Requires the Debian packages valgrind, strace and time. Ends with status 1 if a figure is wrong, and
2 if a package is missing or a run failed.
"""
from __future__ import annotations

import json
import os
import platform
import shutil
import subprocess
import sys
import tempfile

from built import program_of
from effort_runs import RUNS, Run, write_inputs

HERE = os.path.dirname(os.path.abspath(__file__))
STORED = os.path.join(HERE, "effort.json")
TOOLS = ("valgrind", "strace", "time")
MAY_RISE_PERCENT = 3.0
# The peak memory of a run is measured this number of times, and the least value counts. A rise by
# MAY_RISE_KB is always allowed, since the system counts pages in batches.
PEAKS = 3
PEAK = "peak in KB"
MAY_RISE_KB = 256

CALLS = {
    "reads": ("read", "pread64", "readv", "preadv", "preadv2"),
    "writes": ("write", "pwrite64", "writev", "pwritev", "pwritev2"),
    "opens": ("open", "openat", "openat2", "creat"),
    "threads": ("clone", "clone3", "fork", "vfork"),
    "memory calls": ("mmap", "mremap", "munmap", "brk", "madvise"),
}
# Loading a program makes calls of these kinds. Their number is subtracted.
LOADING = ("reads", "opens", "memory calls")

# The figures of a run by name. The name contains the unit.
Figures = dict[str, float]


class Failed(Exception):
    """Raised if a run can't be measured. The message says why."""


def run_to_end(words: list[str], status: int = 0) -> None:
    """Runs a program and drops its output. Raises Failed unless the program ends with `status`."""
    done = subprocess.run(words, stdin=subprocess.DEVNULL, stdout=subprocess.DEVNULL,
                          stderr=subprocess.PIPE)
    if done.returncode != status:
        said = done.stderr.decode(errors="replace")[-600:]
        raise Failed(f"{' '.join(words)}: status {done.returncode}: {said}")


def instructions_of(words: list[str], room: str) -> int:
    """Counts the instructions of all threads of a run with callgrind. Instructions before an `exec`
    don't count.
    """
    counted = os.path.join(room, "callgrind")
    tool = ["valgrind", "--quiet", "--tool=callgrind", "--trace-children=yes", "--fair-sched=try"]
    run_to_end([*tool, f"--callgrind-out-file={counted}", *words])
    with open(counted, encoding="utf-8", errors="replace") as file:
        totals = [line.split()[1] for line in file if line.startswith("totals:")]
    if len(totals) != 1:
        raise Failed(f"{' '.join(words)}: callgrind gave {len(totals)} sums")
    return int(totals[0])


def calls_of(words: list[str], room: str, status: int = 0) -> dict[str, int]:
    """Counts the system calls of each kind in all threads of a run with strace."""
    counted = os.path.join(room, "strace")
    run_to_end(["strace", "-f", "-q", "-c", "-o", counted, *words], status)
    times = {}
    with open(counted, encoding="utf-8") as file:
        for cells in map(str.split, file):
            if len(cells) >= 5 and cells[3].isdecimal():
                times[cells[-1]] = int(cells[3])
    return {kind: sum(times.get(name, 0) for name in names) for kind, names in CALLS.items()}


def peak_of(words: list[str], room: str) -> int:
    """Returns the peak resident memory (KB) of a run. The small program `time` starts the run,
    because the system counts the memory of the parent process too.
    """
    counted = os.path.join(room, "time")
    peaks = []
    for _ in range(PEAKS):
        run_to_end(["time", "--quiet", "-f", "%M", "-o", counted, *words])
        with open(counted, encoding="utf-8") as file:
            peaks.append(int(file.read()))
    return min(peaks)


def costs_of(run: Run) -> list[str]:
    """Returns the names of a run's two instruction figures."""
    return [f"instructions a {run.step.value}", "thousands of instructions"]


def figures_of(run: Run, program: str, loading: dict[str, int], room: str) -> Figures:
    """Measures a run of a program. `loading` has the number of calls of each kind in a run without
    arguments.
    """
    small, large = ([program, *run.words_for(size, room)] for size in run.sizes)
    at_first = instructions_of(small, room)
    more = instructions_of(large, room) - at_first
    costs = [round(more / (run.sizes[1] - run.sizes[0]), 1), round(at_first / 1000)]
    figures: Figures = dict(zip(costs_of(run), costs))
    for kind, number in calls_of(large, room).items():
        if kind != "memory calls" or run.is_alone:
            figures[kind] = number - (loading[kind] if kind in LOADING else 0)
    figures[PEAK] = peak_of(large, room)
    return figures


def may_differ(name: str, before: float, run: Run) -> float:
    """Returns by how much a figure may differ from the stored figure."""
    if name in CALLS:
        return 0.0
    return before * (MAY_RISE_PERCENT + run.varies_percent) / 100 + (
        MAY_RISE_KB if name == PEAK else 0
    )


def faults_of(run: Run, stored: Figures, found: Figures) -> tuple[list[str], list[str]]:
    """Returns two lists of lines: the wrong figures of a run, and the figures that fell so far that
    they should be stored again.
    """
    wrong: list[str] = []
    lower: list[str] = []
    for name in [*found, *(name for name in stored if name not in found)]:
        before, now = stored.get(name), found.get(name)
        if before is None or now is None:
            wrong.append(f"{name}: {before} stored, {now} found")
            continue
        change = f"{name}: {before:,} stored, {now:,} found"
        change += f", by {100 * (now - before) / before:+.1f} percent" if before else ""
        if abs(now - before) > may_differ(name, before, run):
            (wrong if now > before or name in CALLS else lower).append(change)
    return wrong, lower


def system() -> str:
    """Returns the name of the machine's architecture and the version of its C library. The figures
    depend on both.
    """
    return ", ".join([platform.machine(), " ".join(platform.libc_ver())])


def read_stored() -> tuple[str, dict[str, Figures]]:
    """Returns the name of the system on which the stored figures were measured, and the figures of
    each run.
    """
    if not os.path.exists(STORED):
        return system(), {}
    with open(STORED, encoding="utf-8") as file:
        stored = json.load(file)
    return stored["system"], stored["runs"]


def write_stored(figures: dict[str, Figures]) -> None:
    """Stores `figures`, the figures of each run by its name, in bench/effort.json. They are in the
    order of RUNS.
    """
    with open(STORED, "w", encoding="utf-8") as file:
        runs = {run.name: figures[run.name] for run in RUNS if run.name in figures}
        json.dump({"system": system(), "runs": runs}, file, indent=1)
        file.write("\n")


def compare(runs: list[Run], programs: dict[str, str], is_stored: bool) -> bool:
    """Measures `runs` and prints their figures. If `is_stored`, stores the figures and returns
    true. If not, returns whether no figure is wrong.
    """
    where, stored = read_stored()
    if where != system():
        print(
            (
                f"these figures are of {where}, and this is {system()}: what differs may be the "
                "system's"
            ),
            flush=True,
        )
    is_right = True
    with tempfile.TemporaryDirectory() as room:
        write_inputs(programs["psi_oomd"], runs, room)
        loading = {name: calls_of([program], room, status=1) for name, program in programs.items()}
        for run in runs:
            found = figures_of(run, programs[run.program], loading[run.program], room)
            print(
                f"{run.name}: " + ", ".join(f"{number:,} {name}" for name, number in found.items()),
                flush=True,
            )
            wrong, lower = faults_of(run, stored.get(run.name, {}), found)
            if run.name in stored or not is_stored:
                print(
                    "".join(
                        [
                            *(f"  wrong: {it}\n" for it in wrong),
                            *(f"  lower: {it}\n" for it in lower),
                        ]
                    ),
                    end="",
                )
            is_right = is_right and not wrong
            stored[run.name] = found
    if is_stored:
        write_stored(stored)
    return is_right or is_stored


def words_of(arguments: list[str]) -> tuple[list[str], bool, list[Run]]:
    """Parses the arguments: the program's path if one is named, whether to store the figures, and
    the runs.
    """
    named, is_stored = list[str](), False
    while arguments[:1] in (["--program"], ["--store"]):
        if arguments[0] == "--store":
            is_stored, arguments = True, arguments[1:]
        elif len(arguments) > 1:
            named, arguments = arguments[:2], arguments[2:]
        else:
            sys.exit(__doc__)
    unknown = set(arguments) - {run.name for run in RUNS}
    if unknown:
        sys.exit(
            f"effort: no run has the name {', '.join(sorted(unknown))}: "
            f"{', '.join(run.name for run in RUNS)}"
        )
    return named, is_stored, [run for run in RUNS if not arguments or run.name in arguments]


def programs_of(named: list[str], runs: list[Run]) -> dict[str, str]:
    """Returns the path of each program that `runs` need, by the program's name. psi_oomd is
    always included, because it generates the inputs.
    """
    others = {run.program for run in runs} - {"psi_oomd"}
    return {"psi_oomd": program_of(named)[0], **{name: program_of([], name)[0] for name in others}}


def main(arguments: list[str]) -> int:
    named, is_stored, runs = words_of(arguments)
    missing = [tool for tool in TOOLS if shutil.which(tool) is None]
    if missing:
        print(
            f"effort: not found: {', '.join(missing)}, which are Debian's packages of these names",
            file=sys.stderr,
        )
        return 2
    try:
        is_right = compare(runs, programs_of(named, runs), is_stored)
    except (Failed, SystemExit, subprocess.CalledProcessError) as failed:
        print(f"effort: {failed}", file=sys.stderr)
        return 2
    return 0 if is_right else 1


if __name__ == "__main__":
    sys.exit(main(sys.argv[1:]))
