#!/usr/bin/env python3
"""Times the gate: runs `rt ci` at the top of the repository, and reports how long each crate
took.

usage: bench/gate.py [--anew | --dear]

--anew  also proves what an earlier run on this machine proved and stored. The option is ignored if
        the installed `rt` doesn't have it.
--dear  runs nothing. It lists the functions whose stored borrow-checker walk has at least 3 MB, the
        largest first. A walk becomes large if a deeply nested value goes out of scope at many exits
        (docs/DECISIONS.md, "What makes proofs expensive").

Prints the output of `rt ci` and the wall-clock minutes, and then a table with a row for each crate,
the costliest first, and a total. Three columns have the minutes of processor time for the crate's
proofs, for the proofs of its tests, and for its must-fail edits. Three more columns have the times
at which its first check began, its proofs ended and its last check ended (minutes after the start).
The running checks are sampled once a second, so the time of a crate that takes only a few seconds
is too low. The last lines have the total times that the system counted. To time a machine with two
processors, run it under `taskset -c 0,1`. The exit status is that of `rt ci`.
"""

from __future__ import annotations

import collections
import os
import pathlib
import re
import resource
import subprocess
import sys
import time
from typing import NamedTuple

ROOT = pathlib.Path(__file__).resolve().parent.parent
TICKS = os.sysconf("SC_CLK_TCK")
KINDS = ("proof", "tests", "edits")
# `--dear` lists functions whose stored borrow-checker walk has at least this size (bytes).
DEAR = 3_000_000


class Work(NamedTuple):
    """The processor time (s) of all checks of one kind for a crate, and the times at which the
    first and the last of these checks were sampled (s after the start).
    """

    seconds: float
    begun: float
    ended: float


Works = dict[tuple[str, str], Work]


def words_of(process: pathlib.Path) -> list[str]:
    """Returns the arguments of a running process, or an empty list if the process has ended."""
    try:
        return process.joinpath("cmdline").read_text(errors="replace").split("\0")
    except OSError:
        return []


def check_of(process: pathlib.Path, gate: int) -> tuple[str, str] | None:
    """Returns the crate that a process checks and the kind of the check (see KINDS). Returns None
    if the process isn't a check that the process `gate` started.

    Child processes of a check aren't counted by themselves. When a child ends, the system adds its
    time to the time of the check.
    """
    words = words_of(process)
    if "--crate-name" not in words or not words[0].endswith("/rattle") or parent_of(
        process
    ) != gate:
        return None
    crate = words[words.index("--crate-name") + 1]
    try:
        folder = os.readlink(process / "cwd")
    except OSError:
        return None
    if not folder.startswith(f"{ROOT}/crates/"):
        return crate, "edits"
    return crate, "tests" if "--test" in words else "proof"


def numbers_of(process: pathlib.Path) -> list[str]:
    """Returns the fields of /proc/PID/stat after the process's name (see proc(5)), or an empty list
    if the process has ended.
    """
    try:
        return process.joinpath("stat").read_text().rpartition(")")[2].split()
    except OSError:
        return []


def parent_of(process: pathlib.Path) -> int | None:
    """Returns the process id of a process's parent, or None if the process has ended."""
    numbers = numbers_of(process)
    return int(numbers[1]) if numbers else None


def processor_time(process: pathlib.Path) -> float:
    """Returns the processor time (s) that a process and its ended children have used."""
    return sum(map(int, numbers_of(process)[11:15])) / TICKS


def watch(gate: subprocess.Popen[bytes], start: float) -> Works:
    """Samples the running checks of the gate until the gate ends. Returns the processor time (s) by
    crate and kind of check. `start` is the gate's start (s, monotonic clock).
    """
    taken: dict[tuple[int, str, str], Work] = {}
    while gate.poll() is None:
        now = time.monotonic() - start
        for process in pathlib.Path("/proc").iterdir():
            found = check_of(process, gate.pid) if process.name.isdigit() else None
            if found is not None:
                key = int(process.name), *found
                taken[key] = Work(processor_time(process),
                                  taken[key].begun if key in taken else now, now)
        time.sleep(1)
    works: Works = {}
    for (_, crate, kind), work in taken.items():
        known = works.get((crate, kind), Work(0, work.begun, work.ended))
        works[crate, kind] = Work(
            known.seconds + work.seconds, min(known.begun, work.begun), max(known.ended, work.ended)
        )
    return works


def row(name: str, works: dict[str, Work]) -> str:
    """Returns the table row of a crate: its processor time (minutes) by kind of check, and the
    times (minutes) at which its first check began, its proofs ended and its last check ended.
    """
    minutes = [works[kind].seconds / 60 if kind in works else 0.0 for kind in KINDS]
    begun = min(work.begun for work in works.values()) / 60
    proved = works["proof"].ended / 60 if "proof" in works else begun
    ended = max(work.ended for work in works.values()) / 60
    return f"{name:<28}" + "".join(f"{it:>8.1f}" for it in (*minutes, begun, proved, ended))


def table(works: Works) -> str:
    """Returns the table: a row for each crate, the costliest first, and a row for the total."""
    crates: dict[str, dict[str, Work]] = collections.defaultdict(dict)
    for (crate, kind), work in works.items():
        crates[crate][kind] = work
    dearest = sorted(crates.items(),
                     key=lambda item: -sum(work.seconds for work in item[1].values()))
    sums = [sum(works[key].seconds for key in works if key[1] == kind) / 60 for kind in KINDS]
    head = f"{'minutes of processor time':<28}" + "".join(
        f"{it:>8}" for it in (*KINDS, "from", "proved", "to")
    )
    whole = f"{'in all':<28}" + "".join(f"{it:>8.1f}" for it in sums)
    return "\n".join([head, *(row(*item) for item in dearest), whole])


def dear_walks() -> list[tuple[int, str, str]]:
    """Returns the size (bytes), the crate and the function of each stored borrow-checker walk of at
    least DEAR bytes, the largest first.
    """
    found: dict[tuple[str, str], int] = {}
    for stored in ROOT.glob("crates/*/out/incremental/*/*.Lts.oantt"):
        crate, size = stored.parts[len(ROOT.parts) + 1], stored.stat().st_size
        if size >= DEAR:
            function = stored.name.removesuffix(".Lts.oantt").partition("-proofs.")[2]
            found[crate, function] = max(size, found.get((crate, function), 0))
    return sorted(((size, *place) for place, size in found.items()), reverse=True)


def keeps_between_runs() -> bool:
    """Returns whether the installed `rt` stores proofs for later runs. Such a version has the
    option `--anew`.
    """
    said = subprocess.run(
        ["rt", "help"], stdout=subprocess.PIPE, stderr=subprocess.STDOUT, text=True, check=False
    ).stdout
    return "--anew" in said


def main() -> int:
    """Runs the gate and prints its times, or lists the large borrow-checker walks (--dear). Returns
    the exit status.
    """
    words = sys.argv[1:]
    if words not in ([], ["--anew"], ["--dear"]):
        print(re.sub(r"\n\n.*", "", __doc__.split("usage: ")[1], flags=re.S), file=sys.stderr)
        return 2
    if words == ["--dear"]:
        for size, crate, function in dear_walks():
            print(f"{size / 1e6:6.1f} MB  {crate}  {function}")
        return 0
    if not keeps_between_runs():
        words = []
    start = time.monotonic()
    gate = subprocess.Popen(["rt", "ci", *words], cwd=ROOT)
    works = watch(gate, start)
    clock, processors = time.monotonic() - start, len(os.sched_getaffinity(0))
    taken = resource.getrusage(resource.RUSAGE_CHILDREN)
    print(table(works))
    print(
        f"by the clock {clock / 60:.1f} minutes on {processors} processors, of whose time "
        f"{(taken.ru_utime + taken.ru_stime) / 60:.1f}"
    )
    print(f"the largest process had {taken.ru_maxrss * 1024 / 1e9:.1f} GB")
    return gate.returncode


if __name__ == "__main__":
    sys.exit(main())
