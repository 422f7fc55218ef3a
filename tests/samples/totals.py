"""Checks that a replay prints the sampled totals, for stored recordings and for simulated machines.
"""
from __future__ import annotations

import os
import re
import sys
import tarfile
from collections.abc import Iterator
from typing import NamedTuple

from harness import must, must_be

from . import TOP, Room, Row, Totals, must_match, room_of

sys.path.append(os.path.join(TOP, "bench"))

from machines import Machine, big_tree, small_tree  # noqa: E402
from sampling import csv_of  # noqa: E402

STORED = os.path.join(TOP, "tests", "data")
RECORDINGS = sorted(
    it.removesuffix(".tar.xz") for it in os.listdir(STORED) if it.endswith(".tar.xz")
)
# The largest percentage of a recording's totals that may be wrong. Even so, each wrong total must
# be reported.
MOST_OFF = 1.5
OFF = re.compile(
    r"samples: (\S+) (io|memory|cpu) (some|full): (\d+) totals are off, by (\d+) us at most"
)
SUMMARY = re.compile(
    r"samples: (\d+) lines on (\d+) processors; (\d+) totals were compared with a replay"
)
READING = re.compile(
    r"sample (\d+) (\S+) (io|memory|cpu)\nsome [^\n]*total=(\d+)\nfull [^\n]*total=(\d+)\n"
)


class Summary(NamedTuple):
    """The summary of tools/samples about a trace: the number of compared totals, the number of
    wrong ones, and the largest error (us) by group and resource.
    """

    compared: int
    off: int
    most: dict[tuple[str, str], int]

    def near(self, path: str, resource: str) -> int:
        """Returns the largest allowed error (us) of the totals of a group and a resource."""
        return max(2, self.most.get((path, resource), 0))


def summary_of(said: str) -> Summary:
    found = SUMMARY.search(said)
    must(found, f"there is a summary: {said}")
    assert found
    off = OFF.findall(said)
    most: dict[tuple[str, str], int] = {}
    for path, resource, _, _, us in off:
        most[path, resource] = max(int(us), most.get((path, resource), 0))
    return Summary(int(found[3]), sum(int(it[3]) for it in off), most)


def growths(text: str) -> dict[tuple[str, str], tuple[int, int]]:
    """Returns the growth (us) of the totals of each pressure file from the first reading to the
    last. Only groups that are in all readings are included.
    """
    found: dict[tuple[str, str], list[tuple[int, int]]] = {}
    numbers = set()
    for number, path, resource, some, full in READING.findall(text):
        numbers.add(number)
        found.setdefault((path, resource), []).append((int(some), int(full)))
    whole = {key: values for key, values in found.items() if len(values) == len(numbers)}
    return {
        key: (values[-1][0] - values[0][0], values[-1][1] - values[0][1])
        for key, values in whole.items()
    }


def recordings(room: Room) -> Iterator[tuple[str, str]]:
    """Yields the name and the folder of each stored recording."""
    for name in RECORDINGS:
        with tarfile.open(os.path.join(STORED, f"{name}.tar.xz")) as archive:
            archive.extractall(room.path)
        yield name, os.path.join(room.path, name)


def check_stored_recordings(program: str) -> None:
    """The last printed totals equal the growth of the machine's totals from the first reading to
    the last, apart from the errors that tools/samples reports.
    """
    with room_of(program) as room:
        for name, folder in recordings(room):
            done = room.make(folder)
            summary = summary_of(done.said)
            is_right = summary.compared > 100 and summary.off * 100 <= MOST_OFF * summary.compared
            must(is_right, f"{name}: totals that are off: {done.said}")
            totals = room.totals()
            end = max(at for at, _, _ in totals)
            with open(os.path.join(folder, "pressure"), encoding="utf-8") as file:
                wanted = growths(file.read())
            must(len(wanted) >= 15, f"{name}: groups with all readings: {len(wanted)}")
            for (path, resource), (some, full) in wanted.items():
                found = totals[end, path, resource]
                full = 0 if (path, resource) == ("/", "cpu") else full
                near = summary.near(path, resource)
                is_near = abs(found[0] - some) <= near and abs(found[1] - full) <= near
                must(is_near,
                     f"{name}: {path} {resource} grew by {found} us, not {(some, full)} us")


def simulated(room: Room, machine: Machine, every: int) -> list[Row]:
    """Writes a simulated machine's samples, one each `every` s, to it.csv. Returns the rows of
    pressure.
    """
    trace = os.path.join(room.path, "machine.trace")
    with open(trace, "w", encoding="ascii") as file:
        file.writelines(f"{it}\n" for it in machine.lines())
    text = csv_of(room.program, trace, every)
    room.file("it.csv", text)
    rows = []
    for line in text.splitlines()[1:]:
        time, group, what, some, full = line.split(",")[:5]
        if what in ("io", "memory", "cpu"):
            rows.append(Row(float(time) - 1_700_000_000, group, what, int(some), int(full)))
    return rows


def must_reproduce(program: str, machine: Machine, every: int, most_off: float) -> None:
    """Raises unless the replay prints a machine's totals as sampled. At most `most_off` percent of
    them may be wrong, and each of those must be reported.
    """
    with room_of(program) as room:
        rows = simulated(room, machine, every)
        done = room.make("it.csv")
        summary = summary_of(done.said)
        must(summary.off * 100 <= most_off * summary.compared,
             f"too many totals are off: {done.said}")
        count = must_match(room.totals(), rows, summary.near)
        must(count > len(rows) // 3, f"only {count} samples of {len(rows)} were compared")


def check_small_tree(program: str) -> None:
    must_reproduce(program, Machine(11, 120, 4, small_tree(7), 7), 2, 0.1)
    must_reproduce(program, Machine(12, 120, 4, small_tree(7), 7), 6, 0.1)


def check_tree_of_57_groups(program: str) -> None:
    must_reproduce(program, Machine(13, 60, 16, big_tree(8, 6), 14), 4, 0)


def check_tree_of_1000_groups(program: str) -> None:
    tree = big_tree(40, 24)
    must_be("the groups of the tree", len(tree), 1000)
    must_reproduce(program, Machine(14, 16, 32, tree, 46), 4, 0.5)


def check_a_wrong_program_is_seen(program: str) -> None:
    """If the replay contradicts the samples, tools/samples ends with status 4 and writes nothing.
    """
    with room_of(program) as room:
        simulated(room, Machine(15, 20, 4, small_tree(3), 3), 2)
        script = (
            f"#!/bin/sh\n{program} \"$@\" | sed 's/^\\(some "
            ".*total=\\)\\([0-9]*\\)\\([0-9]\\)\\([0-9]\\)$/\\1\\2\\4\\3/'\n"
        )
        wrong = os.path.join(room.path, room.file("wrong", script, 0o755))
        done = room.run("samples", "it.csv", "-o", "it.trace", program=wrong, status=4)
        must("totals differ: nothing is written" in done.said and "by the samples" in done.said,
             f"what it says: {done.said}")
        must_be("files that are left", sorted(it for it in os.listdir(room.path) if "trace" in it),
                ["machine.trace"])


def check_totals_of_wakeups_by_the_program(program: str) -> None:
    """psi_oomd accepts the trace. The tasks that tools/samples adds have numbers that no kernel
    assigns. The group that marks the trace has no report.
    """
    with room_of(program) as room:
        simulated(room, Machine(16, 20, 4, small_tree(3), 3), 2)
        room.make("it.csv")
        room.run("psi_oomd", "check", "it.trace", status=0)
        numbers = [
            int(line.split()[2])
            for line in room.text("it.trace").splitlines()
            if line.split()[1] == "fork"
        ]
        must(len(numbers) > 5 and min(numbers) >= 4_000_000_000, f"numbers of tasks: {numbers[:5]}")
        groups: Totals = room.totals()
        must({path for _, path, _ in groups} >= {"/", "/system.slice"},
             "groups are there, and the one of the mark isn't")
        must(not any("psi-samples" in path for _, path, _ in groups),
             "the group of the mark has no report")
