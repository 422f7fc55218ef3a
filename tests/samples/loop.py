"""Checks of tools/sample, which samples pressure files in a loop. A folder replaces the machine."""
from __future__ import annotations

import gzip
import os

from harness import must, must_be

from . import TOP, Room, room_of

PRESSURE = (
    "some avg10=1.25 avg60=0.50 avg300=0.10 total={some}\n"
    "full avg10=0.25 avg60=0.00 avg300=0.00 total={full}\n"
)
MEMINFO = (
    "MemTotal:        4000 kB\nMemFree:         1000 kB\nMemAvailable:    3000 kB\n"
    "SwapTotal:       2000 kB\nSwapFree:        1500 kB\n"
)


def machine(room: Room) -> None:
    """Writes the files of a machine with a slice, a service whose name contains a blank, and a
    group without pressure files.
    """
    for resource in ("io", "memory", "cpu"):
        room.file(f"top/proc/pressure/{resource}", PRESSURE.format(some=1000, full=10))
    room.file("top/proc/meminfo", MEMINFO)
    room.file("top/sys/fs/cgroup/cgroup.controllers", "memory\n")
    for group, size in (("a.slice", 700), ("a.slice/b c.service", 600)):
        for resource in ("io", "memory", "cpu"):
            room.file(f"top/sys/fs/cgroup/{group}/{resource}.pressure",
                      PRESSURE.format(some=size, full=size // 10))
        room.file(f"top/sys/fs/cgroup/{group}/memory.current", f"{size}000\n")
        room.file(f"top/sys/fs/cgroup/{group}/memory.swap.current", "5\n")
        room.file(f"top/sys/fs/cgroup/{group}/memory.stat", "anon 7\npgscan 42\n")
    os.makedirs(os.path.join(room.path, "top/sys/fs/cgroup/empty"))


def check_one_round(program: str) -> None:
    with room_of(program) as room:
        machine(room)
        done = room.run("sample", "--root", "top", "--seconds", "0", status=0)
        lines = [line.partition(",")[2] for line in done.output.splitlines()]
        shares = "1.25,0.50,0.10,0.25,0.00,0.00"
        wanted = [
            *(f"/,{it},1000,10,{shares}" for it in ("io", "memory", "cpu")),
            "/,host,4096000,2048000,1536000", "/,mem,1024000,512000,0",
        ]
        for path, size in (("/a.slice", 700), ("/a.slice/b\\x20c.service", 600)):
            wanted += [
                *(f"{path},{it},{size},{size // 10},{shares}" for it in ("io", "memory", "cpu")),
                f"{path},mem,{size}000,5,42",
            ]
        must_be("the lines of a round", lines, ["group,what,values", *wanted])


def check_samples_of_rounds(program: str) -> None:
    """tools/samples accepts the files that tools/sample writes."""
    with room_of(program) as room:
        machine(room)
        room.run("sample", "--root", "top", "--every", "1", "--seconds", "4", "--into", "out.csv",
                 status=0)
        done = room.make("out.csv")
        must("of 3 groups" in done.said and "each 1 s" in done.said, f"what is said: {done.said}")
        groups = {path for _, path, _ in room.totals()}
        must_be("groups", groups, {"/", "/a.slice", "/a.slice/b\\x20c.service"})


def check_full_files_are_put_aside(program: str) -> None:
    """A full file is compressed and gets the number 1, and older files get the next numbers. The
    option --files limits the number of these files.
    """
    with room_of(program) as room:
        machine(room)
        full = "time,group,what,values\n" + "x" * 999_990
        for name in ("first", "second", "third"):
            room.file("out.csv", full + name)
            room.run("sample", "--root", "top", "--seconds", "0", "--into", "out.csv",
                     "--megabytes", "1", "--files", "2", status=0)
            must(
                room.text("out.csv").startswith("time,group")
                and room.text("out.csv").count("\n") == 14,
                "the file is begun anew",
            )
        must_be("files", sorted(it for it in os.listdir(room.path) if it != "top"),
                ["out.csv", "out.csv.1.gz", "out.csv.2.gz"])
        for number, name in ((1, "third"), (2, "second")):
            with gzip.open(os.path.join(room.path, f"out.csv.{number}.gz"), "rt") as file:
                must(file.read().endswith(name), f"number {number} is the {name}")


def check_what_it_says_of_faults(program: str) -> None:
    with room_of(program) as room:
        os.makedirs(os.path.join(room.path, "top"))
        done = room.run("sample", "--root", "top", status=2)
        must("no pressure files" in done.said, f"without pressure files: {done.said}")
        machine(room)
        done = room.run("sample", "--root", "top", "--every", "0.1", status=2)
        must("0.1 isn't a number from 0.5 to 600" in done.said, f"a wrong interval: {done.said}")
        done = room.run("sample", "--root", "top", "--seconds", "0", "--into", "no/where", status=2)
        must_be("an output that can't be written", done.said,
                "sample: no/where: No such file or directory\n")


def check_it_stands_alone(program: str) -> None:
    """tools/sample is a single file that runs without other files of the repository."""
    with room_of(program) as room:
        machine(room)
        with open(os.path.join(TOP, "tools/psisamples/loop.py"), encoding="utf-8") as file:
            text = file.read()
        must("from ." not in text and "import psi" not in text, "it imports nothing of the tools")
