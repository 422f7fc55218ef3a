"""Reads samples from text: CSV, JSON lines, and the output of a shell loop over the pressure files.
"""
from __future__ import annotations

import json
import os
import re
from collections.abc import Callable, Iterable

from psicli.fault import Fault
from psirec.layout import escaped_path

from .block import RESOURCES
from .rows import AVERAGES, HOST, MEMORY, ROOT, Put, hundredths, ns_of, whole

Lines = Iterable[tuple[int, str]]
# A line of a pressure file, as the kernel prints it.
PRESSURE_LINE = re.compile(
    r"(some|full) avg10=([0-9.]+) avg60=([0-9.]+) avg300=([0-9.]+) total=([0-9]+)"
)
MEMORY_FILES = {"memory.current": 0, "memory.swap.current": 1}


def us(text: str) -> int:
    """Parses a total (us)."""
    if not (text.isascii() and text.isdigit() and len(text) <= 18):
        raise ValueError(f"the total {text!r} isn't a whole number of us")
    return int(text)


def put_totals(
    put: Put,
    time: int,
    group: str,
    resource: str,
    words: list[str],
    line: int,
    has_averages: bool = True,
) -> None:
    """Stores a pressure file's totals of some and full (us), which `words` begins with. With
    `has_averages`, also stores the six averages (percent) if `words` contains them.
    """
    base = 2 * RESOURCES.index(resource)
    put(time, group, base, (us(words[0]), us(words[1])), line)
    if has_averages and len(words) == 8:
        put(time, group, AVERAGES + 3 * base, tuple(map(hundredths, words[2:])), line)


def read_csv(lines: Lines, put: Put, has_averages: Callable[[], bool]) -> None:
    """Reads CSV lines: `TIME,GROUP,RESOURCE,SOME,FULL`, with or without six averages,
    `TIME,GROUP,mem,CURRENT,SWAP[,SCANS]` and `TIME,/,host,TOTAL,SWAP_TOTAL,SWAP_FREE`. Skips a
    first line with the names of columns.
    """
    last, time = "", 0
    for number, line in lines:
        words = line.split(",")
        if not line or number == 1 and words[0] == "time":
            continue
        if words[0] != last:
            last, time = words[0], ns_of(words[0])
        group, what, values = words[1], words[2], words[3:]
        if what in RESOURCES and len(values) in (2, 8):
            put_totals(put, time, group, what, values, number, has_averages())
        elif what == "mem" and len(values) in (2, 3):
            put(time, group, MEMORY, tuple(map(whole, filter(None, values))), number)
        elif what == "host" and len(values) == 3:
            put(time, ROOT, HOST, tuple(map(whole, values)), number)
        else:
            raise ValueError(
                f"{what!r} with {len(values)} values: io, memory or cpu has 2 or 8, mem 2 or 3,"
                " host 3"
            )


def read_json_lines(lines: Lines, put: Put) -> None:
    """Reads a JSON object per line, with `time` and `group`. The object also has `some` and `full`
    (us) for each resource; or `current`, `swap` and `pgscan`; or `mem_total`, `swap_total` and
    `swap_free`.
    """
    for number, line in lines:
        if not line.strip():
            continue
        value = json.loads(line, parse_float=str)
        if not isinstance(value, dict):
            raise ValueError("a line is no object")
        time, group = ns_of(str(value["time"])), str(value.get("group", ROOT))
        for resource in RESOURCES:
            if resource in value:
                found = value[resource]
                put_totals(
                    put, time, group, resource, [str(found["some"]), str(found["full"])], number
                )
        if "current" in value:
            sizes = [
                value["current"],
                value.get("swap", 0),
                *([value["pgscan"]] if "pgscan" in value else []),
            ]
            put(time, group, MEMORY, tuple(whole(str(it)) for it in sizes), number)
        if "mem_total" in value:
            names = ("mem_total", "swap_total", "swap_free")
            put(time, ROOT, HOST, tuple(whole(str(value.get(it, 0))) for it in names), number)


# ---------------------------------------------------------------- the output of a shell loop


class Round:
    """The files that a shell loop printed in one round, by group: the totals of each pressure file,
    and the memory sizes (bytes).
    """

    def __init__(self, time: int) -> None:
        self.time = time
        self.totals: dict[tuple[str, str], dict[str, tuple[list[str], int]]] = {}
        self.sizes: dict[str, list[int | None]] = {}
        self.lines: dict[str, int] = {}

    def take(self, number: int, line: str) -> None:
        """Parses `PATH:LINE`, which contains a line of the file PATH. `number` is the line number
        in the input.
        """
        path, _, text = line.partition(":")
        folder, name = os.path.split(path)
        if folder == "/proc/pressure" or name.endswith(".pressure"):
            group = ROOT if folder == "/proc/pressure" else group_of(folder)
            found = PRESSURE_LINE.fullmatch(text.strip())
            resource = name.removesuffix(".pressure")
            if not found:
                raise ValueError(f"no line of a pressure file: {text.strip()!r}")
            if resource in RESOURCES:
                self.totals.setdefault((group, resource), {})[found[1]] = [
                    found[5],
                    *found.groups()[1:4],
                ], number
        elif name in MEMORY_FILES:
            self.sizes.setdefault(group_of(folder), [None, 0, None])[MEMORY_FILES[name]] = whole(
                text.strip()
            )
            self.lines[group_of(folder)] = number
        elif name == "memory.stat" and text.startswith("pgscan "):
            self.sizes.setdefault(group_of(folder), [None, 0, None])[2] = whole(text.split()[1])

    def put_all(self, put: Put) -> None:
        """Stores the values of the round. If an old kernel's file `cpu` has no line `full`, its
        total is 0.
        """
        for (group, resource), lines in self.totals.items():
            some, number = lines["some"]
            full, _ = lines.get("full", (["0", "0", "0", "0"], number))
            put_totals(
                put, self.time, group, resource, [some[0], full[0], *some[1:], *full[1:]], number
            )
        for group, sizes in self.sizes.items():
            if sizes[0] is not None:
                put(
                    self.time,
                    group,
                    MEMORY,
                    tuple(it for it in sizes if it is not None),
                    self.lines[group],
                )


def group_of(folder: str) -> str:
    """Returns the path of the group whose folder this is, relative to the mount point of the cgroup
    file system.
    """
    for mount in ("/sys/fs/cgroup/unified", "/sys/fs/cgroup"):
        if folder == mount or folder.startswith(mount + "/"):
            return escaped_path(folder[len(mount) :].encode("utf-8", "surrogateescape")) or ROOT
    return escaped_path(folder.encode("utf-8", "surrogateescape"))


def read_loop(lines: Lines, put: Put) -> None:
    """Reads the output of a shell loop. Each round is a line with the time (s since 1970), followed
    by lines `PATH:LINE` of the files, as `grep . FILE ..` prints them.
    """
    found: Round | None = None
    for number, line in lines:
        if re.fullmatch(r"[0-9]+(\.[0-9]+)?", line):
            if found:
                found.put_all(put)
            found = Round(ns_of(line))
        elif line and found is None:
            raise Fault("no time precedes the first file")
        elif line and found is not None:
            found.take(number, line)
    if found:
        found.put_all(put)
