"""The command tools/sample: samples the pressure and the memory of all groups at a fixed interval.
tools/samples converts its output to a trace.

The sampler needs no root, since all users can read the files. It imports no other module of the
tools, so that this file alone can be copied to a machine.
"""
from __future__ import annotations

import argparse
import gzip
import os
import re
import shutil
import signal
import sys
import time
from collections.abc import Callable, Iterator
from types import FrameType
from typing import NoReturn

ABOUT = """\
Reads the pressure, the memory, the swap and the scanned pages of all control groups, and the
machine's memory, every S seconds, and writes them as CSV. It needs no root. tools/samples makes
traces of what it wrote.

examples:
  # every 5 s, until it is stopped
  tools/sample --into samples.csv
  # every second, for an hour
  tools/sample --every 1 --seconds 3600 --into samples.csv
  # in files of 50 MB, with the newest fourteen
  tools/sample --megabytes 50 --files 14 --into samples.csv
"""
STATUS = """\
It runs until SIGINT or SIGTERM, or for --seconds. The status is 2 for a usage error, if there are
no pressure files, or if the output can't be written.
"""
HELP = {
    "every": "the seconds between two rounds (5)",
    "into": (
        "the file to write, which is begun anew when it is full: FILE.1.gz is the newest of the"
        " older ones; standard output if left out"
    ),
    "megabytes": "when a file is full (100)",
    "files": "how many older files there are at most (7)",
    "seconds": "end after that time",
}
HEAD = "time,group,what,values\n"
RESOURCES = ("io", "memory", "cpu")
LINE = re.compile(r"(some|full) avg10=([0-9.]+) avg60=([0-9.]+) avg300=([0-9.]+) total=([0-9]+)")
PLAIN = frozenset(b"ABCDEFGHIJKLMNOPQRSTUVWXYZabcdefghijklmnopqrstuvwxyz0123456789_.@:-\\")
MB, KIB = 1_000_000, 1024
FAILED = 2


class Stopped(Exception):
    """Raised when a signal ends the loop."""


def text_of(path: str) -> str:
    """Returns the text of a file, or an empty string if the file can't be read."""
    try:
        with open(path, encoding="utf-8", errors="replace") as file:
            return file.read()
    except OSError:
        return ""


def trace_path(path: str) -> str:
    """Returns a group's path in the form of a trace: a byte that a trace doesn't allow in a path
    becomes \\xHH, as systemd escapes the names of units.
    """
    parts = [it for it in os.fsencode(path).split(b"/") if it]
    return "/" + "/".join(
        "".join(chr(byte) if byte in PLAIN else f"\\x{byte:02x}" for byte in it) for it in parts
    )


def pressure_line(head: str, resource: str, text: str) -> str:
    """Returns the line of output for a pressure file: `head` (the time and the group), the totals
    of some and full (us), and six averages (percent). Returns an empty string if the file has no
    line `some`. The totals of full are 0 if an old kernel's file has no line `full`.
    """
    found = {it[1]: it for it in LINE.finditer(text)}
    if "some" not in found:
        return ""
    some, full = found["some"], found.get("full")
    averages = ",".join([*some.groups()[1:4], *(full.groups()[1:4] if full else ("0.00",) * 3)])
    return f"{head},{resource},{some[5]},{full[5] if full else 0},{averages}\n"


def memory_line(head: str, folder: str) -> str:
    """Returns the line of output for a group's memory: `head` (the time and the group), memory and
    swap (bytes), and the count of scanned pages, if known. Returns an empty string if the group has
    no memory controller.
    """
    current = text_of(f"{folder}/memory.current").strip()
    if not current.isdigit():
        return ""
    swap = text_of(f"{folder}/memory.swap.current").strip()
    scans = re.search(r"^pgscan ([0-9]+)$", text_of(f"{folder}/memory.stat"), re.MULTILINE)
    return (
        f"{head},mem,{current},{swap if swap.isdigit() else 0}{',' + scans[1] if scans else ''}\n"
    )


def folders(root: str) -> Iterator[str]:
    """Yields the folders of all groups, each before its children."""
    pending = [root]
    while pending:
        folder = pending.pop()
        yield folder
        try:
            with os.scandir(folder) as entries:
                pending += sorted(
                    (it.path for it in entries if it.is_dir(follow_symlinks=False)), reverse=True
                )
        except OSError:
            continue


class Machine:
    """The pressure and memory files of a machine. Their paths begin with `top`, which is empty
    except in tests.
    """

    def __init__(self, top: str) -> None:
        self.proc, self.groups = f"{top}/proc", f"{top}/sys/fs/cgroup"
        if os.path.isdir(f"{self.groups}/unified/cgroup.controllers") or not os.path.exists(
            f"{self.groups}/cgroup.controllers"
        ):
            self.groups = f"{self.groups}/unified"

    def round(self, now: float) -> str:
        """Samples all groups and the machine, and returns the lines of output. `now` is the time (s
        since 1970).
        """
        head = f"{now:.3f}"
        lines = [
            pressure_line(f"{head},/", it, text_of(f"{self.proc}/pressure/{it}"))
            for it in RESOURCES
        ]
        known = dict(
            re.findall(r"^(\w+): +([0-9]+) kB$", text_of(f"{self.proc}/meminfo"), re.MULTILINE)
        )
        if "MemTotal" in known:
            sizes = {
                name: int(known.get(name, 0)) * KIB
                for name in ("MemTotal", "MemAvailable", "SwapTotal", "SwapFree")
            }
            lines.append(
                f"{head},/,host,{sizes['MemTotal']},{sizes['SwapTotal']},{sizes['SwapFree']}\n"
            )
            used, swap = (
                sizes["MemTotal"] - sizes["MemAvailable"],
                sizes["SwapTotal"] - sizes["SwapFree"],
            )
            lines.append(f"{head},/,mem,{used},{swap},0\n")
        for folder in folders(self.groups) if os.path.isdir(self.groups) else ():
            path = trace_path(folder[len(self.groups) :])
            if path != "/":
                lines += [
                    pressure_line(f"{head},{path}", it, text_of(f"{folder}/{it}.pressure"))
                    for it in RESOURCES
                ]
                lines.append(memory_line(f"{head},{path}", folder))
        return "".join(lines)


class Output:
    """The output file and the older files next to it, or standard output if `name` is None."""

    def __init__(self, name: str | None, most: int, older: int) -> None:
        self.name, self.most, self.older = name, most, older
        self.size = os.path.getsize(name) if name and os.path.exists(name) else 0
        if not self.size:
            self.put(HEAD)

    def put(self, text: str) -> None:
        """Writes the lines of a round. Rotates the file first if it would become too large."""
        data = text.encode()
        if self.name is None:
            sys.stdout.buffer.write(data)
            sys.stdout.buffer.flush()
            return
        if self.size and self.size + len(data) > self.most:
            self.rotate(self.name)
            data, self.size = HEAD.encode() + data, 0
        with open(self.name, "ab") as file:
            file.write(data)
        self.size += len(data)

    def rotate(self, name: str) -> None:
        """Compresses the file, renames the older files, and removes the oldest."""
        for number in range(self.older, 0, -1):
            before = f"{name}.{number - 1}.gz" if number > 1 else f"{name}.part"
            if number == 1 and self.older:
                with open(name, "rb") as source, gzip.open(before, "wb", 6) as target:
                    shutil.copyfileobj(source, target)
            if os.path.exists(before):
                os.replace(before, f"{name}.{number}.gz")
        os.remove(name)


def number(least: float, most: float) -> Callable[[str], float]:
    """Returns a parser for numbers from `least` to `most`."""

    def read(word: str) -> float:
        if not re.fullmatch(r"[0-9]{1,9}(\.[0-9]{1,3})?", word) or not least <= float(word) <= most:
            raise argparse.ArgumentTypeError(f"{word} isn't a number from {least:g} to {most:g}")
        return float(word)

    return read


class Words(argparse.ArgumentParser):
    """A parser of command-line arguments that exits with the status FAILED on a usage error."""

    def error(self, message: str) -> NoReturn:
        self.exit(
            FAILED,
            f"{self.prog}: {message}\nusage: {self.prog} [OPTION ..]; --help has the options\n",
        )


def parser() -> Words:
    form = argparse.RawDescriptionHelpFormatter
    words = Words(
        prog="sample", description=ABOUT, epilog=STATUS, formatter_class=form, allow_abbrev=False
    )
    words.add_argument("--every", metavar="S", type=number(0.5, 600), default=5.0,
                       help=HELP["every"])  # fmt: skip
    words.add_argument("--into", metavar="FILE", help=HELP["into"])
    words.add_argument("--megabytes", metavar="N", type=number(1, 100_000), default=100.0,
                       help=HELP["megabytes"])  # fmt: skip
    words.add_argument("--files", metavar="N", type=number(0, 1000), default=7.0,
                       help=HELP["files"])  # fmt: skip
    words.add_argument("--seconds", metavar="S", type=number(0, 10**9), help=HELP["seconds"])
    words.add_argument("--root", metavar="FOLDER", default="",
                       help="a folder in place of the machine's own /, for tests")  # fmt: skip
    return words


def stop(_number: int, _frame: FrameType | None) -> None:
    raise Stopped


def run(options: argparse.Namespace) -> int:
    """Writes a round of samples at each interval, until a signal or the requested end. Returns the
    exit status.
    """
    machine = Machine(options.root)
    if not machine.round(0.0).count(",/,io,"):
        print(
            (
                f"sample: no pressure files in {options.root}/proc/pressure: the kernel needs"
                " CONFIG_PSI, and perhaps psi=1 at boot"
            ),
            file=sys.stderr,
        )
        return FAILED
    output = Output(options.into, int(options.megabytes * MB), int(options.files))
    for name in (signal.SIGINT, signal.SIGTERM):
        signal.signal(name, stop)
    begin = due = time.monotonic()
    try:
        while options.seconds is None or due <= begin + options.seconds:
            output.put(machine.round(time.time()))
            due += options.every * max(1, -(-(time.monotonic() - due) // options.every))
            time.sleep(
                max(
                    0.0,
                    min(due, due if options.seconds is None else begin + options.seconds)
                    - time.monotonic(),
                )
            )
    except Stopped:
        pass
    return 0


def main() -> int:
    """Runs the command, and returns the exit status."""
    try:
        return run(parser().parse_args())
    except OSError as fault:
        print(f"sample: {fault.filename or 'the output'}: {fault.strerror}", file=sys.stderr)
        return FAILED
