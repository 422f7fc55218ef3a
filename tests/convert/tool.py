"""Checks of `tools/events`: its output for recordings, with one or several page files per
processor, and its message for a malformed page.
"""
from __future__ import annotations

import gzip
import os
import shutil
import struct
import subprocess
import sys

from harness import must, must_be
from shared.program import TOP
from shared.stored import PAGE, recording

from psiread.table import table_of

TOOL = os.path.join(TOP, "tools", "events")
RECORDING = "mixlost"


def run(*words: str) -> tuple[int, bytes, str]:
    """Runs tools/events, and returns its exit status, its output and its message."""
    done = subprocess.run([sys.executable, TOOL, *words], capture_output=True, check=False)
    return done.returncode, done.stdout, done.stderr.decode()


def printed(program: str, folder: str, place: str) -> bytes:
    """Returns the output of psi_convert for the pages of both processors of a recording. The table
    is written into the folder `place`.
    """
    table = os.path.join(place, "table")
    with open(table, "w", encoding="utf-8") as file:
        file.write(table_of(folder))
    words = [
        program, "events", table, *(os.path.join(folder, f"cpu{number}.raw") for number in (0, 1))
    ]
    return subprocess.run(words, stdout=subprocess.PIPE, check=True).stdout


def check_tool(program: str, place: str) -> None:
    with recording(RECORDING) as folder:
        expected = printed(program, folder, place)
        must(expected.count(b"\n") > 1000, "more than 1,000 lines are printed")
        must_be("the events", run(folder), (0, expected, ""))
        must_be("the table", run(folder, "--table"), (0, table_of(folder).encode(), ""))


def check_tool_on_parts(program: str, place: str) -> None:
    with recording(RECORDING) as folder:
        expected = printed(program, folder, place)
        path = os.path.join(folder, "cpu1.raw")
        with open(path, "rb") as file:
            data = file.read()
        os.remove(path)
        with gzip.open(os.path.join(folder, "cpu1.0.raw.gz"), "wb") as file:
            file.write(data[: 2 * PAGE])
        with open(os.path.join(folder, "cpu1.1.raw"), "wb") as part:
            part.write(data[2 * PAGE :])
        must_be("the events", run(folder), (0, expected, ""))


def check_tool_on_a_malformed_page(program: str, place: str) -> None:
    with recording(RECORDING) as folder:
        path = os.path.join(folder, "cpu1.raw")
        with open(path, "r+b") as file:
            file.truncate(PAGE)
        expected = printed(program, folder, place)
        with open(path, "ab") as file:
            file.write(struct.pack("<QQ", 1, PAGE) + bytes(PAGE - 16))
        message = (
            "events: cpu1.raw: page 1, at byte 4104: its header reports more bytes than the page "
            "has (TooLong)\n"
        )
        must_be("the events", run(folder), (2, expected, message))


def check_tool_without_input(program: str, place: str) -> None:
    must_be("no folder", run(os.path.join(place, "none"))[::2],
            (2, f"events: {place}/none: No such file or directory\n"))
    with recording(RECORDING) as folder:
        os.rename(os.path.join(folder, "cpu1.raw"), os.path.join(place, "cpu1.raw"))
        must_be("no pages", run(folder), (2, b"", "events: cpu1.raw: No such file or directory\n"))
        shutil.copy(os.path.join(place, "cpu1.raw"), folder)
        with open(os.path.join(folder, "formats"), "w", encoding="utf-8") as file:
            file.write("== header_page\n")
        must_be("the status without formats", run(folder)[:2], (2, b""))


def check_tool_without_a_reader(program: str, place: str) -> None:
    with recording("cg-2") as folder:
        line = f"{sys.executable} {TOOL} {folder} | head -n 1; echo ${{PIPESTATUS[0]}}"
        done = subprocess.run(["bash", "-c", line], capture_output=True, text=True, check=False)
        must_be("what is said", done.stderr, "")
        must_be("the status", done.stdout.splitlines()[1:], ["2"])
        full = subprocess.run(f"{sys.executable} {TOOL} {folder} >/dev/full", shell=True,
                              capture_output=True, text=True, check=False)
        must_be("a full device", (full.returncode, full.stderr),
                (2, "events: psi_convert: write fault\n"))
