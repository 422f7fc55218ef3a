"""Prints the events of a recording, one a line.

  tools/events RECORDING
  tools/events RECORDING --table

RECORDING is the folder that tools/record wrote. A line has the time in ns (CLOCK_MONOTONIC), the
processor, the event's name, and its fields: the task that wrote it, and what psitrace reads of the
event. A line `TIME CPU lost N` says that N events were lost before that time, or an unknown number
if N is 0. Processors come one after another; `sort -n` puts the lines of all in the order of time.

The program psi_convert decodes the pages. --table prints the table that it needs, made of the
recording's `formats`, and runs nothing.

The status is 0 if all events were printed, and 2 for a usage error, if RECORDING can't be read, and
if a page is malformed: then the events before it were printed, and the message names its file, its
page, and the byte of the file at which the fault is.
"""
from __future__ import annotations

import os
import re
import select
import subprocess
import tempfile

from psicli.fault import Fault
from psicli.parser import Parser
from psicli.running import run, write
from psicli.status import Status
from psiread.files import Raw, parts_of
from psiread.meta import Meta, meta_of
from psiread.source import Unreadable
from psiread.table import table_of
from psirec.layout import raw_name
from psireplay.program import TOP, built_program

LAUNCHER = os.path.join(TOP, "psi_convert")
VARIABLE = "PSI_CONVERT"
# The program's message for a malformed page, and the program's exit status after a failed write.
PAGE_MESSAGE = re.compile(r"(.*) page (\d+) byte (\d+): (\w+)\n")
WRITE_FAULT = 6
CAUSES = {
    "TooLong": "its header reports more bytes than the page has",
    "ShortRecord": "a record is too short for its event",
    "TooMany": "the file has too many pages",
}
PIECE = 8 << 20


def program_path() -> str:
    """Returns the path of psi_convert: the value of the variable PSI_CONVERT, or the built program
    if it isn't set.
    """
    named = os.environ.get(VARIABLE)
    return os.path.abspath(named) if named else built_program(LAUNCHER)


def unpacked(folder: str, processor: int, most: int | None, place: str) -> str:
    """Returns the path of a file with all pages of a processor. If the recording has the pages in
    parts, they are joined in a new file in the folder `place`. Raises Unreadable if compressed
    parts have more than `most` bytes.
    """
    path = os.path.join(folder, raw_name(processor))
    if not parts_of(folder, processor):
        Raw(folder, processor, most).file.close()
        return os.path.abspath(path)
    pages, path = Raw(folder, processor, most), os.path.join(place, raw_name(processor))
    with open(path, "wb") as file:
        while piece := pages.read(PIECE):
            file.write(piece)
    return path


def page_size(table: str) -> int:
    """Returns the size of a page (bytes), from the second line of a table."""
    return int(table.split("\n")[1].split(" ")[1])


def fault_text(message: str, size: int) -> str:
    """Returns an error message for a malformed page, with the offset (bytes) of the fault in the
    file and the cause in words. `size` is the size of a page (bytes).
    """
    found = PAGE_MESSAGE.fullmatch(message)
    if not found:
        return f"psi_convert: {message.strip()}"
    name, page, byte = os.path.basename(found[1]), int(found[2]), int(found[3])
    cause = found[4]
    return f"{name}: page {page}, at byte {page * size + byte}: {CAUSES[cause]} ({cause})"


def has_no_reader() -> bool:
    """Whether standard output is a pipe whose reader has closed it."""
    output = select.poll()
    output.register(1, 0)
    return any(event & select.POLLERR for _, event in output.poll(0))


def print_events(folder: str, meta: Meta, table: str) -> int:
    """Runs psi_convert for all processors of a recording, and returns the exit status."""
    with tempfile.TemporaryDirectory() as place:
        name = os.path.join(place, "table")
        with open(name, "w", encoding="utf-8", errors="surrogateescape") as file:
            file.write(table)
        paths = [unpacked(folder, it, meta.bytes(), place) for it in range(meta.processors())]
        program = program_path()
        try:
            done = subprocess.run([program, "events", name, *paths], stderr=subprocess.PIPE)
        except OSError as fault:
            raise Fault(f"{program} can't be run ({fault.strerror})") from None
    message = done.stderr.decode("utf-8", "surrogateescape")
    if done.returncode == WRITE_FAULT and has_no_reader():
        raise BrokenPipeError
    if done.returncode:
        raise Fault(fault_text(message, page_size(table)))
    return Status.DONE


def events() -> int:
    """Prints the events or the table, and returns the exit status."""
    words = Parser(__doc__)
    words.add_argument("recording", metavar="RECORDING", help="the folder of a recording")
    words.add_argument("--table", action="store_true", help="print the table, and no events")
    values = words.values()
    folder = values["recording"]
    if os.path.exists(folder) and not os.path.isdir(folder):
        raise Unreadable(f"{folder}: a recording is a folder")
    meta = meta_of(folder)
    fault = meta.version_fault()
    if fault:
        raise Unreadable(fault)
    table = table_of(folder)
    if values["table"]:
        write(table.encode("utf-8", "surrogateescape"))
        return Status.DONE
    return print_events(folder, meta, table)


def main() -> int:
    """Runs the command; returns the exit status."""
    return run(events)
