"""Reads a trace that psi_oomd accepts, and runs `psi_oomd stall` for the stall times of each group.
"""
from __future__ import annotations

import contextlib
import os
import re
import shutil
import subprocess
import sys
import tempfile
import time
from typing import Iterator, NamedTuple

from psicli.fault import Fault
from psicli.status import ProgramStatus
from psireplay.kinds import folder_message, why_refused
from psireplay.program import ADVICE, LAUNCHER, built_program, program_path
from psireplay.trace import cpus_in, end_in

STALL = re.compile(
    r"stall cpu=([0-9]+) (\S+) ([0-9]+) [0-9]+ ([0-9]+) [0-9]+ ([0-9]+) [0-9]+ [0-9]+(?: [0-9]+)?\n"
)
# The number of bytes in one read, and the time (s) between two updates of the progress line.
PIECE = 1 << 20
OFTEN = 0.5
MESSAGES: dict[int, str] = {
    ProgramStatus.TRACE_REFUSED: "psi_oomd refuses {name}: {said}",
    ProgramStatus.NO_FILE: "no file: {name}",
    ProgramStatus.READ_FAULT: "psi_oomd can't read {name}: {said}",
    ProgramStatus.NO_MEMORY: "psi_oomd found no memory for {name}",
}


class States(NamedTuple):
    """The times (ns) of a group on one processor: waiting for IO, in a memory stall, and waiting
    for the processor.
    """

    io: int
    memory: int
    waited: int


# The times of all groups that exist at the end of the trace, keyed by processor and path.
Stalls = dict[tuple[int, str], States]


@contextlib.contextmanager
def as_file(name: str) -> Iterator[str]:
    """Yields the name of a file that contains the trace. Standard input is copied to a temporary
    file, since the trace is read twice.
    """
    if name != "-":
        yield name
        return
    with tempfile.NamedTemporaryFile(prefix="blame-") as file:
        shutil.copyfileobj(sys.stdin.buffer, file, PIECE)
        file.flush()
        yield file.name


def program() -> str:
    """Returns the path of psi_oomd. Raises a Fault if it isn't built."""
    path = program_path()
    try:
        return built_program(path) if path == LAUNCHER else path
    except (Fault, OSError) as fault:
        raise Fault(str(fault), ProgramStatus.NOT_BUILT) from None


def stalls(file: str, name: str) -> Stalls:
    """Runs `psi_oomd stall` on the trace in `file`, and returns the times that it prints. If
    psi_oomd rejects the trace, raises a Fault with its message and exit status. `name` is the
    trace's name in messages.
    """
    path = program()
    try:
        done = subprocess.run([path, "stall", "--", file], capture_output=True, encoding="latin-1")
    except OSError as fault:
        raise Fault(
            f"{path} can't be run ({fault.strerror}): {ADVICE}", ProgramStatus.NOT_BUILT
        ) from None
    said = why_refused(done.stderr.strip(), file, name)
    if os.path.isdir(file):
        raise Fault(folder_message(name), ProgramStatus.READ_FAULT)
    if done.returncode in MESSAGES:
        raise Fault(MESSAGES[done.returncode].format(name=name, said=said), done.returncode)
    lines = done.stdout.splitlines(keepends=True)
    found = [STALL.fullmatch(line) for line in lines]
    if done.returncode or not lines or not all(found):
        raise Fault(
            f"{path} printed no times of states (status {done.returncode}): {said or ADVICE}",
            ProgramStatus.NOT_BUILT,
        )
    return {(int(it[1]), it[2]): States(int(it[3]), int(it[4]), int(it[5])) for it in found if it}


class Lines:
    """The lines of a valid trace. `cpus` is the number of processors in its header, and `end` the
    time (ns) of its last line.
    """

    def __init__(self, file: str) -> None:
        self.file, self.size = open(file, "rb"), os.path.getsize(file)
        self.end = end_in(self.file) or 0
        self.file.seek(0)
        self.cpus = cpus_in(self.file) or 0

    def pieces(self) -> Iterator[list[str]]:
        """Yields the event lines in large pieces. Shows the progress on standard error if that is a
        terminal.
        """
        shown = time.monotonic()
        is_shown = sys.stderr.isatty()
        with self.file:
            while lines := self.file.readlines(PIECE):
                yield b"".join(lines).decode("ascii").splitlines()
                if is_shown and time.monotonic() > shown + OFTEN:
                    shown = time.monotonic()
                    print(
                        f"\rblame: {100 * self.file.tell() // self.size} %",
                        end="",
                        file=sys.stderr,
                        flush=True,
                    )
        if is_shown:
            print("\r\33[K", end="", file=sys.stderr, flush=True)
