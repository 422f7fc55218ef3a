"""Runs psi_oomd for tools and tests: the program that the variable PSI_OOMD names or, if the
variable isn't set, the launcher in the folder above the tools. In a checkout the launcher builds
the program. In an installed package the program lies next to the launcher.
"""
from __future__ import annotations

import os
import shutil
import subprocess
import sys
import tempfile
from typing import IO, Iterator

from psicli.fault import Fault
from psicli.status import ProgramStatus

from .kinds import why_refused

TOP = os.path.dirname(os.path.dirname(os.path.dirname(os.path.abspath(__file__))))
LAUNCHER = os.path.join(TOP, "psi_oomd")
VARIABLE = "PSI_OOMD"
# A trace without events, for a run that only needs rules.
NO_EVENTS = b"psitrace 1 cpus=1\n0 end\n"
# The longest tick permits the longest trace. So each trace that `replay` accepts with any tick is
# also accepted with this one.
LONGEST_TICK = "--tick-ms=60000"
# The statuses of a run that rejected its trace or its rules file.
REFUSALS = (ProgramStatus.TRACE_REFUSED, ProgramStatus.RULES_REFUSED)
ADVICE = "build ./psi_oomd, or let the variable PSI_OOMD name the program"


# The suffix of a program that was built without a proof, and the variable that is set after the
# first warning about such a program. It prevents repeated warnings by the tools that a tool runs.
UNPROVED = "-unproved"
NOTED = "PSI_OOMD_IS_NOTED"


def named_program() -> str:
    """Returns the program that PSI_OOMD names, or the launcher if PSI_OOMD isn't set. Warns once
    per run if that program isn't proved.
    """
    name = os.environ.get(VARIABLE) or LAUNCHER
    if name.endswith(UNPROVED) and not os.environ.get(NOTED):
        os.environ[NOTED] = "1"
        print(
            (
                f"{os.path.basename(name)}: this program is unproved; ./psi_oomd --build makes the"
                " proved one"
            ),
            file=sys.stderr,
        )
    return name


def program_path() -> str:
    """Returns the program's absolute path, even if no such file exists."""
    return os.path.abspath(shutil.which(named_program()) or named_program())


def built_program(launcher: str = LAUNCHER) -> str:
    """Builds the launcher's program if it is older than its sources, and returns its path. The
    launcher reports a build on standard error.

    The launcher checks all sources at each start, so tools run the program directly if they run it
    more than once.
    """
    done = subprocess.run([launcher, "--build"], stdout=subprocess.PIPE, encoding="utf-8")
    if done.returncode:
        raise Fault(f"{launcher} couldn't be built: {ADVICE}")
    return done.stdout.rstrip("\n")


def start(words: list[str], notes: IO[bytes]) -> subprocess.Popen[bytes]:
    """Starts the program. Its standard input and output are pipes, and its standard error is the
    file `notes`.
    """
    path = program_path()
    try:
        path = built_program() if path == LAUNCHER else path
        return subprocess.Popen(
            [path, *words], stdin=subprocess.PIPE, stdout=subprocess.PIPE, stderr=notes
        )
    except OSError as fault:
        raise Fault(f"{path} can't be run ({fault.strerror}): {ADVICE}") from None


def finish(run: subprocess.Popen[bytes], notes: IO[bytes], what: str, name: str) -> str:
    """Waits for a run, and returns its output. If its status isn't 0, raises a Fault with the
    program's own message from `notes`. `what` describes the file `name` in that message, for
    example as "the trace".
    """
    assert run.stdin and run.stdout
    try:
        run.stdin.close()
    except BrokenPipeError:
        pass  # The program rejected its input before the end.
    with run.stdout as output:
        printed = output.read().decode("latin-1")
    status = run.wait()
    if status:
        notes.seek(0)
        said = notes.read().decode("utf-8", "replace").strip() or f"its status is {status}"
        why = why_refused(said, name)
        raise Fault(
            f"psi_oomd {'refuses' if status in REFUSALS else 'failed on'} {what} {name}: {why}"
        )
    return printed


def opened(name: str) -> IO[bytes]:
    """Opens a file for reading. Raises a Fault if that fails. For a missing file, the message
    equals that of psi_oomd.
    """
    try:
        return open(name, "rb")
    except FileNotFoundError:
        raise Fault(f"no file: {name}") from None
    except OSError as fault:
        raise Fault(f"{name}: {fault.strerror}") from None


def accepted_rules(name: str) -> bytes:
    """Returns the bytes of a rules file. Raises a Fault if the program rejects it."""
    with opened(name) as rules:
        data = rules.read()
    with tempfile.NamedTemporaryFile(suffix=".json") as file, tempfile.TemporaryFile() as notes:
        file.write(data)
        file.flush()
        run = start(["replay", "-", "--rules", file.name], notes)
        assert run.stdin
        try:
            run.stdin.write(NO_EVENTS)
        except BrokenPipeError:
            pass  # A rejected rules file ends the run before the trace is read.
        finish(run, notes, "the rules file", name)
    return data


class CheckedTrace:
    """Reads the lines of a trace, and also passes them to `psi_oomd check`. If the program rejects
    the trace, a Fault is raised after the last line.
    """

    def __init__(self, name: str) -> None:
        self.name = name
        self.end = 0

    def lines(self) -> Iterator[bytes]:
        """Yields all lines of the trace, and then sets `end` to the trace's end (ns)."""
        with opened(self.name) as file, tempfile.TemporaryFile() as notes:
            run = start(["check", "-", LONGEST_TICK], notes)
            assert run.stdin
            for line in file:
                try:
                    run.stdin.write(line)
                except BrokenPipeError:
                    break
                yield line
            self.end = int(finish(run, notes, "the trace", self.name).rpartition("=")[2])
