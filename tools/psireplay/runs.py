"""Runs the commands whose output a report shows. The report lists each command with its number."""
from __future__ import annotations

import os
import shlex
import subprocess
import sys
import tempfile
from collections.abc import Iterator
from typing import IO, NamedTuple

from psicli.fault import Fault
from psicli.status import ProgramStatus, Status

from .kinds import why_refused
from .program import ADVICE, LAUNCHER, TOP, built_program, program_path

PROGRAM = "psi_oomd"


class Done(NamedTuple):
    """A finished command: its number in the report, its words, its exit status, its standard error
    `said`, and its standard output. `rules_text` is the contents of the rules file that was written
    for the command, or empty if none was written.
    """

    number: int
    words: str
    status: int
    said: str
    output: IO[bytes]
    rules_text: str = ""

    def lines(self) -> Iterator[bytes]:
        self.output.seek(0)
        return iter(self.output)

    def text(self) -> str:
        self.output.seek(0)
        return self.output.read().decode("utf-8", "replace")


def refused_file(words: list[str], said: str) -> str:
    """Returns the name of the file that the program rejected. It is the rules file if the message
    `said` is about rules. If not, it is the trace, which is the last word of the command.
    """
    rules = [word.partition("=")[2] for word in words if word.startswith("--rules=")]
    return rules[0] if rules and said.startswith("rules") else words[-1]


class Runs:
    """Runs psi_oomd and the tools. The standard output of each command goes into a temporary file,
    since the output of a replay can be long.
    """

    def __init__(self) -> None:
        path = program_path()
        try:
            self.path = built_program(path) if path == LAUNCHER else path
        except OSError as fault:
            raise Fault(
                f"{path} can't be run ({fault.strerror}): {ADVICE}", ProgramStatus.NOT_BUILT
            ) from None
        except Fault as fault:
            raise Fault(str(fault), ProgramStatus.NOT_BUILT) from None
        self.done: list[Done] = []

    def program(self, *words: str) -> Done:
        return self.run([self.path, *words], [PROGRAM, *words], (0,))

    def tool(self, name: str, *words: str, taken: tuple[int, ...] = (0,)) -> Done:
        """Runs a tool. `taken` contains the exit statuses that mean success."""
        path = os.path.join(TOP, "tools", name)
        return self.run([sys.executable, path, *words], [f"tools/{name}", *words], taken)

    def run(self, words: list[str], shown: list[str], taken: tuple[int, ...]) -> Done:
        output = tempfile.TemporaryFile()
        environment = {**os.environ, "PSI_OOMD": self.path, "PYTHONDONTWRITEBYTECODE": "1"}
        try:
            done = subprocess.run(words, stdout=output, stderr=subprocess.PIPE, env=environment)
        except OSError as fault:
            raise Fault(
                f"{words[0]} can't be run ({fault.strerror}): {ADVICE}", ProgramStatus.NOT_BUILT
            ) from None
        said = done.stderr.decode("utf-8", "replace").strip()
        if done.returncode not in taken:
            said = why_refused(said, refused_file(words, said))
            status = done.returncode if done.returncode > 0 else Status.FAILED
            why = said or f"its status is {done.returncode}"
            raise Fault(f"{shlex.join(shown)}: {why}", status)
        found = Done(len(self.done) + 1, shlex.join(shown), done.returncode, said, output)
        self.done.append(found)
        return found

    def commit(self) -> str:
        """Returns the commit of the sources to which this tool belongs, as the launcher prints it.
        """
        try:
            said = subprocess.run([LAUNCHER, "--version"], capture_output=True, text=True).stdout
        except OSError:  # there is no launcher, and PSI_OOMD names the program
            said = ""
        return said.strip().removeprefix(f"{PROGRAM} ") or "of no known commit"
