"""Runs tools and psi_oomd for checks, and compares the results. Each check has a folder of its own,
called a Room.
"""
from __future__ import annotations

import json
import os
import re
import subprocess
import sys
from dataclasses import dataclass

from harness import Source, checks_of, must_be, run_checks
from shared.program import TOP, program_of

RUNAWAY = os.path.join(TOP, "examples", "runaway.trace")
RUNAWAY_RULES = os.path.join(TOP, "examples", "runaway.json")
LOW = os.path.join(TOP, "examples", "low-memory.trace")
LOW_RULES = os.path.join(TOP, "examples", "low-memory.json")
NO_EVENT = os.path.join(TOP, "examples", "one-wait.trace")
REFUSED = os.path.join(TOP, "examples", "refused.trace")


@dataclass(frozen=True)
class Done:
    """The result of a run: its exit status, its output and its standard error."""

    status: int
    output: str
    error: str

    def json(self) -> object:
        """Returns the output, parsed as JSON."""
        words = [sys.executable, "-m", "json.tool"]
        read = subprocess.run(words, input=self.output, capture_output=True, text=True, check=False)
        must_be("what json.tool says", (read.returncode, read.stderr), (0, ""))
        return json.loads(read.stdout)

    def without_notes(self) -> "Done":
        """Returns the result without the notes of lint about differences from oomd, which
        tests/oomd checks.
        """
        lines = [it for it in self.output.splitlines(True) if ": note: " not in it]
        return Done(self.status, "".join(lines), self.error)

    def must_print(self, what: str, status: int, output: str) -> None:
        """Fails unless the exit status and the output are the expected ones. A failure also shows
        the standard error.
        """
        said = f", with this on standard error:\n{self.error}" if self.error else ""
        must_be(f"{what}: the status{said}", self.status, status)
        must_be(f"{what}: the output{said}", self.output, output)


class Room:
    """The temporary folder of a check, and the program that tools use there."""

    def __init__(self, program: str, path: str) -> None:
        self.program, self.path = program, path

    def file(self, name: str, text: str | bytes, mode: int = 0o644) -> str:
        """Writes a file, and returns its name."""
        path = os.path.join(self.path, name)
        with open(path, "wb") as file:
            file.write(text if isinstance(text, bytes) else text.encode())
        os.chmod(path, mode)
        return name

    def run(
        self, *words: str, stdin: str | bytes = b"", program: str | None = None, **more: str
    ) -> Done:
        """Runs a tool of the repository, or psi_oomd if that is the first word, and returns the
        result. `stdin` is the standard input, and `more` are additional environment variables.
        """
        first = self.program if words[0] == "psi_oomd" else os.path.join(TOP, words[0])
        environment: dict[str, str] = {**os.environ, "PSI_OOMD": program or self.program, **more}
        data = stdin if isinstance(stdin, bytes) else stdin.encode()
        command = [first, *words[1:]]
        done = subprocess.run(
            command, cwd=self.path, input=data, capture_output=True, env=environment, check=False
        )
        return Done(done.returncode, done.stdout.decode(), done.stderr.decode())

    def kills(self, *words: str, stdin: str = "") -> list[tuple[int, int, int, str]]:
        """Returns the kills that psi_oomd prints for this replay: time (ns), index of the ruleset,
        index of the action, and path.
        """
        done = self.run("psi_oomd", "replay", *words, stdin=stdin)
        must_be(f"the status of replay {words}, which said {done.error}", done.status, 0)
        found = re.findall(
            r"^kill ([0-9]+) ruleset=([0-9]+) action=([0-9]+) (\S+)$", done.output, re.MULTILINE
        )
        return [
            (int(time_ns), int(ruleset), int(action), path)
            for time_ns, ruleset, action, path in found
        ]


def run_in_rooms(*sources: Source) -> int:
    """Runs all checks in these modules or dictionaries, or only the named ones. Each check gets a
    Room of its own.
    """
    program, words = program_of(sys.argv[1:])
    return run_checks(
        checks_of(*sources), lambda check, folder: check(Room(program, folder)), words
    )
