"""Runs the program, and tools that draw, convert or print its output."""
from __future__ import annotations

import functools
import os
import subprocess
from typing import Sequence

from harness import must_be
from shared.program import TOP

RUNAWAY = (
    "replay",
    "examples/runaway.trace",
    "--rules",
    "examples/runaway.json",
    "--report-s",
    "2",
)


def run(words: Sequence[str], stdin: bytes = b"") -> bytes:
    """Runs a command, which must succeed, and returns its output."""
    done = subprocess.run(words, cwd=TOP, input=stdin, capture_output=True)
    must_be(f"the status of {words}, which said {done.stderr!r}", done.returncode, 0)
    return done.stdout


@functools.lru_cache(maxsize=None)
def story(program: str) -> bytes:
    """Returns the output of a replay of the example runaway.trace, which the tests call the story.
    """
    return run([program, *RUNAWAY])


def fault_of(tool: str, printed: bytes, *words: str, status: int = 2, **variables: str) -> str:
    """Runs a tool, which must exit with this status and print only a message. Returns the message.
    `variables` are added to the environment.
    """
    at = {**os.environ, **variables}
    done = subprocess.run([tool, *words], cwd=TOP, input=printed, capture_output=True, env=at)
    must_be(f"the status and the output of {words}, which said {done.stderr!r}",
            (done.returncode, done.stdout), (status, b""))  # fmt: skip
    return done.stderr.decode()
