"""Runs the steps of an incident. Each step is a shell command, which is printed before it runs."""
from __future__ import annotations

import os
import shlex
import subprocess
import sys

from psicli.fault import Fault
from psireplay.program import TOP

from .ending import end

SHELL = ("bash", "-o", "pipefail", "-c")


def tools_path(*names: str) -> str:
    """Returns the path of a file in the folder of tools, quoted for the shell. The path is relative
    if the file is below the working directory.
    """
    path = os.path.join(TOP, "tools", *names)
    near = os.path.relpath(path)
    return shlex.quote(path if near.startswith("..") else near)


def show(line: str) -> None:
    print(f"$ {line}", file=sys.stderr, flush=True)


def status_of(line: str) -> int:
    """Runs a shell command, and returns its exit status. On an interrupt, ends its processes after
    they have undone their changes.
    """
    step = subprocess.Popen([*SHELL, line], stdin=subprocess.DEVNULL)
    try:
        return step.wait()
    except BaseException:
        end(step)
        raise


class Steps:
    """Runs shell commands, and prints each before it runs."""

    def run(self, line: str, taken: tuple[int, ...] = (0,), what: str = "") -> int:
        """Runs a shell command, and returns its exit status. Raises a Fault if the status isn't in
        `taken`. `what` describes the command in the message.
        """
        show(line)
        try:
            status = status_of(line)
        except OSError as error:
            raise Fault(f"bash can't be run: {error.strerror}") from error
        if status not in taken:
            raise Fault(f"{what or 'this step'} failed, with status {status}: {line}")
        return status

    def try_to(self, line: str) -> bool:
        """Runs a shell command, and returns whether it succeeded."""
        show(line)
        return status_of(line) == 0
