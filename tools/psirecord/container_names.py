"""Stores the names of containers and pods in a recording, since the paths of their groups contain
only their ids.

The container runtimes print the names, before and after the recording. A runtime's command is run
only if the machine has groups of its containers.
"""
from __future__ import annotations

import os
import shutil
import subprocess
from collections.abc import Callable

from psirec.containers import FILE, names_in

from .folder import DiskFull, Folder
from .machine import Machine
from .samples import groups

# For each runtime, a word that the paths of its groups contain, and the command that lists its
# containers.
COMMANDS = (
    ("kubepods", ("crictl", "ps", "-a", "-o", "json")),
    ("kubepods", ("crictl", "pods", "-o", "json")),
    ("docker", ("docker", "ps", "-a", "--no-trunc", "--format", "{{json .}}")),
    ("libpod", ("podman", "ps", "-a", "--no-trunc", "--format", "json")),
)
PATIENCE_SECONDS = 5

Tell = Callable[[str], None]


class ContainerNames:
    """The names so far, keyed by the id of the container or pod."""

    def __init__(self, machine: Machine, tell: Tell) -> None:
        self.machine, self.tell = machine, tell
        self.names: dict[str, str] = {}
        # In tests, the folder of the runtimes' commands. On a real machine it is empty, and the
        # commands are found in PATH.
        self.root = os.path.dirname(machine.proc).rstrip("/")

    def collect(self) -> None:
        """Runs the command of each runtime that has groups now."""
        paths = [it.path for it in groups(self.machine)]
        for mark, words in COMMANDS:
            command = f"{self.root}/{words[0]}" if self.root else shutil.which(words[0])
            if command and os.path.exists(command) and any(mark in path for path in paths):
                self.ask([command, *words[1:]])

    def ask(self, words: list[str]) -> None:
        """Runs a command, and stores the names that it prints. A failure is reported, and has no
        other effect.
        """
        try:
            done = subprocess.run(
                words, stdin=subprocess.DEVNULL, capture_output=True, timeout=PATIENCE_SECONDS
            )
            self.names.update(names_in(done.stdout.decode("utf-8", "surrogateescape")))
            fault = "" if done.returncode == 0 else f"status {done.returncode}"
        except (OSError, ValueError, subprocess.SubprocessError) as error:
            fault = str(error)
        if fault:
            self.tell(f"{os.path.basename(words[0])} doesn't say the names of containers: {fault}")

    def store(self, folder: Folder) -> None:
        """Writes the names to the recording if there are any. A failure is reported, and has no
        other effect.
        """
        names = sorted(self.names.items())
        lines = "".join(f"{number} {' '.join(name.split())}\n" for number, name in names)
        text = lines.encode("utf-8", "surrogateescape")
        try:
            if text:
                folder.write_whole(FILE, text)
        except (OSError, DiskFull) as error:
            self.tell(f"the names of containers weren't stored: {error}")
