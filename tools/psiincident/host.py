"""Runs the recorder on another machine over ssh. Removes all files that it copied there."""
from __future__ import annotations

import secrets
import shlex
import shutil
from types import TracebackType

from psicli.running import complain

from .steps import Steps, tools_path

# The files of the recorder. No other files are copied to a host.
RECORDER = ("record", "psirecord", "psirec")
NAME = "recording"
# The longest time (s) to wait for an interrupted recorder, which undoes its changes, before its
# folder is removed.
MOST_WAIT_S = 60


class Host:
    """A host: its ssh name, the commands for ssh and sudo, and a new folder on it, which is removed
    at the end of the `with` statement.
    """

    def __init__(self, steps: Steps, name: str, ssh: str, has_sudo: bool) -> None:
        self.steps, self.name, self.ssh = steps, name, ssh
        self.sudo = "sudo -n " if has_sudo else ""
        self.folder = f"/tmp/psi-incident-{secrets.token_hex(8)}"
        self.is_made = False

    def __enter__(self) -> Host:
        return self

    def __exit__(
        self,
        kind: type[BaseException] | None,
        error: BaseException | None,
        trace: TracebackType | None,
    ) -> None:
        """Removes the folder on the host after the recorder has finished."""
        if not self.is_made:
            return
        wait = f"flock -w {MOST_WAIT_S} {self.folder}/{NAME}/meta true"
        line = self.line(f"{self.sudo}{wait}; {self.sudo}rm -rf {self.folder}")
        if not self.steps.try_to(line):
            complain(f"{self.folder} may be left on {self.name}; this removes it: {line}")

    def line(self, command: str, options: str = "") -> str:
        """Returns the shell command that runs a command on the host."""
        return f"{self.ssh} {options}{shlex.quote(self.name)} {shlex.quote(command)}"

    def copy_recorder(self) -> None:
        """Copies the recorder into a new folder on the host."""
        pack = f"tar -C {tools_path()} -c {' '.join(RECORDER)}"
        unpack = self.line(f"mkdir -m 700 {self.folder} && tar -C {self.folder} -x")
        self.is_made = True
        self.steps.run(f"{pack} | {unpack}", what=f"copying the recorder to {self.name}")

    def record(self, words: str, taken: tuple[int, ...]) -> int:
        """Runs the recorder on the host, and returns its exit status. The recorder has its own
        terminal. If the connection ends, it receives SIGHUP, undoes its changes and exits.
        """
        command = f"{self.sudo}python3 {self.folder}/record {self.folder}/{NAME} {words}"
        return self.steps.run(self.line(command, "-tt "), taken, f"recording on {self.name}")

    def fetch(self, path: str, into: str) -> None:
        """Copies a folder from the host to the new folder `into`. Removes `into` if the copy fails.
        Doesn't change anything on the host.
        """
        above, _, last = path.rstrip("/").rpartition("/")
        start = f"{above}/" if above or path.startswith("/") else "."
        pack = f"{self.sudo}tar -C {shlex.quote(start)} -c {shlex.quote(last)}"
        target = shlex.quote(into)
        unpack = f"mkdir -m 700 {target} && tar -C {target} --strip-components=1 --no-same-owner -x"
        try:
            self.steps.run(f"{self.line(pack)} | ({unpack})", what=f"fetching {self.name}:{path}")
        except BaseException:
            shutil.rmtree(into, ignore_errors=True)
            raise

    def fetch_recording(self, into: str) -> None:
        self.fetch(f"{self.folder}/{NAME}", into)
