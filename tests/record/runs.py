"""Runs tools/record on a folder in place of the machine, and checks the results."""
from __future__ import annotations

import contextlib
import os
import shlex
import signal
import subprocess
import threading
import time
from collections.abc import Iterator

from harness import Wrong, must, must_be
from record import machine_folder as folder

TOP = os.path.dirname(os.path.dirname(os.path.dirname(os.path.abspath(__file__))))
RECORD = os.path.join(os.environ.get("RECORD_TOOLS", os.path.join(TOP, "tools")), "record")


# ---------------------------------------------------------------- running the recorder


# A process that nohup starts ignores SIGHUP, and a recorder inherits that. So the signal is reset
# here; nohup has its own check.
signal.signal(signal.SIGHUP, signal.SIG_DFL)

# The timeout (s) for a recorder to begin, to print a line or to end. It is long because other
# programs may use the machine.
WAIT_S = 120

# The running recorders, by the folders of their recordings.
STARTED: dict[str, subprocess.Popen[str]] = {}


def end_all(scratch: str) -> None:
    """Kills the recorders of a failed check. These are the recorders whose recordings are below the
    folder `scratch`.
    """
    for out in [it for it in STARTED if it.startswith(f"{scratch}/")]:
        child = STARTED.pop(out)
        if child.poll() is None:
            child.kill()
            child.communicate()


class Run:
    """A recorder that runs on a folder in place of the machine, and the results of its run."""

    def __init__(
        self, top: str, *words: str, name: str = "out", prefix: tuple[str, ...] = ()
    ) -> None:
        self.top, self.out, self.before, self.said = top, f"{top}.{name}", folder.listing(top), ""
        self.command = [*prefix, RECORD, "--root", top, self.out, *words]
        nothing, pipe = subprocess.DEVNULL, subprocess.PIPE
        self.child = subprocess.Popen(
            self.command, stdin=nothing, stdout=pipe, stderr=pipe, text=True
        )
        STARTED[self.out] = self.child

    def ended(self, status: int, is_same: bool = True) -> Run:
        """Waits until the recorder ends. Raises unless the exit status is `status`, and the
        machine's folder is unchanged if `is_same`.
        """
        try:
            printed, self.said = self.child.communicate(timeout=WAIT_S)
        except subprocess.TimeoutExpired:
            raise self.killed(f"doesn't end in {WAIT_S} s") from None
        must_be(f"the status, after {self.said!r}", self.child.returncode, status)
        must_be("standard output", printed, "")
        if is_same:
            after = folder.listing(self.top)
            changed = [
                it for it in sorted({*self.before, *after}) if self.before.get(it) != after.get(it)
            ]
            must_be("what isn't as before", changed, [])
        return self

    def killed(self, fault: str) -> Wrong:
        """Kills the recorder. Returns an error with its command, the fault and its output."""
        self.child.kill()
        _, said = self.child.communicate()
        return Wrong(f"`{shlex.join(self.command)}` {fault}; it printed {said!r}")

    def says(self, *words: str) -> Run:
        """Raises unless standard error contains these words."""
        for word in words:
            must(word in self.said, f"standard error says {word!r}: {self.said!r}")
        return self

    def file(self, name: str) -> bytes:
        """Returns the content of a file of the recording."""
        with open(f"{self.out}/{name}", "rb") as file:
            return file.read()

    def values(self, key: str) -> list[str]:
        """Returns the values of a key of the file `meta`."""
        lines = self.file("meta").decode().splitlines()
        must(lines[0] == "recording 2" and lines[-1].startswith("end "),
             f"the first and the last line of meta: {lines}")
        return [it.partition(" ")[2] for it in lines if it.partition(" ")[0] == key]

    def instance(self) -> str:
        """Waits until the recorder has created its tracing instance. Returns the instance's folder.
        """
        waited = time.monotonic() + WAIT_S
        while time.monotonic() < waited and self.child.poll() is None:
            for name in os.listdir(f"{self.top}/tracing/instances"):
                if read(
                    f"{self.top}/tracing/instances/{name}/tracing_on"
                ).startswith("1") and read(f"{self.top}.markers"):
                    return f"{self.top}/tracing/instances/{name}"
            time.sleep(0.02)
        raise self.killed(f"ended before it recorded, or doesn't record in {WAIT_S} s")


@contextlib.contextmanager
def awaited(child: subprocess.Popen[str]) -> Iterator[None]:
    """Kills the recorder if it doesn't print in time, so that a read of its output doesn't block.
    """
    timer = threading.Timer(WAIT_S, child.kill)
    timer.start()
    try:
        yield
    finally:
        timer.cancel()


def read(path: str) -> str:
    """Returns the text of a file, or '' if the file doesn't exist."""
    with contextlib.suppress(OSError), open(
        path, encoding="utf-8", errors="surrogateescape"
    ) as file:
        return file.read()
    return ""


def whole(top: str, *words: str, overrun: int = 0, pages: int = 1) -> Run:
    """Starts a recorder on a machine with `pages` pages per processor and `overrun` lost events."""
    folder.make_machine(top, overrun=overrun, pages=pages)
    return Run(top, *(words or ("--seconds", "0.4")))
