"""Runs oomd as a process whose clock is controlled. Each time the process sleeps, this module
decides when the sleep ends.
"""
from __future__ import annotations

import functools
import os
import select
import signal
import struct
import subprocess
import tempfile
import time

from psicli.fault import Fault
from psicli.wording import quoted
from psioomd.sandbox import PATIENCE, Sandbox

SOURCE = os.path.join(os.path.dirname(os.path.abspath(__file__)), "clock.c")
LIBRARY = "clock.so"
HELLO, SLEEPS, KILLS = "H", "S", "K"
MESSAGE = struct.Struct("<cq")
MOST_LOG = 1 << 26
GRACE = 20
"""The time (s) in which a process must end after the connection to it was closed."""


@functools.lru_cache(maxsize=None)
def clock_library() -> bytes:
    """Returns the bytes of the preloaded clock library. It is compiled once per run of this tool.
    """
    with tempfile.TemporaryDirectory(prefix="psioomd-") as folder:
        library = os.path.join(folder, LIBRARY)
        words = ["cc", "-O2", "-shared", "-fPIC", "-o", library, SOURCE, "-ldl"]
        try:
            done = subprocess.run(words, capture_output=True, cwd=folder)
        except OSError as fault:
            advice = "install a C compiler (package gcc), or leave out --binary"
            raise Fault(
                f"cc, which compiles {SOURCE}, doesn't run: {fault.strerror}: {advice}"
            ) from fault
        if done.returncode:
            said = done.stderr.decode(errors="replace").strip()
            raise Fault(
                f"cc doesn't compile {SOURCE}: install libc6-dev, or leave out --binary: {said}"
            )
        with open(library, "rb") as file:
            return file.read()


class Daemon:
    """A process in a sandbox, with the clock library preloaded. `uptime` is the machine's uptime
    (ns), and `patience` the longest time (s) to wait for a message.
    """

    def __init__(self, sandbox: Sandbox, words: list[str], uptime: int, patience: float) -> None:
        self.sandbox, self.patience = sandbox, patience
        folder = sandbox.folder
        with open(os.path.join(folder, LIBRARY), "wb") as file:
            file.write(clock_library())
        hears, self.to = os.pipe()
        self.of, says = os.pipe()
        self.log = open(os.path.join(folder, "log"), "wb+")
        variables = {
            "LD_PRELOAD": os.path.join(folder, LIBRARY),
            "PSIOOMD_ROOT": os.path.join(folder, "machine"),
            "PSIOOMD_FOLDER": folder,
            "PSIOOMD_OUT": str(says),
            "PSIOOMD_IN": str(hears),
            "PSIOOMD_UPTIME_NS": str(uptime),
            "INLINE_LOGGING": "1",
            "PATH": "/usr/bin:/bin",
            "DBUS_SYSTEM_BUS_ADDRESS": "unix:path=/nonexistent",
        }
        inside = ["/usr/bin/env", "-i", *(f"{name}={it}" for name, it in variables.items()), *words]
        self.process = subprocess.Popen(
            sandbox.words(inside),
            stdin=subprocess.DEVNULL,
            stdout=self.log,
            stderr=self.log,
            pass_fds=(says, hears),
            cwd=folder,
            start_new_session=True,
        )
        os.close(says)
        os.close(hears)

    def message(self) -> tuple[str, int] | None:
        """Returns the next message from the clock library, or None if the process has ended."""
        data, until = b"", time.monotonic() + self.patience
        while len(data) < MESSAGE.size:
            ready, _, _ = select.select([self.of], [], [], max(0, until - time.monotonic()))
            if not ready:
                name = quoted(self.sandbox.binary)
                limit = f"{self.patience:g} s"
                raise Fault(
                    f"{name} neither sleeps nor ends in {limit}, and was terminated: is it oomd?"
                )
            more = os.read(self.of, MESSAGE.size - len(data))
            if not more:
                return None
            data += more
        kind, value = MESSAGE.unpack(data)
        return kind.decode("latin-1"), value

    def is_preloaded(self) -> bool:
        """Returns whether the clock library was loaded. It can't be loaded into a statically linked
        program.
        """
        found = self.message()
        return found is not None and found[0] == HELLO

    def sleep_end(self) -> int | None:
        """Waits until the process sleeps. Returns the time (ns) at which its sleep would end, or
        None if the process has ended.
        """
        while True:
            found = self.message()
            if found is None:
                return None
            if found[0] == SLEEPS:
                return found[1]
            if found[0] == KILLS:
                what = f"{quoted(self.sandbox.binary)} tried to kill process {found[1]}"
                raise Fault(f"{what}, which was refused, and it was terminated")

    def wake(self, now: int) -> None:
        """Ends the sleep of the process. `now` is the new time (ns) of its clock."""
        try:
            os.write(self.to, struct.pack("<q", now))
        except BrokenPipeError:
            pass

    def new_log(self) -> str:
        """Returns the text that was appended to the log since the last call."""
        size = os.fstat(self.log.fileno()).st_size
        text = os.pread(self.log.fileno(), min(size, MOST_LOG), 0) if size else b""
        if size:
            os.ftruncate(self.log.fileno(), 0)
            os.lseek(self.log.fileno(), 0, os.SEEK_SET)
        return text.decode(errors="replace")

    def end(self, grace: float = GRACE) -> str:
        """Ends the process. If it doesn't end by itself within `grace` seconds, sends a signal.
        Returns a text that says how it ended.
        """
        for fd in (self.to, self.of):
            os.close(fd)
        try:
            self.process.wait(grace)
        except subprocess.TimeoutExpired:
            os.killpg(self.process.pid, signal.SIGKILL)
            self.process.wait()
        self.log.close()
        return status_text(self.process.returncode)


def status_text(status: int) -> str:
    """Returns a text that says how a process ended. After a signal, a sandbox returns the status
    128 plus the signal's number.
    """
    number = -status if status < 0 else status - 128 if status > 128 else 0
    try:
        return f"by {signal.Signals(number).name}" if number else f"with status {status}"
    except ValueError:
        return f"with status {status}"


def answer(sandbox: Sandbox, words: list[str], patience: float = PATIENCE) -> tuple[int, str]:
    """Runs oomd without evaluations, for example with --version. Returns its exit status and its
    output.
    """
    daemon = Daemon(sandbox, words, 0, patience)
    ended = False
    try:
        until = time.monotonic() + patience
        while daemon.message() is not None:
            if time.monotonic() > until:
                break
            daemon.wake(0)
        daemon.process.wait(patience)
        text = daemon.new_log()
        ended = True
        return daemon.process.returncode, text
    except subprocess.TimeoutExpired:
        raise Fault(
            f"{quoted(sandbox.binary)} doesn't end, and was terminated: is it oomd?"
        ) from None
    finally:
        if not ended and daemon.process.poll() is None:
            os.killpg(daemon.process.pid, signal.SIGKILL)
        daemon.end()
