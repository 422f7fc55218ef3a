"""The machine to record: the paths of its files, and the few changes that the recorder makes.

The kernel's documentation describes each file: Documentation/trace/ftrace.rst (instances,
trace_marker, trace_pipe_raw), Documentation/trace/kprobetrace.rst (kprobe_events),
Documentation/admin-guide/cgroup-v2.rst (groups) and Documentation/accounting/psi.rst (pressure,
triggers).
"""
from __future__ import annotations

import errno
import os
import select
from collections.abc import Iterator
from dataclasses import dataclass

SCHEDULER_STATISTICS = "sys/kernel/sched_schedstats"
# The inode number of the initial PID namespace (PROC_PID_INIT_INO). Events contain the pids of that
# namespace.
FIRST_PROCESS_NAMESPACE = "pid:[4026531836]"


def read_file(path: str) -> bytes:
    """Returns the contents of a file. Returns no bytes if the file can't be read, for example
    because its group was removed.
    """
    try:
        with open(path, "rb", buffering=0) as file:
            return file.readall() or b""
    except OSError:
        return b""


def write_file(path: str, text: str, flags: int = 0) -> None:
    """Writes to an existing file, without O_TRUNC: truncating the kernel's list of probes would
    remove the probes of all users.
    """
    file = os.open(path, os.O_WRONLY | flags)
    try:
        os.write(file, text.encode())
    finally:
        os.close(file)


@dataclass(frozen=True)
class Machine:
    """The paths of the machine's files. The defaults are the paths on a real machine."""

    tracing: str = "/sys/kernel/tracing"
    groups: str = "/sys/fs/cgroup"
    proc: str = "/proc"
    types: str = "/sys/kernel/btf/vmlinux"

    def processors(self) -> int:
        """Returns the number of configured processors. This includes absent processors, whose
        buffers are empty.
        """
        return os.sysconf("SC_NPROCESSORS_CONF")

    def missing(self) -> Iterator[str]:
        """Yields a message for each requirement of a recording that this machine doesn't meet.
        Doesn't change the machine.
        """
        if os.geteuid() != 0:
            yield "root: tracing a whole machine takes it"
        if (
            os.path.exists(f"{self.proc}/self/ns/pid")
            and os.readlink(f"{self.proc}/self/ns/pid") != FIRST_PROCESS_NAMESPACE
        ):
            yield "the machine's own process numbers: this is a container, which has others"
        yield from self.missing_files()

    def missing_files(self) -> Iterator[str]:
        """Yields the required files and folders that don't exist."""
        if not os.path.isdir(f"{self.tracing}/instances"):
            yield (
                f"tracefs: {self.tracing}/instances isn't there (mount -t tracefs tracefs"
                f" {self.tracing})"
            )
        if not os.path.exists(f"{self.groups}/cgroup.controllers"):
            yield (
                f"control groups of version 2: {self.groups}/cgroup.controllers isn't there; with"
                " version 1, or both, groups have no pressure files"
                " (systemd.unified_cgroup_hierarchy=1 at boot)"
            )
        elif os.path.exists(f"{self.groups}/cgroup.events"):
            yield (
                f"the machine's own control groups: {self.groups} isn't the root of the hierarchy,"
                " so this is a container"
            )
        if not read_file(f"{self.proc}/pressure/cpu"):
            yield f"pressure: {self.proc}/pressure/cpu can't be read (psi=1 at boot)"

    def make_instance(self, name: str) -> None:
        """Creates the folder of a tracing instance. The kernel then creates the files in this
        folder.
        """
        os.mkdir(f"{self.tracing}/instances/{name}")

    def remove_instance(self, name: str) -> None:
        """Removes a tracing instance. This switches its events off. Raises EBUSY while one of its
        files is open.
        """
        os.rmdir(f"{self.tracing}/instances/{name}")

    def add_probe(self, definition: str) -> None:
        """Adds a probe, in the syntax of Documentation/trace/kprobetrace.rst."""
        write_file(f"{self.tracing}/kprobe_events", f"{definition}\n", os.O_APPEND)

    def remove_probe(self, name: str) -> None:
        """Removes the probe `name`, in the form GROUP/EVENT. Raises EBUSY while its event is on in
        any instance.
        """
        write_file(f"{self.tracing}/kprobe_events", f"-:{name}\n", os.O_APPEND)

    def open_trigger(self, resource: str, words: str, group: str = "") -> tuple[int, int]:
        """Opens a trigger: a file that signals pressure as long as it is open, for `group`, or for
        the whole machine if `group` is empty. `words` are `some|full THRESHOLD WINDOW` in us
        (Documentation/accounting/psi.rst). Returns the file's descriptor, and the poll(2) condition
        for the signal.
        """
        path = (
            f"{self.groups}{group}/{resource}.pressure"
            if group
            else f"{self.proc}/pressure/{resource}"
        )
        file = os.open(path, os.O_RDWR | os.O_NONBLOCK)
        try:
            os.write(file, words.encode() + b"\0")
        except OSError as error:
            os.close(file)
            hint = (
                "; without CAP_SYS_RESOURCE a window is a multiple of 2 s"
                if error.errno == errno.EINVAL
                else ""
            )
            raise OSError(
                error.errno, f"the kernel refuses this trigger, {error.strerror}{hint}"
            ) from error
        return file, select.POLLPRI
