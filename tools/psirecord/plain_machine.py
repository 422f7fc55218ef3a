"""Imitates a machine by a folder DIR of plain files, for tests. PlainMachine does what the kernel
does when a program writes to the real files.

    DIR/tracing    contains the files of an instance, the folder `instances` and, if probes are
                   available, `kprobe_events`
    DIR/cgroup     is the root of the control groups
    DIR/proc       contains processes, `meminfo`, `pressure` and `sys/kernel/sched_schedstats`
    DIR/btf        contains the kernel's types, in the format of /sys/kernel/btf/vmlinux
    DIR/trigger    is a FIFO. A write to it signals pressure
"""
from __future__ import annotations

import errno
import os
import re
import select
import shutil
from collections.abc import Iterator
from dataclasses import dataclass

from .machine import Machine, read_file


def plain_machine(folder: str) -> PlainMachine:
    """Returns the machine that the plain files in `folder` imitate."""
    top = os.path.abspath(folder)
    return PlainMachine(
        tracing=f"{top}/tracing", groups=f"{top}/cgroup", proc=f"{top}/proc", types=f"{top}/btf"
    )


def busy(path: str) -> OSError:
    """Returns the error (EBUSY) that the kernel raises for a file that is in use."""
    return OSError(errno.EBUSY, os.strerror(errno.EBUSY), path)


def open_files() -> Iterator[str]:
    """Yields the paths of all files that this process has open."""
    for number in os.listdir("/proc/self/fd"):
        try:
            yield os.readlink(f"/proc/self/fd/{number}")
        except OSError:
            continue


@dataclass(frozen=True)
class PlainMachine(Machine):
    """A machine that a folder of plain files imitates."""

    def processors(self) -> int:
        """Returns the number of processors that have a folder of buffers."""
        return sum(
            bool(re.fullmatch(r"cpu\d+", it)) for it in os.listdir(f"{self.tracing}/per_cpu")
        )

    def missing(self) -> Iterator[str]:
        """Yields the missing files. A folder of plain files doesn't require root."""
        return self.missing_files()

    def instance(self, name: str) -> str:
        """Returns the folder of the tracing instance `name`."""
        return f"{self.tracing}/instances/{name}"

    def make_instance(self, name: str) -> None:
        """Creates an instance with copies of the top-level instance's files."""
        os.mkdir(self.instance(name))
        for file in os.listdir(self.tracing):
            source, copy = f"{self.tracing}/{file}", f"{self.instance(name)}/{file}"
            if file in ("instances", "kprobe_events"):
                continue
            if os.path.isdir(source):
                shutil.copytree(source, copy, symlinks=True)
            else:
                shutil.copy(source, copy, follow_symlinks=False)

    def remove_instance(self, name: str) -> None:
        """Removes an instance. Like the kernel, raises EBUSY if one of its files is open."""
        folder = self.instance(name)
        if any(it.startswith(f"{folder}/") for it in open_files()):
            raise busy(folder)
        shutil.rmtree(folder)

    def add_probe(self, definition: str) -> None:
        """Adds a probe, and creates the folder of its event."""
        super().add_probe(definition)
        event = f"{self.tracing}/events/{definition.split()[0].partition(':')[2]}"
        os.makedirs(event)
        for file, text in (
            ("enable", "0\n"),
            ("filter", "none\n"),
            ("format", f"name: {os.path.basename(event)}\n"),
        ):
            with open(f"{event}/{file}", "w", encoding="ascii") as made:
                made.write(text)

    def remove_probe(self, name: str) -> None:
        """Removes a probe. Like the kernel, raises EBUSY if its event is on in some instance."""
        instances = [self.instance(it) for it in os.listdir(f"{self.tracing}/instances")]
        if any(
            read_file(f"{it}/events/{name}/enable").startswith(b"1")
            for it in [self.tracing, *instances]
        ):
            raise busy(name)
        with open(f"{self.tracing}/kprobe_events", encoding="ascii") as file:
            rest = [line for line in file if line.split()[0].partition(":")[2] != name]
        with open(f"{self.tracing}/kprobe_events", "w", encoding="ascii") as file:
            file.writelines(rest)
        shutil.rmtree(f"{self.tracing}/events/{name}")
        if not os.listdir(os.path.dirname(f"{self.tracing}/events/{name}")):
            os.rmdir(os.path.dirname(f"{self.tracing}/events/{name}"))

    def open_trigger(self, resource: str, words: str, group: str = "") -> tuple[int, int]:
        """Opens the FIFO `trigger`. A write to this FIFO signals pressure of the machine and of all
        groups.
        """
        return (
            os.open(f"{os.path.dirname(self.tracing)}/trigger", os.O_RDWR | os.O_NONBLOCK),
            select.POLLIN,
        )
