"""Writes the files of a machine that oomd reads, in a temporary folder."""
from __future__ import annotations

import os
import shutil

from psioomd.machine import KIB, Averages, Machine
from psioomd.patterns import ROOT
from psireplay.groups import Group

MOUNT = "/sys/fs/cgroup"
"""The path at which oomd finds the groups. oomd's order of groups with equal rank depends on this
path.
"""
RESOURCES = ("io", "memory")
FIXED = {
    "cgroup.controllers": "cpu io memory pids\n",
    "cgroup.subtree_control": "cpu io memory pids\n",
    "cgroup.procs": "",
    "io.stat": "",
    "memory.high": "max\n",
    "memory.max": "max\n",
    "memory.swap.max": "max\n",
}
NUMBERS = ("memory.low", "memory.min", "memory.oom.group")
OF_ROOT = ("cgroup.controllers", "cgroup.subtree_control", "cgroup.procs", "io.stat")
SWAPS = "Filename\t\t\t\tType\t\tSize\t\tUsed\t\tPriority\n"


def text_of(hundredths: int) -> str:
    return f"{hundredths // 100}.{hundredths % 100:02}"


def pressure_text(averages: Averages) -> str:
    """Formats a pressure file. oomd ignores the line `some`, so `some` gets the values of `full`.
    """
    shares = (averages.avg10, averages.avg60, averages.avg300)
    names = zip(("avg10", "avg60", "avg300"), map(text_of, shares))
    line = " ".join(f"{name}={share}" for name, share in names) + " total=0\n"
    return f"some {line}full {line}"


class Files:
    """The files of a machine. A file is only written if its text has changed."""

    def __init__(self, folder: str, machine: Machine) -> None:
        self.machine = machine
        self.root = os.path.join(folder, "machine")
        self.tree = self.root + MOUNT
        self.written: dict[str, str] = {}
        self.groups: dict[str, Group] = {}
        for name in ("proc/pressure", "proc/sys/vm", "dev"):
            os.makedirs(os.path.join(self.root, name))
        os.makedirs(self.tree)
        for name, text in {
            "proc/mounts": f"cgroup2 {MOUNT} cgroup2 rw 0 0\n",
            "proc/vmstat": "pswpin 0\npswpout 0\n",
            "proc/sys/vm/swappiness": "60\n",
            "dev/kmsg": "",
        }.items():
            self.write(os.path.join(self.root, name), text)
        self.update()

    def write(self, name: str, text: str) -> None:
        if self.written.get(name) != text:
            with open(name, "w", encoding="utf-8") as file:
                file.write(text)
            self.written[name] = text

    def folder(self, path: str) -> str:
        return self.tree if path == ROOT else self.tree + path

    def update(self) -> None:
        """Writes the files whose text has changed since the last call."""
        live = self.machine.world.live
        gone = [path for path, it in self.groups.items() if live.get(path) is not it]
        for path in sorted(gone, key=len, reverse=True):
            self.remove(path)
        for path in sorted(live):
            if path not in self.groups:
                self.make(path)
            self.update_group(path)
        self.update_host()

    def remove(self, path: str) -> None:
        del self.groups[path]
        folder = self.folder(path)
        shutil.rmtree(folder, ignore_errors=True)
        for name in [it for it in self.written if it.startswith(f"{folder}/")]:
            del self.written[name]

    def make(self, path: str) -> None:
        """Creates the folder of a group, and the files in it that never change."""
        self.groups[path] = self.machine.group(path)
        folder = self.folder(path)
        if path != ROOT:
            os.mkdir(folder)
        for name, text in self.fixed(path).items():
            self.write(os.path.join(folder, name), text)

    def fixed(self, path: str) -> dict[str, str]:
        """Returns the text of those files of a group that never change, by name. The list of
        processes, cgroup.procs, is empty.
        """
        extras = self.machine.extras
        dying = extras.of(path, "nr_dying_descendants")
        found = {"cgroup.stat": f"nr_descendants 0\nnr_dying_descendants {dying}\n"}
        if path == ROOT:
            return {**found, **{name: FIXED[name] for name in OF_ROOT}}
        return {**found, **FIXED, **{name: f"{extras.of(path, name)}\n" for name in NUMBERS}}

    def update_group(self, path: str) -> None:
        """Writes those files of a group that can change."""
        folder, sample = self.folder(path), self.machine.sample(path)
        stat = f"anon {sample.memory}\nfile 0\npgscan {sample.scanned}\npgsteal 0\n"
        self.write(os.path.join(folder, "memory.stat"), stat)
        if path != ROOT:
            self.write(os.path.join(folder, "memory.current"), f"{sample.memory}\n")
            self.write(os.path.join(folder, "memory.swap.current"), f"{sample.swap}\n")
            events = f"populated {int(self.machine.is_populated(path))}\nfrozen 0\n"
            self.write(os.path.join(folder, "cgroup.events"), events)
        for wish in ("prefer", "avoid"):
            is_there = self.machine.preference(path) == wish
            self.keep(os.path.join(folder, f".{wish}"), "" if is_there else None)
        for resource in RESOURCES:
            text = pressure_text(self.machine.pressure(path, resource))
            is_there = self.machine.group(path).is_accounted
            self.keep(os.path.join(folder, f"{resource}.pressure"), text if is_there else None)
            if path == ROOT:
                self.write(os.path.join(self.root, "proc/pressure", resource), text)

    def keep(self, name: str, text: str | None) -> None:
        """Writes a file, or removes it if it has no text."""
        if text is not None:
            self.write(name, text)
        elif name in self.written:
            del self.written[name]
            os.remove(name)

    def update_host(self) -> None:
        host = self.machine.host()
        total, swap, free = (it // KIB for it in (host.memory, host.swap, host.swap_free))
        unused = total - self.machine.current(ROOT) // KIB
        lines = {
            "MemTotal": total, "MemFree": unused, "MemAvailable": unused, "SwapTotal": swap,
            "SwapFree": free,
        }  # fmt: skip
        text = "".join(f"{name}: {count} kB\n" for name, count in lines.items())
        self.write(os.path.join(self.root, "proc/meminfo"), text)
        row = f"/dev/swap partition\t{swap}\t\t{swap - free}\t\t-2\n" if swap else ""
        self.write(os.path.join(self.root, "proc/swaps"), SWAPS + row)
