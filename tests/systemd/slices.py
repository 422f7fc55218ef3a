"""Builds traces and settings for checks of tools/systemd-oomd, and runs tools/systemd-oomd on them.

A task that only waits for memory makes its group fully stalled. Averages are updated every 2 s, so
at each even second n avg10 is 100 (1 - e^(-n/10)) percent. It is above 40 percent from 6 s on,
above 50 from 8 s, above 60 from 10 s, and above 80 from 18 s. Most runs take place in this process,
because starting a process for each run would take longer.
"""
from __future__ import annotations

import os
from dataclasses import dataclass, field

from harness import must_be
from shared.program import TOP
from shared.rooms import Done, Room
from psirules.program import Program
from psisystemd.replayed import replayed, warnings
from psisystemd.settings import Settings

OOMD, RULES = "tools/systemd-oomd", "tools/rules"
STORY = os.path.join(TOP, "examples", "runaway-systemd")
SECOND = 10**9
SLICE = "/s.slice"
A, B, C = (f"{SLICE}/{it}.service" for it in "abc")
UNITS = "etc/systemd/system"
WATCHED = {f"{UNITS}/s.slice": "[Slice]\nManagedOOMMemoryPressure=kill\n"}
SWAPPED = {f"{UNITS}/-.slice.d/swap.conf": "[Slice]\nManagedOOMSwap=kill\n"}
NO_OWNER = "uid=0 oom_group=0 avoid=0 omit=0"
EACH_SECOND = ("--tick-ms", "1000", "--interval-s", "1")
Decisions = list[tuple[float, str | None]]


@dataclass
class Leaf:
    """A group with a single task. It has a memory size and a swap size (bytes), a number of pages
    that it scans per second, and the intervals (s) in which it waits for memory.
    """

    memory: int = 1000
    swap: int = 0
    scans: int = 0
    stalls: tuple[tuple[int, int], ...] = ()


@dataclass
class Trace:
    """A trace of some seconds. Each Leaf has its own processor, on which its task waits for memory
    or sleeps. Memory is sampled each second, as tools/record does.
    """

    seconds: int
    leaves: dict[str, Leaf]
    extra: list[tuple[float, str]] = field(default_factory=list)

    def groups(self) -> list[str]:
        found = {
            path[:end]
            for path in self.leaves
            for end in range(1, len(path) + 1)
            if end == len(path) or path[end] == "/"
        }
        return sorted(found)

    def lines(self) -> list[tuple[float, str]]:
        lines: list[tuple[float, str]] = [(0, f"group {path}") for path in self.groups()]
        for number, (path, leaf) in enumerate(self.leaves.items(), 1):
            cpu = number - 1
            lines += [(0, f"fork {number} {path} {cpu}"), (0, f"switch {cpu} {number} idle")]
            if not leaf.stalls:
                lines.append((0, f"switch {cpu} 0 sleep"))
            for begin, end in leaf.stalls:
                lines += [(begin, f"stall {number}"), (end, f"unstall {number}")]
            lines += [
                (at, f"mem {path} {leaf.memory} {leaf.swap} {leaf.scans * at}")
                for at in range(self.seconds)
            ]
        return [*lines, *self.extra]

    def text(self) -> str:
        lines = [it for it in self.lines() if it[0] <= self.seconds]
        body = [f"{round(at * SECOND)} {line}" for at, line in sorted(lines, key=lambda it: it[0])]
        return "\n".join(
            [f"psitrace 2 cpus={len(self.leaves)}", *body, f"{self.seconds * SECOND} end\n"]
        )


def put(room: Room, files: dict[str, str], folder: str = "settings") -> None:
    """Writes a folder with settings of systemd-oomd."""
    os.makedirs(os.path.join(room.path, folder), exist_ok=True)
    for name, text in files.items():
        os.makedirs(os.path.dirname(os.path.join(room.path, folder, name)), exist_ok=True)
        room.file(f"{folder}/{name}", text)


def run_emulation(room: Room, trace: Trace, *words: str) -> Done:
    room.file("t.trace", trace.text())
    return room.run(OOMD, "t.trace", "--settings", "settings", *words)


def decided(
    room: Room, trace: Trace, folder: str, version: int | None = None
) -> tuple[Decisions, list[str]]:
    """Runs the emulation on a folder of settings. Returns the times (s) and the victims of the
    kills, and the messages.
    """
    file = os.path.join(room.path, room.file(f"{folder}.trace", trace.text()))
    settings = Settings(os.path.join(room.path, folder), version)
    program = Program()
    program.path = room.program
    engine = replayed(program, file, settings, 1)
    said = [
        it.replace(f"{room.path}/", "") for it in [*settings.notes, *warnings(engine, settings)]
    ]
    return [(it.time_ns / SECOND, it.victim) for it in engine.decisions], said


def decisions(
    room: Room, trace: Trace, files: dict[str, str], version: int | None = None, said: str = ""
) -> Decisions:
    """Runs the emulation with these settings files. Returns the times (s) and the victims of the
    kills. Raises if the messages differ from `said`.
    """
    put(room, files)
    found, notes = decided(room, trace, "settings", version)
    must_be("what is said", "\n".join(notes), said)
    return found


def stalled(seconds: int = 45, **more: Leaf) -> Trace:
    """Returns a trace with three services. One always waits for memory, and scans fewer pages than
    the second and more than the third.
    """
    leaves = {
        "a": Leaf(3000, 0, 10, ((0, seconds),)), "b": Leaf(1000, 0, 20), "c": Leaf(9000, 0, 5),
        **more,
    }
    return Trace(seconds, {f"{SLICE}/{name}.service": leaf for name, leaf in leaves.items()})


def swap_trace(memory: int, free: int, *leaves: tuple[str, int]) -> Trace:
    """Returns a trace of a machine with 1000 bytes of memory and 1000 bytes of swap. At 2.1 s,
    `memory` bytes of memory are used, and `free` bytes of swap are free.
    """
    extra = [
        (0.0, "host 1000 1000 1000"), (0.0, "mem / 100 0 0"), (2.1, f"host 1000 1000 {free}"),
        (2.1, f"mem / {memory} 0 0"),
    ]
    tops = {path[: path.index("/", 1)] for path, _ in leaves}
    extra += [
        (0.0, f"mem {top} 200 {sum(swap for path, swap in leaves if path.startswith(top))} 0")
        for top in sorted(tops)
    ]
    return Trace(3, {path: Leaf(100, swap) for path, swap in leaves}, extra)
