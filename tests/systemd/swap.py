"""Checks the rule of systemd-oomd about swap, and compares both rules with a reference
implementation.
"""
from __future__ import annotations

import os

from shared import plain_systemd
from harness import must, must_be
from shared.rooms import Room
from psirules.program import Program
from psisystemd.replayed import replayed
from psisystemd.settings import Settings
from systemd.slices import (
    SECOND, A, B, UNITS, SWAPPED, Leaf, Trace, put, run_emulation, decisions, swap_trace,
)


def check_swap(room: Room) -> None:
    """If more than 90 percent of memory and of swap are used, systemd-oomd kills the candidate with
    the most swap at the next multiple of 0.15 s.
    """
    put(room, SWAPPED)
    for memory, free, victim in ((901, 99, B), (900, 99, None), (901, 100, None), (999, 0, B)):
        found = decisions(room, swap_trace(memory, free, (A, 300), (B, 500)), {})
        must_be(f"memory {memory}, free {free}", found, [(2.1, victim)] if victim else [])
    conf = {"etc/systemd/oomd.conf": "[OOM]\nSwapUsedLimit=50%\n"}
    must_be("another limit", decisions(room, swap_trace(501, 499, (A, 300), (B, 200)), conf),
            [(2.1, A)])


def check_who_has_swap(room: Room) -> None:
    """Candidates are groups that use more than 5 percent of the whole swap."""
    put(room, SWAPPED)
    must_be("50 of 1000 are too few", decisions(room, swap_trace(999, 0, (A, 50), (B, 40)), {}),
            [(2.1, None)])
    must_be("51 aren't", decisions(room, swap_trace(999, 0, (A, 51), (B, 40)), {}), [(2.1, A)])
    part = {
        f"{UNITS}/-.slice.d/swap.conf": "", f"{UNITS}/t.slice": "[Slice]\nManagedOOMSwap=kill\n"
    }
    found = decisions(room, swap_trace(999, 0, (A, 500), ("/t.slice/d.service", 100)), part)
    must_be("below the watched group alone", found, [(2.1, "/t.slice/d.service")])


def check_swap_that_stays_used(room: Room) -> None:
    """An evaluation without a new sample changes nothing. The number of evaluations that would kill
    the same group again is printed.
    """
    put(room, SWAPPED)
    leaves = {A: Leaf(100, 300), B: Leaf(100, 500)}
    full: list[tuple[float, str]] = [
        (at, line) for at in range(6) for line in ("host 1000 1000 0", "mem / 999 0 0")
    ]
    trace = Trace(6, leaves, full)
    times = [0.15, 1.05, 2.1, 3.0, 4.05, 5.1]
    must_be("each sample", decisions(room, trace, {}), [(at, B) for at in times])
    output = run_emulation(room, trace).output
    must_be("told once", output.count("would kill"), 1)
    must("        again at 5 looks that found new samples, up to 5.1 s\n" in output, output)


def check_no_swap(room: Room) -> None:
    put(room, SWAPPED)
    none = Trace(2, {A: Leaf()}, [(0, "host 1000 0 0"), (0, "mem / 999 0 0")])
    done = run_emulation(room, none)
    done.must_print("a machine without swap", 0,
                    "nobody would be killed\n"
                    "watched for memory pressure: no group of the trace\n"
                    "watched for swap: the machine has none\n")
    done = run_emulation(room, Trace(2, {A: Leaf()}))
    must_be(
        "it isn't known", done.error,
        "systemd-oomd: swap can't be judged: the trace has no `host` line, or no `mem` line of /\n",
    )


def check_a_plain_reading(room: Room) -> None:
    """For random traces, the reference implementation, which parses the whole trace at each
    evaluation, makes the same decisions.
    """
    kill = (
        "[Slice]\nManagedOOMSwap=kill\nManagedOOMMemoryPressure=kill\n"
        "ManagedOOMMemoryPressureLimit=10%\n"
    )
    put(room, {f"{UNITS}/slice.d/a.conf": f"{kill}ManagedOOMMemoryPressureDurationSec=2s\n"})
    settings, program = os.path.join(room.path, "settings"), Program()
    program.path = room.program
    victims = {"swap": 0, "memory pressure": 0}
    for seed in range(30):
        text = plain_systemd.random_trace(seed)
        trace = os.path.join(room.path, room.file(f"{seed}.trace", text))
        printed = room.run(
            "psi_oomd", "replay", trace, "--tick-ms", "1000", "--report-s", "1"
        ).output
        wanted = plain_systemd.decisions(text, printed, 1000, 2 * SECOND)
        engine = replayed(program, trace, Settings(settings), 1)
        must_be(f"seed {seed}", [(it.time_ns, it.victim, it.by) for it in engine.decisions], wanted)
        for _, victim, by in wanted:
            victims[by] += victim is not None
    must(min(victims.values()) > 5, f"there are kills of both kinds: {victims}")
