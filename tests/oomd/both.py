"""Runs the emulation of oomd and oomd itself on the same trace."""
from __future__ import annotations

import functools
import os
import shutil
import subprocess
import sys
from collections.abc import Callable

from harness import must, must_be
from shared.program import TOP
from shared.rooms import Room
from oomd.experiments import CRASH, Experiment
from oomd.stories import SECOND, written
from psioomd import binary
from psioomd.command import given_number
from psioomd.engine import Engine
from psioomd.machine import Extras
from psioomd.emulation import UPTIME, Run, emulate
from psioomd.sandbox import Sandbox
from psirules.program import Kill, Program

VERSION = "v0.5.0"
ABSENT = "oomd 0.5.0 isn't installed (Debian's package oomd): only the stored answers are checked"


@functools.lru_cache(maxsize=None)
def has_oomd() -> bool:
    """Returns whether the version of oomd that the emulation follows is installed."""
    path = shutil.which("oomd")
    if not path or not shutil.which("cc"):
        return False
    done = subprocess.run([path, "--version"], capture_output=True, text=True)
    return done.stdout.strip() == VERSION


def alone(check: Callable[[Room], None]) -> Callable[[Room], None]:
    """Wraps a check so that it runs in a process of its own, because it replaces functions that
    other checks call.
    """

    @functools.wraps(check)
    def run(room: Room) -> None:
        paths = [os.path.join(TOP, it) for it in ("tests", "tools")]
        name, module = check.__name__, check.__module__
        source = (
            f"import sys; sys.path[:0] = {paths!r}; from shared.rooms import Room; from {module} "
            f"import {name}; "
            f"{name}.__wrapped__(Room({room.program!r}, {room.path!r}))"
        )
        done = subprocess.run([sys.executable, "-B", "-c", source], capture_output=True, text=True)
        must(done.returncode == 0, done.stderr.strip().rpartition("\n")[2])

    return run


@functools.lru_cache(maxsize=None)
def sandbox() -> str:
    """Returns the program that isolates oomd on this machine: bwrap, unshare, or `none` if neither
    works.
    """
    for kind in ("bwrap", "unshare"):
        if shutil.which(kind) and not Sandbox(kind, "/tmp", "/usr/bin/true").fault():
            return kind
    return "none"


def run_of(room: Room, it: Experiment) -> Run:
    """Writes the files of an experiment, and returns the arguments of its run."""
    stem = f"{abs(hash(it.name)):x}"
    trace = room.file(f"{stem}.trace", it.story.text(it.end))
    config = room.file(f"{stem}.json", written(it.config))
    extras = Extras(dict(map(given_number, it.given)))
    uptime = UPTIME if it.uptime is None else it.uptime * SECOND
    folder = room.path
    return Run(
        os.path.join(folder, trace), os.path.join(folder, config), (), it.interval, extras,
        it.warm * it.interval, uptime,
    )  # fmt: skip


def spelled(kill: Kill) -> str:
    who = "" if (kill.ruleset, kill.action) == (0, 0) else f"(r{kill.ruleset}a{kill.action})"
    return f"{kill.time_ns / SECOND:g}s:{kill.path}{who}"


def kills_of(text: str) -> list[str]:
    return [] if text == "none" else text.split(" ")


def emulated(run: Run) -> Engine:
    return emulate(Program(), run, 1)


def must_agree(what: str, it: Engine, kills: list[Kill]) -> None:
    """Raises unless the emulation allows each of oomd's kills: the victim must be the same, or have
    the same rank.
    """
    for own, other in zip(it.decisions, kills):
        found = own.kill()
        same = (found.time_ns, found.ruleset, found.action) == (
            other.time_ns, other.ruleset, other.action
        )
        must(same and own.may_kill(other.path), f"{what}: oomd {other}, the emulation {found}")
    must_be(f"{what}: how many kills", len(it.decisions), len(kills))


def must_be_stored(what: str, it: Engine, wanted: str) -> None:
    """Raises unless the emulation's kills equal the stored ones, except that groups of equal rank
    may be exchanged.
    """
    if wanted == CRASH:
        must(it.crash, f"{what}: oomd crashes, and the emulation doesn't say so")
        return
    stored = kills_of(wanted)
    found = [
             [
                 spelled(own.kill()).replace(own.victim.path, path)
                 for path in (own.victim.path, *own.victim.equals)
             ]
             for own in it.decisions]  # fmt: skip
    must_be(f"{what}: how many kills, {found}", len(found), len(stored))
    for own, kill in zip(found, stored):
        must(kill in own, f"{what}: {own}, not {kill}")


def ran(run: Run, kind: str | None = None) -> binary.BinaryRun:
    """Runs oomd itself on a trace, in a sandbox of this kind."""
    return binary.run_binary(Program(), run, "oomd", kind or sandbox())
