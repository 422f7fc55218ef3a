"""Runs oomd itself on a trace. oomd reads files that show the state of the trace at each
evaluation. All its kills are dry: oomd logs them, and kills no process.
"""
from __future__ import annotations

import contextlib
import functools
import os
import shutil
import tempfile
from collections.abc import Iterator
from dataclasses import dataclass, field
from typing import IO

from psioomd import dry
from psioomd.configuration import Configuration
from psioomd.daemon import Daemon, answer
from psioomd.files import MOUNT, Files
from psioomd.log import LogReader, Restart, reason
from psioomd.machine import Machine
from psioomd.emulation import (
    Run,
    first_host,
    first_samples,
    raise_refusal,
    replay_words,
    ticks_of,
)
from psicli.fault import Fault
from psinames.known import Span
from psireplay.part import within
from psireplay.trace import Events
from psicli.times import SECOND, time_text
from psicli.wording import quoted
from psioomd.sandbox import PATIENCE, SANDBOXES, Sandbox, sandbox
from psirules.program import Kill, Program, processors
from psirules.rules_file import bytes_of

__all__ = ["SANDBOXES", "BinaryRun", "run_binary"]
IS_OOMD = "List of plugins"
MEMORY = "/dev/shm"


@dataclass
class BinaryRun:
    """A run of oomd itself. `path` and `version` identify the program, and `names` are the names of
    the rulesets. `looks` is the number of evaluations. `plugins` contains the plugin of each kill
    in `kills`. If oomd ended early, `fault` says how.
    """

    path: str
    version: str
    sandbox: str
    names: list[str]
    looks: int = 0
    kills: list[Kill] = field(default_factory=list)
    plugins: list[str] = field(default_factory=list)
    restarts: list[Restart] = field(default_factory=list)
    fault: str = ""

    def select(self, part: Span | None) -> None:
        """Removes the kills and restarts outside of a part of the trace."""
        pairs = [it for it in zip(self.kills, self.plugins) if within([it[0]], part)]
        self.kills, self.plugins = [kill for kill, _ in pairs], [plugin for _, plugin in pairs]
        self.restarts = within(self.restarts, part)

    def who(self, kill: Kill) -> str:
        """Returns a text that names the ruleset and the action of a kill."""
        plugin = quoted(self.plugins[self.kills.index(kill)])
        if kill.ruleset < 0:
            return plugin
        action = f"action {kill.action} {plugin}" if kill.action >= 0 else plugin
        return f"ruleset {kill.ruleset} {quoted(self.names[kill.ruleset])}, {action}"

    def line(self, kill: Kill) -> str:
        """Returns the output line for a kill."""
        when = time_text(kill.time_ns)
        return f"{when}  by {self.path}: would kill {kill.path}, {self.who(kill)}"

    def record(self) -> dict[str, object]:
        """Returns the run as a JSON object."""
        kills = [
            {"moment_ns": it.time_ns, "ruleset": it.ruleset, "action": it.action, "victim": it.path}
            for it in self.kills
        ]
        restarts = [{"moment_ns": it.time_ns, "service": it.service} for it in self.restarts]
        return {
            "program": self.path, "version": self.version, "sandbox": self.sandbox,
            "looks": self.looks, "kills": kills, "restarts": restarts, "fault": self.fault or None,
        }  # fmt: skip


@contextlib.contextmanager
def room() -> Iterator[str]:
    """Yields a temporary folder. It is in memory if /dev/shm is writable."""
    where = MEMORY if os.access(MEMORY, os.W_OK) else None
    with tempfile.TemporaryDirectory(
        prefix="psioomd-", dir=where, ignore_cleanup_errors=True
    ) as it:
        yield os.path.realpath(it)


def program_at(name: str) -> str:
    """Returns the absolute path of a program. `name` is a path, or a name in PATH. Raises a Fault
    if there is no such program.
    """
    found = shutil.which(name)
    if not found:
        advice = "give its path, or install Debian's package oomd"
        raise Fault(f"{quoted(name)}: there is no such program: {advice}")
    return os.path.realpath(found)


@functools.lru_cache(maxsize=None)
def version_of(kind: str, path: str) -> str:
    """Returns the version of oomd. Raises a Fault if the program isn't oomd."""
    with room() as folder:
        shut = Sandbox(kind, folder, path)
        status, plugins = answer(shut, [path, "--list-plugins"])
        if status or IS_OOMD not in plugins:
            what = (
                f"`--list-plugins` ended with status {status} and {quoted(plugins.strip()[:200])}"
            )
            raise Fault(f"{quoted(path)} isn't oomd: {what}")
        _, said = answer(shut, [path, "--version"])
    return said.strip().splitlines()[0].removeprefix("v") if said.strip() else "of no version"


def store(folder: str, name: str, data: bytes) -> str:
    path = os.path.join(folder, name)
    with open(path, "wb") as file:
        file.write(data)
    return path


def check_config(shut: Sandbox, path: str, name: str) -> None:
    """Raises a Fault, with oomd's own reason, if oomd rejects a configuration."""
    kmsg = os.path.join(shut.folder, "machine/dev/kmsg")
    words = [shut.binary, "-f", MOUNT, "--kmsg-override", kmsg, "--check-config", path]
    status, said = answer(shut, words)
    if status:
        raise Fault(f"{name}: {shut.binary} refuses this: {reason(said)}")


def prepare_words(
    shut: Sandbox, run: Run, base: Configuration, parts: list[Configuration]
) -> list[str]:
    """Writes dry copies of the configuration and its drop-in files. Returns the command that runs
    oomd on these copies.
    """
    check_config(shut, store(shut.folder, "given.json", bytes_of(run.config)), run.config)
    copy = store(shut.folder, "oomd.json", dry.copy(base))
    check_config(shut, copy, f"{run.config} with `dry` in each kill")
    words = [shut.binary, "-C", copy, "-i", str(run.interval), "-f", MOUNT, "-D", shut.folder]
    words += ["--kmsg-override", os.path.join(shut.folder, "machine/dev/kmsg")]
    if parts:
        folder = os.path.join(shut.folder, "drop-in")
        os.mkdir(folder)
        for number, part in enumerate(parts):
            store(folder, f"{number:04}.json", dry.drop_in_copy(base, part))
        words += ["-w", folder]
    return words


class Looks:
    """Brings the files of a machine to the state of the trace at each evaluation by oomd."""

    def __init__(self, run: Run, files: Files, printed: Iterator[bytes]) -> None:
        self.run, self.files = run, files
        self.events = Events(run.trace)
        self.ticks = ticks_of(printed, run.interval)
        self.warm = run.warm // run.interval
        self.take(0)
        if run.warm:
            for event in first_samples(run.trace):
                files.machine.world.take(*event)
        files.update()

    def take(self, time_ns: int) -> None:
        """Applies the trace's events up to and including `time_ns`."""
        for event in self.events.until(time_ns):
            self.files.machine.world.take(*event)

    def times(self) -> Iterator[int]:
        """Yields the time (ns) of each evaluation. Updates the files to that time first."""
        for number in range(1, self.warm + 1):
            yield (number - self.warm) * self.run.interval * SECOND
        for tick in self.ticks:
            self.take(tick.time_ns)
            self.files.machine.take_pressure(tick.reports)
            self.files.update()
            yield tick.time_ns


@dataclass
class Follower:
    """Runs oomd's evaluations one by one, and parses oomd's log."""

    daemon: Daemon
    found: BinaryRun
    reader: LogReader
    log: IO[str] | None

    def has_looked(self, time_ns: int | None) -> bool:
        """Waits until oomd sleeps again, and parses its new log. `time_ns` is the time (ns) of the
        evaluation, or None for oomd's start. Returns False if oomd has ended.
        """
        end = self.daemon.sleep_end()
        said = self.daemon.new_log()
        when = "start" if time_ns is None else time_text(time_ns)
        if self.log and said:
            self.log.write(f"== {when}\n{said}")
        if time_ns is not None:
            self.reader.take(time_ns, said)
        if end is None:
            at = "before its first look" if time_ns is None else f"at {when}"
            words = reason(said) or "no words"
            self.found.fault = f"{self.found.path}: oomd ended {at}, {self.daemon.end()}: {words}"
        return end is not None

    def follow(self, looks: Looks) -> None:
        shift = looks.warm * looks.run.interval * SECOND
        if not self.daemon.is_preloaded():
            advice = "give one that is linked dynamically"
            raise Fault(
                f"{quoted(self.found.path)} ended at once, or is linked statically: {advice}"
            )
        if not self.has_looked(None):
            return
        for time_ns in looks.times():
            self.found.looks += 1
            self.daemon.wake(time_ns + shift)
            if not self.has_looked(time_ns):
                return
        self.daemon.end()


def run_binary(
    program: Program,
    run: Run,
    name: str,
    kind: str | None = None,
    log: str | None = None,
    patience: float = PATIENCE,
) -> BinaryRun:
    """Runs oomd itself on a trace, and returns its kills."""
    base, parts = run.configurations()
    path = program_at(name)
    machine = Machine(run.extras, first_host(run.trace))
    with room() as folder, contextlib.ExitStack() as stack:
        shut = sandbox(kind, folder, path)
        files = Files(folder, machine)
        found = BinaryRun(
            name, version_of(shut.kind, path), shut.text(), [it.name for it in base.rulesets]
        )
        words = prepare_words(shut, run, base, parts)
        counts = [len(it.actions) for it in base.rulesets]
        reader = LogReader(counts)
        said = stack.enter_context(tempfile.TemporaryFile())
        child = stack.enter_context(program.started(replay_words(run, processors()), said))
        assert child.stdout is not None
        looks = Looks(run, files, iter(child.stdout))
        stream = stack.enter_context(open(log, "w", encoding="utf-8")) if log else None
        daemon = Daemon(shut, words, run.uptime, patience)
        try:
            Follower(daemon, found, reader, stream).follow(looks)
        finally:
            terminate(daemon)
        child.stdout.read()
        child.wait()
        raise_refusal(child.returncode, run.trace, said)
    found.kills, found.plugins, found.restarts = reader.kills, reader.plugins, reader.restarts
    return found


def terminate(daemon: Daemon) -> None:
    """Ends the daemon if it still runs, for example after a Fault."""
    if daemon.process.poll() is None:
        daemon.end(0)
