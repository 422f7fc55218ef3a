"""Checks that no real process or service is affected, even if a configuration lacks `dry` and a
group's list of processes contains a real process.
"""
from __future__ import annotations

import json
import os
import shutil
import subprocess
from collections.abc import Iterator
from contextlib import contextmanager
from unittest import mock

from harness import must, must_be
from shared.rooms import Room
from oomd.both import alone, has_oomd
from psicli.fault import Fault
from oomd.stories import GROWTH, MIB, Story, plugin, rules, written
from psioomd import binary, dry
from psioomd.emulation import Run, read_configuration
from psioomd.files import Files
from psioomd.machine import NO_HOST, Extras, Machine
from psioomd.sandbox import SANDBOXES, Sandbox
from psirules.program import Program

RESTART = "systemd_restart"


def sandboxes() -> list[str]:
    """Returns the kinds of sandbox that work here."""
    return [
        it
        for it in SANDBOXES
        if it == "none" or (shutil.which(it) and not Sandbox(it, "/tmp", "/usr/bin/true").fault())
    ]


def check_that_kills_become_dry(_: Room) -> None:
    """Each plugin gets the argument `dry`, as an action and as a detector, unless it is known to be
    harmless.
    """
    for name in (GROWTH, RESTART, "own_plugin", "kill_by_io_cost"):
        result = dry.make_dry({"name": name, "args": {"cgroup": "a", "dry": "false"}})
        must_be(f"dry of {name}", result["args"], {"cgroup": "a", "dry": "true"})
        must_be(f"dry of {name} alone", dry.make_dry({"name": name})["args"], {"dry": "true"})
    for name in dry.HARMLESS:
        must_be(f"dry of {name}", dry.make_dry({"name": name}), {"name": name})
    group = dry.dry_group(3, ["g", {"name": GROWTH}])
    must_be("dry of a detector", group, ["#3 g", {"name": GROWTH, "args": {"dry": "true"}}])


def check_the_files_name_no_process(room: Room) -> None:
    """All lists of processes in the files that oomd reads are empty."""
    found = files_of(room)
    names = [name for name in found if name.endswith("cgroup.procs")]
    must_be("lists of processes", [found[it] for it in names], ["", ""])


def files_of(room: Room) -> dict[str, str]:
    machine = Machine(Extras(), NO_HOST)
    machine.world.take(0, "group", ["/a"])
    return dict(Files(room.path, machine).written)


@contextmanager
def real_process() -> Iterator[subprocess.Popen[bytes]]:
    """Yields a running process that a real oomd would kill."""
    child = subprocess.Popen(["sleep", "600"])
    try:
        yield child
    finally:
        child.kill()
        child.wait()


def without_dry(room: Room, action: str, pid: int, kind: str) -> str:
    """Runs oomd on a group whose list of processes contains the real process `pid`. The action
    lacks `dry`. Returns the log.
    """
    story = Story("/a").task("/a").mem(0, "/a", 5 * MIB)
    own = {"service": "ssh.service"} if action == RESTART else {"cgroup": "a"}
    it = plugin(action, **own, post_action_delay=60)
    config = rules([plugin("exists", "a")], it)
    trace, written_rules = room.file("s.trace", story.text(6)), room.file("s.json", written(config))
    run = Run(os.path.join(room.path, trace), os.path.join(room.path, written_rules), interval=1)
    fixed, log = Files.fixed, os.path.join(room.path, "log")

    def with_process(files: Files, path: str) -> dict[str, str]:
        return {**fixed(files, path), "cgroup.procs": f"{pid}\n"}

    with mock.patch.object(Files, "fixed", with_process), mock.patch.object(
        dry, "make_dry", lambda it: it
    ):
        try:
            found = binary.run_binary(Program(), run, "oomd", kind, log)
            ended = f"kills {found.kills} {found.fault}"
        except Fault as fault:
            ended = str(fault)
    with open(log, encoding="utf-8") as file:
        return f"{ended}\n{file.read()}"


@alone
def check_that_nobody_is_killed(room: Room) -> None:
    """No real process is killed in any sandbox that works here."""
    for kind in sandboxes() if has_oomd() else ():
        with real_process() as child:
            said = without_dry(room, GROWTH, child.pid, kind)
            must_be(f"{kind}: the process lives", child.poll(), None)
            message = f"tried to kill process {child.pid}, which was refused"
            must(message in said, f"{kind}: it tried: {said[-800:]}")


@alone
def check_that_nothing_is_restarted(room: Room) -> None:
    """If the plugin systemd_restart lacks `dry`, it can't connect to D-Bus, and restarts nothing.
    """
    for kind in sandboxes() if has_oomd() else ():
        with real_process() as child:
            said = without_dry(room, RESTART, child.pid, kind)
        must("restarted systemd service" not in said, f"{kind}: {said[-800:]}")
        must("onnect" in said, f"{kind}: it tried to connect: {said[-800:]}")


def check_that_the_folder_alone_is_written(room: Room) -> None:
    """If another program runs in place of oomd, it can't write outside of its folder, in each kind
    of sandbox.
    """
    for kind in sandboxes():
        if kind == "none":
            continue
        folder = os.path.join(room.path, kind)
        os.mkdir(folder)
        shut = Sandbox(kind, folder, "/usr/bin/env")
        tries = (
            'touch "$0/in"; touch /usr/out /out "$0/../out" 2>/dev/null; ls /; ls /proc; ls '
            '/sys/class/net'
        )
        words = shut.words(["/bin/sh", "-c", tries, folder])
        done = subprocess.run(words, capture_output=True, text=True, stdin=subprocess.DEVNULL)
        must(os.path.exists(os.path.join(folder, "in")), f"{kind}: its folder: {done.stderr}")
        must(not os.path.exists("/usr/out"), f"{kind}: /usr is written")
        must(not os.path.exists(os.path.join(room.path, "out")), f"{kind}: the room is written")
        seen = set(done.stdout.split())
        must(not seen & {"home", "etc", "root", "run", "var", "eth0"}, f"{kind}: it sees {seen}")
        must(len([it for it in seen if it.isdigit()]) <= 4, f"{kind}: it sees processes {seen}")


def check_that_a_copy_is_what_runs(room: Room) -> None:
    """oomd reads a copy of the user's file in which each kill plugin has `dry`, even if it is used
    as a detector. The user's own file is unchanged.
    """
    text = json.dumps(rules([plugin(GROWTH, "a")], plugin(GROWTH, "a")))
    name = room.file("c.json", text)
    copy = json.loads(dry.copy(read_configuration(os.path.join(room.path, name))))
    ruleset = copy["rulesets"][0]
    must_be("a detector", ruleset["detectors"][0][1]["args"]["dry"], "true")
    must_be("an action", ruleset["actions"][0]["args"]["dry"], "true")
    with open(os.path.join(room.path, name), encoding="utf-8") as file:
        must_be("the file", file.read(), text)
