"""Checks that tools/oomd rejects bad input with a message and exit status 2."""
from __future__ import annotations

import os
import subprocess
import time
from unittest import mock

from harness import must, must_be
from shared.rooms import REFUSED, RUNAWAY, RUNAWAY_RULES, Done, Room
from oomd import both
from psicli.fault import Fault
from oomd.stories import ALWAYS, GROWTH, Story, plugin, rules, written
from psioomd import binary, daemon
from psioomd.emulation import Run
from psioomd.sandbox import Sandbox, sandbox
from psirules.program import Program

OOMD = "tools/oomd"
NOT_RUN = 2


def must_refuse(what: str, done: Done, *words: str) -> None:
    """Raises unless the output is empty, the exit status is 2, and the message contains all of the
    words.
    """
    must_be(f"{what}: status and output, where standard error was {done.error!r}",
            (done.status, done.output), (NOT_RUN, ""))
    for word in words:
        must(word in done.error, f"{what}: {word!r} isn't in {done.error!r}")


def files(room: Room) -> tuple[str, str]:
    """Writes a trace and a configuration, and returns their paths."""
    story = Story("/a").task("/a").mem(0, "/a", 5)
    config = written(rules(ALWAYS, plugin(GROWTH, "a", post_action_delay=60)))
    return room.file("t.trace", story.text(4)), room.file("c.json", config)


def check_refused_configurations(room: Room) -> None:
    trace, _ = files(room)
    bad = room.file("bad.json", written(rules(ALWAYS, plugin(GROWTH, "a", other=1))))
    where = "bad.json: ruleset 0 'r', action 0 'kill_by_memory_size_or_growth': oomd refuses this: "
    done = room.run(OOMD, trace, "--config", bad)
    must_refuse("an unknown argument", done, where, f'Unknown arg "other" in plugin "{GROWTH}"')
    must_refuse("no JSON", room.run(OOMD, trace, "--config", room.file("n.json", "{")),
                "Unable to parse JSON")
    must_refuse("no file", room.run(OOMD, trace, "--config", "none.json"),
                "none.json: No such file")


def check_refused_traces(room: Room) -> None:
    """For an invalid trace the message is psi_oomd's own."""
    _, config = files(room)
    line = room.run("psi_oomd", "check", REFUSED).error.strip()
    must(line, "psi_oomd refuses it")
    must_refuse("a bad line", room.run(OOMD, REFUSED, "--config", config), line)
    must_refuse("no trace", room.run(OOMD, "none.trace", "--config", config), "none.trace")


def check_bad_words(room: Room) -> None:
    trace, config = files(room)
    for words, said in (
        (("--interval-s", "0"), "0 isn't a whole number"),
        (("--given", "/a/memory.high=1"), "write /GROUP/FILE=NUMBER"),
        (("--given", "memory.low=1"), "write /GROUP/FILE=NUMBER"),
        (("--warm", "-1"), "from 0 to 100000"),
        (("--sandbox", "none"), "--sandbox and --log are for --binary"),
        (("--log", "x"), "--sandbox and --log are for --binary"),
        (("--drop-in", "none.json"), "none.json: No such file"),
        (("--compare", "none.json"), "none.json: No such file"),
    ):
        must_refuse(" ".join(words), room.run(OOMD, trace, "--config", config, *words), said)


@both.alone
def check_programs_that_arent_oomd(room: Room) -> None:
    """Paths that aren't oomd are rejected: a missing file, a program with other output, a
    statically linked program, and a program that never ends.
    """
    trace, config = files(room)
    spin = room.file("spin", "#!/bin/sh\nwhile :; do :; done\n", 0o755)
    words = [OOMD, trace, "--config", config, "--sandbox", both.sandbox(), "--binary"]
    must_refuse("no file", room.run(*words, "no-such-oomd"), "there is no such program",
                "package oomd")
    must_refuse("true", room.run(*words, "/usr/bin/true"), "isn't oomd", "--list-plugins",
                "status 0")
    must_refuse("a static program", room.run(*words, static(room)), "isn't oomd")
    path = os.path.join(room.path, spin)
    begun = time.monotonic()
    with mock.patch.object(daemon.answer, "__defaults__", (0.5,)):
        try:
            binary.run_binary(Program(),
                              Run(os.path.join(room.path, trace), os.path.join(room.path, config)),
                              path, both.sandbox())
            said = "no fault"
        except Fault as fault:
            said = str(fault)
    must("was terminated: is it oomd?" in said, f"a program that never ends: {said}")
    must(time.monotonic() - begun < 60, "it took too long")


def static(room: Room) -> str:
    """Compiles a statically linked program, and returns its path. Returns /usr/bin/true if the
    compiler can't link statically.
    """
    source, program = os.path.join(
        room.path, room.file("s.c", "int main(void){return 0;}")
    ), os.path.join(room.path, "static")
    done = subprocess.run(["cc", "-static", "-o", program, source], capture_output=True)
    return program if done.returncode == 0 else "/usr/bin/true"


@both.alone
def check_without_a_compiler(room: Room) -> None:
    """If no C compiler is installed, or the source of the library doesn't compile, the message says
    so.
    """
    daemon.clock_library.cache_clear()
    with mock.patch.object(
        subprocess, "run", side_effect=FileNotFoundError(2, "No such file or directory")
    ):
        said = fault_of(daemon.clock_library)
    must("install a C compiler (package gcc)" in said, said)
    daemon.clock_library.cache_clear()
    with mock.patch.object(daemon, "SOURCE", os.path.join(room.path, room.file("bad.c", "no C"))):
        said = fault_of(daemon.clock_library)
    must("doesn't compile" in said and "bad.c" in said, said)
    daemon.clock_library.cache_clear()


def fault_of(call: object) -> str:
    try:
        call()  # type: ignore[operator]
    except Fault as fault:
        return str(fault)
    return "no fault"


@both.alone
def check_without_a_sandbox(_: Room) -> None:
    """oomd runs without a sandbox only if an option requests that."""
    with mock.patch("shutil.which", lambda name: None):
        said = fault_of(lambda: sandbox(None, "/tmp", "/usr/bin/true"))
    must_be("what it says", said.count("isn't installed"), 2)
    must("--sandbox none" in said, said)
    with mock.patch.object(Sandbox, "fault", lambda it: "not allowed"):
        said = fault_of(lambda: sandbox(None, "/tmp", "/usr/bin/true"))
    must("not allowed" in said, said)


def check_oomds_own_refusal(room: Room) -> None:
    """If the emulation and oomd itself reject a configuration, the message of oomd is printed."""
    if not both.has_oomd():
        return
    trace, _ = files(room)
    bad = room.file("bad.json", written(rules(ALWAYS, plugin(GROWTH, "a", other=1))))
    words = ("--binary", "--sandbox", both.sandbox())
    done = room.run(OOMD, trace, "--config", bad, *words)
    must_refuse("an unknown argument", done, "bad.json: /", "refuses this: ",
                f'Unknown arg "other" in plugin "{GROWTH}"')


def check_a_crash(room: Room) -> None:
    """If a configuration makes oomd crash, both the emulation and oomd itself report the time of
    the crash, and the tool succeeds.
    """
    trace, _ = files(room)
    bad = room.file("bad.json",
                    written(rules(ALWAYS, plugin(GROWTH, "a", growing_size_percentile=100))))
    done = room.run(OOMD, trace, "--config", bad, "--interval-s", "1")
    must_be("the status", (done.status, done.error), (0, ""))
    must("1 s  bad.json: ruleset 0 'r', action 0" in done.output, done.output)
    must(
        "growing_size_percentile 100 makes oomd 0.5.0 crash: nothing is known after this"
        in done.output,
        done.output,
    )
    if both.has_oomd():
        done = room.run(OOMD, trace, "--config", bad, "--interval-s", "1", "--binary", "--sandbox",
                        both.sandbox())
        must("oomd: oomd ended at 1 s, by SIGSEGV: " in done.output, done.output + done.error)


def check_nothing_is_left(room: Room) -> None:
    """A run leaves no folder and no file, except a log that was requested."""
    files(room)
    before = set(os.listdir(room.path))
    temporary = os.path.join(room.path, "tmp")
    os.mkdir(temporary)
    words = [OOMD, RUNAWAY, "--config", RUNAWAY_RULES]
    if both.has_oomd():
        words += ["--binary", "--sandbox", both.sandbox(), "--log", "log"]
    done = room.run(*words, TMPDIR=temporary)
    must_be(f"the status, where standard error was {done.error!r}", done.status, 0)
    must_be("what is left in the temporary folder", os.listdir(temporary), [])
    must_be("what is left", set(os.listdir(room.path)) - before - {"tmp", "log"}, set())
