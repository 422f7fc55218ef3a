"""Checks of the recorder as a service: limits on stored recordings, a hook, metrics, the status
command, and a trigger on a single group.
"""
from __future__ import annotations

import os
import re
import shutil
import subprocess
import time

from record import machine_folder as folder
from harness import must, must_be
from record.runs import RECORD, WAIT_S, Run, awaited, read

MEGABYTE = 10**6
GROUP = "system.slice/web.service"
UNTIL = ("--ring", "--until", "memory full 100000 1000000", "--after-s", "0.2")


def old_recording(
    path: str, age: float, size: int = 0, first: str = "recording 2", more: str = "end seconds\n"
) -> None:
    """Makes a recording that ended `age` s ago, with a file of pages of `size` bytes."""
    folder.write(f"{path}/meta", f"{first}\n{more}")
    folder.write(f"{path}/cpu0.raw", bytes(size))
    os.makedirs(f"{path}/systemd/etc")
    os.utime(f"{path}/meta", (time.time() - age,) * 2)


def stored(above: str) -> list[str]:
    return sorted(it for it in os.listdir(above) if os.path.isdir(os.path.join(above, it)))


def record(top: str, out: str, *words: str) -> subprocess.CompletedProcess[str]:
    """Makes a complete short recording in the folder `out`. Returns the completed process."""
    command = [RECORD, "--root", top, out, "--seconds", "0.3", *words]
    return subprocess.run(command, stdin=subprocess.DEVNULL, capture_output=True, text=True,
                          timeout=60)


def state(*words: str) -> subprocess.CompletedProcess[str]:
    return subprocess.run([RECORD, "status", *words], stdin=subprocess.DEVNULL, capture_output=True,
                          text=True, timeout=60)


def check_keep_a_number(top: str) -> None:
    """With --keep NUMBER, only the oldest recordings beyond this number are deleted."""
    folder.make_machine(top)
    above = f"{top}.above"
    for number in range(5):
        old_recording(f"{above}/r{number}", 1000 - number)
    folder.write(f"{above}/notes/meta", "what I did\n")
    os.symlink("notes", f"{above}/link")
    done = record(top, f"{above}/new", "--keep", "3")
    must_be(f"the status, after {done.stderr!r}", done.returncode, 0)
    must_be("what is left", stored(above), ["link", "new", "notes", "r3", "r4"])
    must_be("what is said", done.stderr.count("to keep the limit"), 3)


def check_keep_megabytes(top: str) -> None:
    """With a limit in megabytes, the newest recordings whose sizes together are within the limit
    are kept. The new recording is kept even if it alone exceeds the limit.
    """
    folder.make_machine(top)
    above = f"{top}.above"
    for number in range(4):
        old_recording(f"{above}/r{number}", 1000 - number, MEGABYTE)
    record(top, f"{above}/new", "--keep-mb", "2.5")
    must_be("what is left", stored(above), ["new", "r2", "r3"])
    record(top, f"{above}/last", "--keep-mb", "0.001")
    must_be("the newest is left", stored(above), ["last"])


def check_keep_follows_no_link(top: str) -> None:
    """If a deleted recording contains links, the targets of the links aren't deleted."""
    folder.make_machine(top)
    above = f"{top}.above"
    old_recording(f"{above}/r0", 1000)
    folder.write(f"{top}.outside/precious", "data")
    os.symlink(f"{top}.outside", f"{above}/r0/folder")
    os.symlink(f"{top}.outside/precious", f"{above}/r0/file")
    record(top, f"{above}/new", "--keep", "1")
    must_be("what is left", stored(above), ["new"])
    must_be("what the links led to", read(f"{top}.outside/precious"), "data")


def check_keep_spares_one_that_is_written(top: str) -> None:
    """A recording that another recorder is writing isn't deleted, however old it is."""
    folder.make_machine(top)
    folder.make_machine(f"{top}2")
    above = f"{top}.above"
    os.makedirs(above)
    run = Run(f"{top}2", *UNTIL, name="written")
    os.symlink(run.out, f"{above}/alias")
    run.instance()
    os.rename(run.out, f"{above}/written")
    os.utime(f"{above}/written/meta", (time.time() - 5000,) * 2)
    old_recording(f"{above}/r0", 1000)
    old_recording(f"{above}/r1", 500)
    record(top, f"{above}/new", "--keep", "1")
    must_be("what is left", stored(above), ["new", "written"])
    status = state(above)
    must(
        re.search(
            r"^recording now: written, since 20\S+ \S+ UTC; waits for memory full 100000 1000000$",
            status.stdout, re.M,
        ),
        status.stdout,
    )
    run.child.terminate()
    run.child.wait(WAIT_S)
    must("killed" not in state(above).stdout, "it ended by itself")


def check_status(top: str) -> None:
    """The status command lists each recording with its losses and with the reason why it ended."""
    above = f"{top}.above"
    old_recording(f"{above}/b", 10, 2 * MEGABYTE,
                  more="stats cpu0 overrun: 7\nstats cpu0 dropped events: 5\nend max-mb\n")
    old_recording(f"{above}/a", 20, more="ring memory full 100000 1000000\nstats cpu0 overrun: 7\n")
    done = state(above)
    lines = done.stdout.splitlines()
    must_be("the status", (done.returncode, done.stderr), (0, ""))
    must(re.fullmatch(rf"{re.escape(above)}: 2 recordings, 2\.0 MB; [0-9]+ MB free", lines[0]),
         lines[0])
    must(re.fullmatch(r"b  20\S+ \S+ UTC       2\.0 MB  max-mb, 12 events lost", lines[1]),
         lines[1])
    must(re.fullmatch(r"a  20\S+ \S+ UTC       0\.0 MB  killed", lines[2]), lines[2])
    must_be("the last line", lines[3:], ["no recorder is recording into it now"])
    missing = state(f"{above}/nowhere")
    must_be("no folder", (missing.returncode, missing.stderr),
            (2, f"record: {above}/nowhere: No such file or directory\n"))


def values(text: str) -> dict[str, float]:
    """Returns the samples of a metrics file. Raises unless each sample follows its HELP and TYPE
    lines.
    """
    lines, found = text.splitlines(), {}
    for help_, kind, sample in zip(lines[::3], lines[1::3], lines[2::3]):
        name = sample.partition("{")[0]
        must(help_.startswith(f"# HELP {name} ") and kind == f"# TYPE {name} gauge",
             f"{help_}, {kind}, {sample}")
        found[name.removeprefix("psi_record_")] = float(sample.rpartition(" ")[2])
    return found


def check_textfile(top: str) -> None:
    """The folder's metrics are right during a recording and after it."""
    above, file = f"{top}.above", f"{top}.prom"
    old_recording(f"{above}/a", 20, MEGABYTE, more="stats cpu0 overrun: 7\nend seconds\n")
    folder.make_machine(top)
    command = [RECORD, "--root", top, f"{above}/new", "--textfile", file]
    with subprocess.Popen(command, stdin=subprocess.DEVNULL, stderr=subprocess.PIPE) as child:
        waited = time.monotonic() + WAIT_S
        while not os.path.exists(file) and time.monotonic() < waited:
            time.sleep(0.02)
        during = values(read(file))
        child.terminate()
        child.communicate(timeout=WAIT_S)
    must_be("while it records", [during[it] for it in ("recordings", "active", "lost_events")],
            [1, 1, 7])
    after = values(read(file))
    must_be("afterwards", [after[it] for it in ("recordings", "active", "incomplete_recordings")],
            [2, 0, 1])
    must(after["recordings_bytes"] > MEGABYTE and after["free_bytes"] > 0, f"{after}")
    must(abs(after["last_end_timestamp_seconds"] - time.time()) < 60, f"{after}")
    must_be("node_exporter may read it", os.stat(file).st_mode & 0o777, 0o644)
    must_be("nothing else is left",
            sorted(it for it in os.listdir(os.path.dirname(top)) if "prom" in it),
            [os.path.basename(file)])
    os.unlink(file)
    must_be("the status", state(above, "--textfile", file).returncode, 0)
    must_be("the same from `status`", values(read(file)).keys(), after.keys())


def make_hook(top: str, lines: str) -> str:
    path = f"{top}.hook"
    folder.write(path, f"#!/bin/sh\n{lines}\n")
    os.chmod(path, 0o755)
    return path


def check_hook(top: str) -> None:
    """After a recording is complete, the hook is called with the recording's folder. A failure of
    the hook has no effect.
    """
    folder.make_machine(top)
    hook = make_hook(top, f'tail -1 "$1/meta" >"{top}.said"; echo "$1" >>"{top}.said"; exit 7')
    done = record(top, f"{top}.out", "--hook", hook)
    must_be(f"the status, after {done.stderr!r}", done.returncode, 0)
    must_be("what the hook saw", read(f"{top}.said"), f"end seconds\n{top}.out\n")
    must(f"record: the hook {hook} ended with status 7\n" in done.stderr, done.stderr)


def check_hook_that_others_write(top: str) -> None:
    """A recorder that runs as root rejects a hook that other users can change."""
    folder.make_machine(top)
    hook = make_hook(top, "true")
    os.chmod(hook, 0o777)
    done = record(top, f"{top}.out", "--hook", hook)
    must_be("what is said", (done.returncode, done.stderr.splitlines()[0]),
            (2, f"record: argument --hook: {hook}: others may write to it"))
    must(not os.path.exists(f"{top}.out"), "nothing was recorded")


def check_hook_and_a_signal(top: str) -> None:
    """If the recorder gets a signal while a hook runs, the hook is ended."""
    folder.make_machine(top)
    hook = make_hook(top, f'echo >"{top}.began"; exec sleep 600')
    command = [RECORD, "--root", top, f"{top}.out", "--seconds", "0.3", "--hook", hook]
    with subprocess.Popen(
        command, stdin=subprocess.DEVNULL, stderr=subprocess.PIPE, text=True
    ) as child:
        waited = time.monotonic() + WAIT_S
        while not os.path.exists(f"{top}.began") and time.monotonic() < waited:
            time.sleep(0.02)
        child.terminate()
        _, said = child.communicate(timeout=WAIT_S)
    must(f"the hook {hook} was terminated: a signal came" in said, said)
    must_be("the status is that of the recording", child.returncode, 0)


def check_trigger_of_a_group(top: str) -> None:
    """With --group, the trigger is on the pressure of this group, and `meta` names the group."""
    folder.make_machine(top)
    run = Run(top, *UNTIL, "--group", GROUP)
    run.instance()
    fire(top)
    run.ended(0).says("ended by trigger")
    must_be("the group", run.values("ring-group"), [f"/{GROUP}"])


def fire(top: str) -> None:
    with open(f"{top}/trigger", "wb", buffering=0) as trigger:
        trigger.write(b"x")


def wait_for(run: Run, text: str) -> None:
    """Reads the recorder's standard error until a line contains this text."""
    assert run.child.stderr
    with awaited(run.child):
        printed: list[str] = []
        for line in run.child.stderr:
            printed.append(line)
            if text in line:
                return
    must(False, f"it prints {text!r}:\n" + "".join(printed))


def check_trigger_of_a_group_that_comes_later(top: str) -> None:
    """If the group doesn't exist yet, the recorder waits until it is created. Then a signal about
    the group's pressure ends the recording.
    """
    folder.make_machine(top)
    run = Run(top, *UNTIL, "--group", "/later")
    wait_for(run, "there is no group /later yet")
    must_be("it goes on", run.child.poll(), None)
    folder.write(f"{top}/cgroup/later/memory.pressure", folder.PRESSURE.format(some=0, full=0))
    wait_for(run, "the trigger watches the group /later now")
    fire(top)
    run.ended(0, is_same=False)
    must_be("the end", run.values("end"), ["trigger"])


def check_trigger_of_a_group_that_is_removed(top: str) -> None:
    """Nothing is signalled while the watched group doesn't exist. When the group is created again,
    the trigger works again.
    """
    folder.make_machine(top)
    group = f"{top}/cgroup/{GROUP}"
    run = Run(top, *UNTIL, "--group", GROUP)
    run.instance()
    os.rename(group, f"{top}.gone")
    wait_for(run, f"the group /{GROUP} was removed")
    must_be("it goes on", run.child.poll(), None)
    shutil.copytree(f"{top}.gone", group)
    wait_for(run, f"the trigger watches the group /{GROUP} now")
    fire(top)
    run.ended(0, is_same=False)
    must_be("the end", run.values("end"), ["trigger"])
