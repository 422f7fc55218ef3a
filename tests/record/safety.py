"""Checks who may read a recording, what happens if the recording's folder is replaced by another
file, and what remains of a killed recorder.
"""
from __future__ import annotations

import contextlib
import gzip
import importlib
import os
import signal
import stat
import subprocess
import sys
import time
from collections.abc import Callable
from typing import Any

from record import machine_folder as folder
from record.oomd_settings import make_booted
from harness import Wrong, must, must_be
from record.runs import RECORD, STARTED, WAIT_S, Run, awaited, read

DAY = 86400


def module(name: str) -> Any:
    """Returns a module of the recorder under test."""
    tools = os.path.dirname(RECORD)
    if tools not in sys.path:
        sys.path.insert(0, tools)
    return importlib.import_module(f"psirecord.{name}")


def modes(top: str) -> set[str]:
    """Returns the modes of a folder and of all files and folders in it."""
    found = [top, *(f"{at}/{it}" for at, folders, files in os.walk(top) for it in folders + files)]
    return {stat.filemode(os.lstat(it).st_mode) for it in found}


def check_only_its_owner_reads_it(top: str) -> None:
    make_booted(top)
    before = os.umask(0)
    try:
        run = Run(top, "--seconds", "0.3").ended(0)
        packed = Run(top, "--seconds", "0.3", "--compress", name="packed").ended(0)
    finally:
        os.umask(before)
    for out in (run.out, packed.out):
        must_be(f"the modes in {out}", modes(out), {"drwx------", "-rw-------"})
    must(os.path.exists(f"{run.out}/systemd/units"), "the folders below it are there")


def swapped(top: str, is_swapped: Callable[[str], None]) -> tuple[Any, str]:
    """Moves a recorder's folder to another path, and calls `is_swapped` with the old path. Returns
    the recorder's folder object and the new path.
    """
    os.makedirs(top)
    recording = module("folder").Folder(f"{top}/out")
    os.rename(f"{top}/out", f"{top}/elsewhere")
    is_swapped(f"{top}/out")
    return recording, f"{top}/elsewhere"


def check_a_swapped_folder_is_not_emptied(top: str) -> None:
    os.makedirs(f"{top}/precious/inner")
    for name in ("a", "inner/b"):
        folder.write(f"{top}/precious/{name}", "x")
    recording, elsewhere = swapped(f"{top}/link", lambda path: os.symlink("../precious", path))
    recording.close_files()
    with contextlib.suppress(OSError):
        recording.discard()
    must_be("what somebody else has",
            sorted(os.listdir(f"{top}/precious")) + os.listdir(f"{top}/precious/inner"),
            ["a", "inner", "b"])
    must_be("what is left of the recording", os.listdir(elsewhere), [])
    must(os.path.islink(f"{top}/link/out"), "the link is somebody's own")
    recording, _ = swapped(f"{top}/folder", os.mkdir)
    recording.close_files()
    recording.discard()
    must(os.path.isdir(f"{top}/folder/out"), "another folder is somebody's own")


def check_a_swapped_folder_is_not_written(top: str) -> None:
    os.makedirs(f"{top}/precious")
    recording, elsewhere = swapped(f"{top}/link", lambda path: os.symlink("../precious", path))
    recording.open_raw(1)
    recording.append_pages(0, b"\1" * 4096)
    recording.write_below("systemd/etc/oomd.conf", b"[OOM]\n")
    recording.close()
    must_be("what somebody else has", os.listdir(f"{top}/precious"), [])
    must_be("the recording", sorted(os.listdir(elsewhere)),
            ["cpu0.raw", "meta", "pressure", "systemd"])


def check_links_are_not_compressed(top: str) -> None:
    """If a file of the recording is replaced by a link, the recorder neither reads nor writes it.
    """
    folder.write(f"{top}/shadow", "secret\n")
    folder.write(f"{top}/victim", "to be kept\n")
    compressing = module("compressing")
    for name, target in (("cpu0.0.raw", "shadow"), ("cpu1.0.raw.gz.part", "victim")):
        os.makedirs(f"{top}/out", exist_ok=True)
        os.symlink(f"{top}/{target}", f"{top}/out/{name}")
    folder.write(f"{top}/out/cpu1.0.raw", "pages")
    opened = os.open(f"{top}/out", os.O_RDONLY | os.O_DIRECTORY)
    for name in ("cpu0.0.raw", "cpu1.0.raw"):
        with contextlib.suppress(OSError):
            compressing.compress(opened, name)
            must(False, f"{name} is compressed")
    must_be("what isn't to be written", read(f"{top}/victim"), "to be kept\n")
    must_be("the folder", sorted(os.listdir(f"{top}/out")),
            ["cpu0.0.raw", "cpu1.0.raw", "cpu1.0.raw.gz.part"])
    os.unlink(f"{top}/out/cpu1.0.raw.gz.part")
    compressing.compress(opened, "cpu1.0.raw")
    os.close(opened)
    with gzip.open(f"{top}/out/cpu1.0.raw.gz") as packed:
        must_be("what is compressed", packed.read(), b"pages")
    must_be("the folder", sorted(os.listdir(f"{top}/out")), ["cpu0.0.raw", "cpu1.0.raw.gz"])


def left_of(top: str, number: int, start: str) -> list[str]:
    """Creates the tracing instance and the probe of a recorder with this process number and start
    time. Returns their names.
    """
    name = f"psirec{number}_{start}"
    os.mkdir(f"{top}/tracing/instances/{name}")
    with open(f"{top}/tracing/kprobe_events", "a", encoding="ascii") as events:
        events.write(f"p:{name}/psw psi_task_switch\n")
    folder.write(f"{top}/tracing/events/{name}/psw/enable", "0\n")
    return [f"the probe {name}/psw", f"the instance {name}"]


def check_a_number_that_is_used_again(top: str) -> None:
    """The tracing instance and the probe of a killed recorder are removed, even if its process
    number is used again or its parent hasn't waited for it.
    """
    folder.make_machine(top)
    before = folder.listing(top)
    fields = (*range(4, 22), 777, *range(23, 39))
    for number, state in ((901, "S"), (902, "Z"), (903, "S")):
        folder.write(f"{top}/proc/{number}/stat",
                     f"{number} (a ) b) {state} {' '.join(map(str, fields))} 0 0 0\n")
    leftovers = left_of(top, 901, "776") + left_of(top, 902, "777")
    alive = left_of(top, 903, "777")
    run = Run(top, "--seconds", "0.3").ended(0, is_same=False).says(
        *(f"what it left is removed, {it}" for it in leftovers)
    )
    must(not any(it in run.said for it in alive),
         f"a recorder that runs keeps what it has: {run.said}")
    after = folder.listing(top)
    names = {
        path.removeprefix(f"{top}/")
        for path in after
        if path not in before and "/proc/" not in path
    }
    must_be("what is left", {it for it in names if "psirec903_777" not in it}, set())
    must("tracing/instances/psirec903_777" in names, "the instance of the recorder that runs")


def check_a_ring_without_markers(top: str) -> None:
    folder.make_machine(top)
    os.unlink(f"{top}/tracing/trace_marker")
    os.symlink("/dev/full", f"{top}/tracing/trace_marker")
    for words in (("--ring",), ("--seconds", "0.3"), ("--seconds", "0.3", "--compress")):
        run = Run(top, *words).ended(2).says(
            "nothing was recorded: no marker can be written", "No space left"
        )
        must("Traceback" not in run.said and not os.path.exists(run.out),
             f"no folder is left: {run.said}")


def check_a_ring_whose_markers_end(top: str) -> None:
    """If only the first marker can be written, the recorder ends with status 2 and says why. It
    removes its tracing instance.
    """
    folder.make_machine(top)
    reader, terminal = os.openpty()
    os.unlink(f"{top}.markers")
    os.symlink(os.ttyname(terminal), f"{top}.markers")
    # The pressure file is a pipe. The recorder's first read of it blocks until this check has
    # closed the terminal that receives the markers.
    pressure = f"{top}/proc/pressure/io"
    os.unlink(pressure)
    os.mkfifo(pressure)
    os.set_blocking(reader, False)
    run = Run(top, "--ring", "--seconds", "5", "--pressure-s", "0.3")
    waited = time.monotonic() + WAIT_S
    while not run_has_begun(reader) and time.monotonic() < waited:
        time.sleep(0.01)
    os.close(reader)
    os.close(terminal)
    os.close(os.open(pressure, os.O_WRONLY))
    run.ended(2, is_same=False).says("ended by failed")
    must("Traceback" not in run.said, run.said)
    must_be("instances", os.listdir(f"{top}/tracing/instances"), [])


def run_has_begun(reader: int) -> bool:
    """Returns whether a marker was written since the last call."""
    with contextlib.suppress(BlockingIOError):
        return bool(os.read(reader, 1 << 16))
    return False


def make_recordings(top: str, ages: tuple[float, ...]) -> None:
    """Makes a recording for each age (s) in `ages`, in the parent folder of the next recording."""
    os.makedirs(f"{top}.state")
    for number, age in enumerate(ages):
        folder.write(f"{top}.state/{number}/meta", "recording 1\n")
        os.utime(f"{top}.state/{number}/meta", (0, time.time() - age))
    os.mkdir(f"{top}.state/no recording")


def limited(top: str, limit: int) -> tuple[subprocess.Popen[str], str]:
    """Starts a recorder that may make at most `limit` recordings a day. Returns the process and the
    folder of its recording.
    """
    out = f"{top}.state/new"
    words = [RECORD, "--root", top, out, "--seconds", "0.2", "--daily-limit", str(limit)]
    STARTED[out] = subprocess.Popen(
        words, stdout=subprocess.DEVNULL, stderr=subprocess.PIPE, text=True
    )
    return STARTED[out], out


def ended(child: subprocess.Popen[str]) -> str:
    """Waits until the recorder ends. Returns its messages."""
    try:
        return child.communicate(timeout=WAIT_S)[1]
    except subprocess.TimeoutExpired:
        raise Wrong(f"it doesn't end in {WAIT_S} s") from None


def check_recordings_of_a_day(top: str) -> None:
    """With a limit of five a day, the recorder waits until the fifth youngest recording is a day
    old. Then it records again.
    """
    folder.make_machine(top)
    make_recordings(top, (9 * DAY, DAY - 8, 50, 40, 30, 20, -9 * DAY))
    start = time.monotonic()
    child, out = limited(top, 5)
    time.sleep(1)
    must(not os.path.exists(out) and child.poll() is None, "it waits")
    said = ended(child)
    must_be(f"the status, after {said!r}", child.returncode, 0)
    must(time.monotonic() - start > 2.5 and os.path.exists(f"{out}/meta"), "it records then")
    must("5 recordings of the last 24 hours: the next one begins in 0.0 hours" in said, said)


def check_fewer_recordings_than_the_limit(top: str) -> None:
    folder.make_machine(top)
    make_recordings(top, (DAY + 9, 50, 40, 30, 20))
    child, _ = limited(top, 5)
    said = ended(child)
    must_be(f"the status, after {said!r}", (child.returncode, "24 hours" in said), (0, False))


def check_a_signal_while_it_waits(top: str) -> None:
    folder.make_machine(top)
    before = folder.listing(top)
    make_recordings(top, (50,))
    child, out = limited(top, 1)
    with awaited(child):
        must(child.stderr is not None and "24 hours" in child.stderr.readline(), "it waits")
    child.send_signal(signal.SIGTERM)
    said = ended(child)
    must_be(f"the status, after {said!r}", child.returncode, -signal.SIGTERM)
    must(not os.path.exists(out), "nothing is recorded")
    must_be("what is left", folder.listing(top), before)
