"""Checks of the flight recorder, which keeps only the latest events until the kernel signals
pressure.
"""
from __future__ import annotations

import os
import re
import signal
import time

from record import machine_folder as folder
from harness import must, must_be
from record.runs import WAIT_S, Run, read


UNTIL = ("--ring", "--until", "memory full 100000 1000000")


def fire(top: str) -> None:
    """Signals pressure on the imitated machine."""
    with open(f"{top}/trigger", "wb", buffering=0) as trigger:
        trigger.write(b"x")


def check_ring_that_fires(top: str) -> None:
    folder.make_machine(top, overrun=7, pages=2)
    run = Run(top, *UNTIL, "--after-s", "0.7", "--pressure-s", "0.2")
    run.instance()
    time.sleep(0.5)
    must_be("nothing is written before", os.path.getsize(f"{run.out}/cpu0.raw"), 0)
    fire(top)
    run.ended(0).says("ended by trigger")
    must_be("the end and the trigger", run.values("end") + run.values("ring"),
            ["trigger", "memory full 100000 1000000"])
    must_be("pages", run.file("cpu1.raw"), b"\2" * (2 * folder.PAGE_BYTES))
    markers, fired = read(f"{top}.markers"), float(run.values("fired")[0])
    kinds = sorted(set(re.findall(r"psirec (\w+?)(?=psirec|\W|$)", markers)))
    must_be(f"how often the marker `psirec fired` is written, among markers {kinds}",
            markers.count("psirec fired"), 1)
    must(re.search(r"fired.*pressure \d+ begin.*stop$", markers),
         "it goes on for a while after the signal")
    must(0.6 < time.monotonic() - fired < 5, "and then ends")
    numbers = re.findall(r"^sample (\d+) / io$", run.file("pressure").decode(), re.MULTILINE)
    must_be("the readings are there", numbers, [str(it) for it in range(len(numbers))])
    must(len(numbers) > 4, f"all of them: {numbers}")


def check_ring_that_is_stopped(top: str) -> None:
    folder.make_machine(top, overrun=7)
    run = Run(top, "--ring", "--memory-s", "30", "--pressure-s", "30")
    run.instance()
    time.sleep(0.3)
    run.child.send_signal(signal.SIGINT)
    sent = time.monotonic()
    run.ended(0)
    must(time.monotonic() - sent < 5, "it ends at once, though nothing is due for long")
    must_be("the end", run.values("end") + run.values("ring") + run.values("fired"),
            ["signal", "none"])
    must_be("pages", run.file("cpu0.raw"), b"\1" * folder.PAGE_BYTES)


def check_ring_where_the_buffers_begin(top: str) -> None:
    """If the events of a processor were overwritten until just after the first snapshot, the
    recorder must keep a later snapshot.
    """
    folder.make_machine(top)
    run = Run(top, *UNTIL)
    instance = run.instance()
    waited = time.monotonic() + WAIT_S
    while "snapshot end" not in read(f"{top}.markers"):
        must(time.monotonic() < waited, f"no 'snapshot end': {read(f'{top}.markers')[:200]!r} ..")
        time.sleep(0.02)
    time.sleep(0.1)
    begin = f"{time.monotonic():.6f}"
    folder.write(f"{instance}/per_cpu/cpu1/stats", folder.STATS.format(overrun=7, oldest=begin))
    run.child.terminate()
    run.ended(0)
    must_be("where the buffers begin", run.values("ring-start"), [begin])
    time_ns = int(run.file("snapshot").split()[1])
    must(time_ns >= float(begin) * 1e9, f"the snapshot lies inside: {time_ns}")
    must_be("and is inside by the markers", read(f"{top}.markers").count("snapshot begin"), 2)


def check_ring_that_was_too_small(top: str) -> None:
    """If the events at the pressure signal are overwritten before the recording ends, the recorder
    reports that.
    """
    start = time.monotonic()
    folder.make_machine(top, overrun=7, oldest=f"{start + 60:.6f}")
    run = Run(top, *UNTIL, "--after-s", "0.3")
    run.instance()
    fire(top)
    run.ended(3).says("was overwritten", "--buffer-kb")
    must_be("the end", run.values("end"), ["trigger"])


def check_ring_that_was_not_overwritten(top: str) -> None:
    """If nothing was overwritten, the oldest event of an idle processor doesn't limit the start of
    the recording.
    """
    start = time.monotonic()
    folder.make_machine(top, oldest=f"{start + 60:.6f}")
    run = Run(top, *UNTIL, "--seconds", "1").ended(0)
    begin = float(run.values("ring-start")[0])
    snapshot = int(run.file("snapshot").split()[1]) / 1e9
    must(start < begin < snapshot < start + 60, f"it begins with the recording: {begin - start}")
    must_be("one snapshot is enough", read(f"{top}.markers").count("snapshot begin"), 1)
