"""Checks that recordings agree with their machines at the kernel's own sampling times, and that
this comparison detects faults in the conversion, although one number is fitted for each group.
"""
from __future__ import annotations

import re
import struct

from harness import must, must_be
from shared.stored import PAGE, change, compared, converted, must_agree, recording

HOUR = 3600 * 10**9
# The option for recordings that don't contain the lag: the time (us) from psi's count of a wakeup
# to the wakeup's event. On this kernel in this emulator the median is 60 us, and the 99th
# percentile is 132 us.
LAG = ("--lag-us", "60")
WORDS = {"mem-2": LAG, "threads": LAG, "exec-2": (*LAG, "--least-s", "0.1")}


def check_each_recording(program: str) -> None:
    """For each recording, the replayed totals match the totals that the machine reported. They are
    compared at the recorded sampling times for `threads`, and at fitted times for the others.
    """
    for name in ("mix-2", "mem-2", "cg-2", "exec-2", "threads"):
        with recording(name) as folder:
            must_agree(program, folder, converted(folder).output, *WORDS.get(name, ()))


def check_fitted_moments(program: str) -> None:
    """A recording whose sampling times were removed still agrees with its machine, and the output
    says that sampling times were fitted.
    """
    with recording("threads") as folder:
        trace = converted(folder).output
        output = compared(program, folder, trace).output.decode()
        must("as the recording says" in output and "phase" not in output, output)
        change(folder, "meta", lambda it: it.replace(b"/pav\n", b"/not_pav\n"))
        fitted = compared(program, folder, trace, *LAG)
        must_be(f"the status: {fitted.output.decode()}", fitted.status, 0)
        must("is fitted by all readings" in fitted.output.decode(), "it says so")
        must("its timer has 250 Hz, which is a guess" in fitted.output.decode(), "and by what rate")
        rate = compared(program, folder, trace, "--hz", "100").output.decode()
        must("\n2.010 s (its timer has 100 Hz), and " in rate, f"a rate that is told: {rate}")


def check_causes_that_are_known(program: str) -> None:
    """The output names the known causes of totals beyond their limits."""
    with recording("exec-2") as folder:
        trace = converted(folder).output
        done = compared(program, folder, trace, "--least-s", "0.1")
        must_be("the status", done.status, 1)
        must("\n9 of cpu are too small: the kernel counts a wakeup before " in done.output.decode(),
             done.output.decode())
        must("no cause" not in done.output.decode(), "nothing else is")
    with recording("mix-2") as folder:
        text = compared(program, folder, converted(folder, "--iowait", "D").output).output.decode()
        must(re.search(r"\n[1-9]\d* have no cause that is known here: ", text), text)
        must("of cpu are too small" not in text, text)


def marked(program: str, folder: str, trace: bytes, *words: str) -> str:
    """Returns the table rows of files whose totals are beyond their limits. Fails if there are
    none.
    """
    done = compared(program, folder, trace, *words)
    must_be(f"the status: {done.output.decode()}", done.status, 1)
    return "\n".join(
        line for line in done.output.decode().splitlines() if line.startswith("| /") and "!" in line
    )


def check_waits_by_state(program: str) -> None:
    """If every sleep in state D counts as a wait for IO, the comparison reports that the total of
    IO is too high.
    """
    with recording("mix-2") as folder:
        found = marked(program, folder, converted(folder, "--iowait", "D").output)
        must("| io  " in found and "cpu" not in found, found)


def later(data: bytes) -> bytes:
    """Returns pages of a ring buffer in which all events are an hour later."""
    after = bytearray(data)
    for at in range(0, len(data), PAGE):
        struct.pack_into("<Q", after, at, struct.unpack_from("<Q", after, at)[0] + HOUR)
    return bytes(after)


def check_a_processor_that_is_late(program: str) -> None:
    """If the events of a processor are an hour late, the comparison detects that, with recorded and
    with fitted sampling times.
    """
    for name in ("mix-2", "threads"):
        with recording(name) as folder:
            change(folder, "cpu1.raw", later)
            done = converted(folder, "--to", "24")
            found = marked(program, folder, done.output)
            must("| / " in found, found)
