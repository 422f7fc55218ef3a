"""Checks of recordings with lost events, and of damaged recordings."""
from __future__ import annotations

import functools
import os
import re
import struct
import tempfile

from harness import must, must_be
from shared.stored import (
    PAGE, accepted, change, converted, count_bytes, digest_of, digests, end_of, must_agree,
    recording, stored, tool,
)

MISSED = 1 << 31
# The options for a replay with a tick every second.
TICKS = ("--tick-ms", "1000")


def check_lost_events(program: str) -> None:
    """Nothing is written for a recording with losses. With --force, the longest interval without a
    loss is converted.
    """
    with recording("mixlost") as folder, tempfile.TemporaryDirectory() as place:
        output = os.path.join(place, "x.trace")
        done = converted(folder, "-o", output, status=3)
        must_be("what is written", (done.output, os.path.exists(output)), (b"", False))
        must("lost: cpu 0: 26882, cpu 1: 26385 events, between 0.000 s and 17.876 s\n" in done.said,
             done.said)
        must_be("the summary", done.said, stored("mixlost.summary"))
        forced = converted(folder, "--force", status=3)
        must_be("the sha256 of the stretch", digest_of(forced.output), digests()["mixlost"])
        accepted(program, forced.output)
        found = re.search(r"(--from \S+) (--to \S+)\n", forced.said)
        must(found is not None, f"the stretch is told: {forced.said}")
        if found:
            part = converted(folder, *f"{found[1]} {found[2]}".split(" "))
            must_be("the stretch by its moments", part.output, forced.output)
            must("known to" not in part.said, f"nothing had to be believed in it: {part.said}")


def flag_first_page(data: bytes, pages: int) -> bytes:
    """Returns `data` without its first `pages` pages, as if a ring buffer had overwritten them. The
    header of the next page says that events before it were lost.
    """
    rest = bytearray(data[pages * PAGE :])
    struct.pack_into("<Q", rest, 8, struct.unpack_from("<Q", rest, 8)[0] | MISSED)
    return bytes(rest)


def check_a_ring(program: str) -> None:
    """The trace of a flight recording begins when all processors have events. It has no loss, and
    agrees with the machine's pressure files.
    """
    with recording("mix-2") as folder:
        for processor, pages in ((0, 150), (1, 60)):
            change(folder, f"cpu{processor}.raw", functools.partial(flag_first_page, pages=pages))
        count_bytes(folder)
        lost = converted(folder, status=3)
        must_be("without the word of a ring", (lost.output, "lost: " in lost.said), (b"", True))
        change(
            folder, "meta",
            lambda it: it.replace(b"\nstats cpu0", b"\nring memory some 1 500000\nstats cpu0", 1),
        )
        change(folder, "meta", lambda it: it.replace(b"cpu0 overrun: 0", b"cpu0 overrun: 9999"))
        ring = converted(folder)
        accepted(program, ring.output)
        seconds = end_of(ring.output) / 10**9
        must(10 < seconds < 19, f"the ring has {seconds} s")
        must("known to" not in ring.said, ring.said)
        must_agree(program, folder, ring.output, *TICKS)


def replaced(old: bytes, new: bytes, data: bytes) -> bytes:
    """Returns `data` with `old` replaced by `new`. `data` comes last, for functools.partial."""
    return data.replace(old, new)


def check_losses_without_pages(_: str) -> None:
    """Losses are reported even if only the file `meta` lists them: the last events of a processor,
    losses at an unknown time, and a full disk.
    """
    edits = (
        (b"cpu1 overrun: 0", b"cpu1 overrun: 7", "lost: cpu 1: 7 events, between 10.0"),
        (b"cpu0 commit overrun: 0", b"cpu0 commit overrun: 5",
         "lost: cpu 0: 5 events by 'commit overrun', nobody knows when"),
        (b"cpu0 dropped events: 0", b"cpu0 dropped events: 3",
         "lost: cpu 0: 3 events by 'dropped events', nobody knows when"),
    )
    for before, after, message in edits:
        with recording("exec-2") as folder:
            change(folder, "meta", functools.partial(replaced, before, after))
            done = converted(folder, status=3)
            must(message in done.said and not done.output, f"{after!r}: {done.said}")
            must(len(converted(folder, "--force", status=3).output) > 10**5,
                 f"{after!r}: most can be had by force")
    with recording("exec-2") as folder:
        change(folder, "meta", lambda it: b"recording 1\n" + it + b"end disk-full\n")
        done = converted(folder, status=3)
        must("the recording ended early: disk-full" in done.said and not done.output, done.said)


def check_a_killed_recorder(program: str) -> None:
    """If the recorder was killed, the recording is converted only with --force, up to the last time
    at which all processors have events.
    """
    with recording("exec-2") as folder:
        change(folder, "meta", lambda it: b"recording 1\n" + it[: it.index(b"stats")])
        change(folder, "cpu1.raw", lambda it: it[: len(it) // 2 + 100])
        done = converted(folder, status=2)
        must("has no end" in done.said and not done.output, done.said)
        forced = converted(folder, "--force", status=3)
        must("cpu1.raw that are no whole page: " in forced.said, forced.said)
        must(4 * 10**9 < end_of(forced.output) < 6 * 10**9,
             f"it ends in the middle: {end_of(forced.output)}")
        accepted(program, forced.output)


def check_unreadable_folders(_: str) -> None:
    """If a file can't be read, the message has its name."""
    edits = (
        ("meta", lambda it: it.replace(b"cpus 2", b"cpus x"), "meta: "),
        ("meta", lambda it: b"recording 3\n" + it, "version 3"),
        ("meta", lambda it: it.replace(b"x86_64", b"s390x"), "big-endian"),
        ("formats", lambda it: it.replace(b"field: local_t commit", b"field: local_t comit"),
         "formats: "),
        ("formats", lambda it: it.replace(b"next_pid", b"next_pud"), "formats: "),
        ("cpu0.raw", lambda it: it[:8] + b"\xff\xff\xff\x00" + it[12:], "cpu0.raw: "),
        ("cpu0.raw", lambda it: b"\xff" * len(it), "cpu0.raw: "),
    )
    for name, edit, message in edits:
        with recording("exec-2") as folder:
            change(folder, name, edit)
            done = tool("psitrace", folder)
            must_be(f"{name} changed: {done.said}",
                    (done.status, done.output, message in done.said),
                    (2, b"", True))
    for name in ("meta", "formats", "snapshot", "cpu1.raw"):
        with recording("exec-2") as folder:
            os.remove(os.path.join(folder, name))
            done = tool("psitrace", folder)
            said = f": {folder} is no recording" if name == "meta" else ""
            must_be(f"without {name}", (done.status, done.said),
                    (2, f"psitrace: {name}: No such file or directory{said}\n"))
