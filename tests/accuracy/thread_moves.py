"""Checks of moves between groups: of single threads, and of processes with all their threads."""
from __future__ import annotations

import re

from harness import must, must_be
from shared.stored import (
    accepted, change, compared, converted, digest_of, digests, hide, recording, stored,
)

# The parent of the groups that contain single threads of one process, and psitrace's message if the
# recording lacks the probe for moves of single threads.
THREADED = "/thr"
GUESSED = "psitrace: mended: first thread of a process moved, the others taken to go with it: "


def rows_of(printed: bytes, group: str) -> list[str]:
    """Returns the rows of a comparison for this group and its descendants."""
    return [line for line in printed.decode().splitlines() if re.match(rf"\| {group}[ /]", line)]


def check_threaded_groups(program: str) -> None:
    """With the probe, a moved thread counts in the group to which it was moved. Without the probe,
    the totals of the groups that contain single threads are beyond their limits, and the summary
    says that the groups of threads are guessed.
    """
    with recording("threads") as folder:
        done = converted(folder)
        must_be("the sha256", digest_of(done.output), digests()["threads"])
        must_be("the summary", done.said, stored("threads.summary"))
        must(accepted(program, done.output).startswith("ok "), "it is accepted")
        rows = rows_of(compared(program, folder, done.output).output, THREADED)
        must(len(rows) == 4 and not any("!" in row for row in rows), f"the groups agree: {rows}")
        hide(folder, b"cga")
        done = converted(folder)
        must(re.search(f"{GUESSED}[1-9]", done.said), done.said)
        rows = rows_of(compared(program, folder, done.output).output, THREADED)
        must(sum("!" in row for row in rows) >= 3, f"without the probe they don't: {rows}")


def check_what_types_tell(_: str) -> None:
    """A process of five threads moves 48 times, alternately to two groups. Nothing is guessed if
    the snapshot says that both groups contain whole processes; half of the moves are guessed if one
    of the groups may contain single threads.
    """
    with recording("cg-2") as folder:
        must(f"{GUESSED}48\n" in converted(folder).said, "types aren't known")
        plain = b"type /system.slice/web.service domain\ntype /system.slice/db.service "
        change(folder, "snapshot", lambda it: it + plain + b"domain\n")
        must(GUESSED not in converted(folder).said, "plain groups")
        change(folder, "snapshot",
               lambda it: it.replace(plain + b"domain\n", plain + b"domain-threaded\n"))
        must(f"{GUESSED}24\n" in converted(folder).said, "one of two is threaded")
