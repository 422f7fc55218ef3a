"""Checks of psitrace --fold and of `fold`: recordings that are read in slices, compressed pages,
arguments and faults, and the limit on events.
"""
from __future__ import annotations

import gzip
import os
import re
import shutil
import tempfile
from contextlib import redirect_stderr
from io import StringIO
from unittest import mock

from fold.common import must_print_alike, text_of
from harness import must, must_be
from shared.stored import accepted, change, recording, tool
from shared.program import TOP
from psiconvert import command, folded
from psiread import slices
from psirecord import folder

EXAMPLES = os.path.join(TOP, "examples")


def check_slices(program: str) -> None:
    """If a recording is read in many slices and folded in another process, the trace is the same as
    with one slice. This holds even if wakeups are moved to the times at which PSI counted them,
    which may be in the previous slice. The summary's line about wakeups is the same as without
    folding.
    """
    for name in ("cg-2", "wakeups"):
        with recording(name) as folder:
            whole, plain = tool("psitrace", folder, "--fold=1"), tool("psitrace", folder)
            before = slices.READ_BYTES, command.LARGE
            try:
                slices.READ_BYTES, command.LARGE = 1 << 18, 0
                status, found, said = here([folder, "--fold=1"])
            finally:
                slices.READ_BYTES, command.LARGE = before
        must_be(f"the status of {name}", status, 0)
        accepted(program, found)
        must_print_alike(f"{name} in slices", whole.output, found)
        lines = [
            [line for line in it.splitlines() if " wakeups " in line]
            for it in (plain.said, whole.said, said)
        ]
        must(len(lines[0]) == 1 and lines[0] == lines[1] == lines[2],
             f"what is said of wakeups of {name}: {lines}")


def check_pages_that_are_none(_: str) -> None:
    """For a malformed page, the message names the file of its processor. This holds with one
    process for all processors, and with several processes.
    """
    with recording("exec-2") as folder:
        change(folder, "cpu1.raw", lambda pages: pages[:8192] + b"\xff" * 4096 + pages[8192:])
        before = command.LARGE
        try:
            for command.LARGE in (before, 0):
                status, found, said = here([folder, "--fold=1"])
                must_be("the status, and what is written", (status, found), (2, b""))
                must(": cpu1.raw: the page at byte 8192 tells of" in said, said)
        finally:
            command.LARGE = before


def here(words: list[str]) -> tuple[int, bytes, str]:
    """Runs psitrace in this process, and returns its status, its output and its messages."""
    said = StringIO()
    with tempfile.NamedTemporaryFile() as file, redirect_stderr(said):
        status = command.main([*words, "-o", file.name])
        return status, file.read(), said.getvalue()


def traces_of(there: str) -> list[bytes]:
    """Returns the traces that psitrace makes of a recording: first the unfolded trace, then the
    folded one.
    """
    return [tool("psitrace", there, *words).output for words in ((), ("--fold=1",))]


def compress_pages(there: str) -> None:
    """Compresses the pages of a recording of two processors in parts, as the recorder does during a
    recording.
    """
    with tempfile.TemporaryDirectory() as place:
        target = folder.Folder(f"{place}/made", True)
        target.open_raw(2)
        for processor in range(2):
            with open(f"{there}/cpu{processor}.raw", "rb") as file:
                while pages := file.read(1 << 16):
                    target.append_pages(processor, pages)
            os.unlink(f"{there}/cpu{processor}.raw")
        finished = target.finish_compressing()
        must(finished is not None and finished[1] and 0 < finished[0] < 60,
             f"it was compressed: {finished}")
        names = os.listdir(f"{place}/made")
        parts = [name for name in names if name.endswith(".raw.gz")]
        must(len(parts) > 8 and not any(name.endswith(".raw") for name in names), f"{parts}")
        for name in parts:
            shutil.move(f"{place}/made/{name}", there)
        target.close()


def check_pages_that_are_compressed(_: str) -> None:
    """A recording whose pages were compressed during recording gives the same unfolded and folded
    traces. The same holds if the recorder was killed while it compressed a part.
    """
    with recording("cg-2") as there:
        wanted = traces_of(there)
        with mock.patch.object(folder, "PART_BYTES", 1 << 18):
            compress_pages(there)
        must_be("the traces are equal", traces_of(there) == wanted, True)
        with gzip.open(f"{there}/cpu0.1.raw.gz") as source:
            pages = source.read()
        with open(f"{there}/cpu0.1.raw", "wb") as plain:
            plain.write(pages)
        with open(f"{there}/cpu0.1.raw.gz", "wb") as cut:
            cut.write(b"half")
        must_be("where a part was about to be compressed",
                tool("psitrace", there).output == wanted[0], True)
        os.unlink(f"{there}/cpu0.1.raw")
        done = tool("psitrace", there)
        must_be(f"where a part is broken, of which is said {done.said}",
                (done.status, "cpu0.raw: " in done.said), (2, True))


def check_words_and_faults(_: str) -> None:
    """Usage errors, inputs that aren't traces, and malformed lines each have their own exit status
    and message.
    """
    good = text_of(os.path.join(EXAMPLES, "one-wait.trace")).encode()
    for words, stdin, status, message in (
        (("-", "--window=1"), good, 0,
         "a replay at ticks of 1 s, or of a multiple, prints what it prints of the trace"),
        (("-",), good, 2, "--window"),
        (("-", "--window=0"), good, 2, "is no window"),
        (("-", "--window=0.0015"), good, 2, "is no window"),
        (("-", "--window=61"), good, 2, "is no window"),
        (("-", "--window=1", "--victims=a b"), good, 2, "'a b' is no pattern"),
        (("-", "--window=1", "--rules=/dev/null"), good, 2, "is no rules file"),
        (("-", "--window=1", "--rules=/nofile"), good, 2, "/nofile: No such file"),
        (("/nofile", "--window=1"), b"", 2, "/nofile: No such file"),
        (("-", "--window=1"), b"", 2, "line 1: there is no header"),
        (("-", "--window=1"), good[:-9], 2, "has no newline"),
        (("-", "--window=1"), good.replace(b"2000000000 end\n", b""), 2, "isn't that of the end"),
        (("-", "--window=1"), good + b"2000000000 end\n", 2, "line 6"),
        (("-", "--window=1"), good.replace(b"switch 0 1 idle", b"switch 0 2 idle"), 2,
         "line 3, '0 switch 0 2 idle'"),
        (("-", "--window=1"), good.replace(b"0 switch 0 0 iowait", b"0 wake 1 0"), 2,
         "line 4, '0 wake 1 0'"),
    ):
        done = tool("fold", *words, stdin=stdin)
        must_be(f"the status of {words}, which said {done.said}", done.status, status)
        must(message in done.said, f"{words}: {message} isn't in {done.said}")
    with recording("exec-2") as folder:
        must_be("who might be killed, of what isn't folded",
                tool("psitrace", folder, "--victims=a").status, 2)
        done = tool("psitrace", folder, "--fold=1", "--lead-in=12min")
        must_be(f"a pretended past of what is folded: {done.said}",
                (done.status, done.output, "tools/fold" in done.said), (2, b"", True))


def check_the_limit(_: str) -> None:
    """A folded trace has at most the allowed number of events: it ends with the last window that
    fits.
    """
    for large in (command.LARGE, 0):
        lines = limited(large)
        must(600 < len(lines) <= 901 and re.fullmatch(rb"[1-9][0-9]?000000000 end", lines[-1]),
             f"{len(lines)} lines, and {lines[-1]!r}")


def limited(large: int) -> list[bytes]:
    """Returns the lines of a folded trace that is cut at a limit of events. Recordings of at least
    `large` bytes are folded in another process.
    """
    limits = (
        mock.patch.object(folded, "MOST_EVENTS", 900), mock.patch.object(command, "LARGE", large),
    )
    with limits[0], limits[1], recording("mix-2") as folder:
        must_be("the status, and what is written without force", here([folder, "--fold=1"])[:2],
                (3, b""))
        status, output, _ = here([folder, "--fold=1", "--force"])
        must_be("the status by force", status, 3)
        return output.splitlines()
