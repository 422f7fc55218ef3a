"""Checks that each usage error and each fault causes the right exit status and a one-line message
that says what to do.
"""
from __future__ import annotations

import os
import shutil
import tempfile

from harness import must, must_be
from shared.program import TOP
from shared.stored import recording, run as run_words, tool

from .pages import page_of, read, run

TRACE = os.path.join(TOP, "examples", "runaway.trace")


def fault(program: str, status: int, *words: str) -> str:
    done = run(program, *words)
    must_be(f"the status and the output of {words}, which said {done.stderr!r}",
            (done.returncode, done.stdout), (status, b""))
    said = done.stderr.decode()
    must(said.startswith("report: ") and "Traceback" not in said, f"it is told plainly: {said}")
    return said[8:].rstrip("\n")


def check_faults(program: str) -> None:
    for words in (
        (), (TRACE, "--tick-ms", "0"), (TRACE, "--start", "yesterday"), (TRACE, "-o"),
        (TRACE, TRACE),
    ):
        must("usage: report" in fault(program, 2, *words), f"{words}: the usage is told")
    fault(program, 2, "-")
    fault(program, 2, TRACE, "--drop-in", "x.json")
    fault(program, 2, TRACE, "--from", "3")
    must(
        "trace line 7: NotReady"
        in fault(program, 2, os.path.join(TOP, "examples", "refused.trace")),
        "a refused trace",
    )
    must("BadJson" in fault(program, 3, TRACE, "--rules", os.path.join(TOP, "README.md")),
         "refused rules")
    must("nope.trace" in fault(program, 4, "nope.trace"), "no file")
    fault(program, 5, ".")
    must_be("a folder that is none", fault(program, 2, TRACE, "-o", "/dev/null/x"),
            "no folder: /dev/null, for /dev/null/x")
    must("can't be run" in fault("/nope", 70, TRACE), "no program")


def check_a_write_that_fails(program: str) -> None:
    """If the page can't be written completely, the incomplete file is removed."""
    with tempfile.TemporaryDirectory() as folder:
        name = os.path.join(folder, "none", "page.html")
        must_be("what is said", fault(program, 2, TRACE, "-o", name),
                f"no folder: {folder}/none, for {name}")
        name = os.path.join(folder, "page.html")
        os.symlink("/dev/full", f"{name}.part")
        must_be("a full device", fault(program, 2, TRACE, "-o", name),
                "the output: No space left on device")
        must_be("what is there", os.listdir(folder), ["page.html.part"])


def check_tools_that_stand_alone(program: str) -> None:
    """If there is no launcher above the tools, the page is made with the program that PSI_OOMD
    names.
    """
    with tempfile.TemporaryDirectory() as folder:
        shutil.copytree(os.path.join(TOP, "tools"), os.path.join(folder, "tools"))
        done = run_words([os.path.join(folder, "tools", "report"), TRACE], program=program)
    must_be(f"the status, of which was said {done.said}", done.status, 0)
    must("of no known commit" in read(done.output).text(),
         "the page says that the commit isn't known")


def check_a_trace_without_ticks(program: str) -> None:
    with tempfile.TemporaryDirectory() as folder:
        with open(os.path.join(folder, "short.trace"), "w", encoding="ascii") as file:
            file.write("psitrace 1 cpus=1\n0 fork 1 / 0\n999999999 end\n")
        rules = os.path.join(TOP, "examples", "runaway.json")
        page = read(page_of(program, "short.trace", "--rules", rules, folder=folder))
    must("No group stalled" in page.text() and "has no tick" in page.text(),
         "it says that there is nothing")


def check_a_recording(program: str) -> None:
    """The page contains the messages of compare and psitrace about a recording, and says whether
    the trace differs from that of the recording. A trace that can't belong to the recording is
    rejected.
    """
    with recording("exec-2") as folder, tempfile.TemporaryDirectory() as room:
        name = os.path.join(room, "exec-2.trace")
        trace = tool("psitrace", folder, program=program)
        with open(name, "wb") as file:
            file.write(trace.output)
        words = [name, "--recording", folder, "--start", "2026-11-28T13:58:12+01:00"]
        compared = tool("compare", folder, name, program=program).output.decode().splitlines()
        page = read(page_of(program, *words)).text()
        must("Against the machine’s own pressure files: no total is from 0.5 s on" in page,
             "first there is what compare says of all totals")
        for line in compared:
            must(line.startswith("|") or line in page, f"what compare says is there: {line}")
        must("the one of this page is another" not in page, "it is the same trace")
        must("from 13:58:12 on 28 November 2026 (UTC+01:00)" in page, "when it began is there")
        for line in trace.said.splitlines():
            if line.startswith("psitrace: mended: "):
                must(line.removeprefix("psitrace: mended: ") in page, f"{line} is there")
        with open(name, "wb") as file:
            file.write(tool("psitrace", folder, "--to", "9", program=program).output)
        must("the one of this page is another" in read(page_of(program, *words)).text(),
             "that it is another trace is said")
        with open(name, "wb") as file:
            file.write(trace.output.replace(b" end\n", b"0 end\n"))
        must("this trace isn't of this recording: it lasts" in fault(program, 2, *words),
             "a trace longer than the recording is refused")
