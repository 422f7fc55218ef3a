"""Helpers for tests of the recording tools. They run the tools, check the results, and read the
stored recordings. The recordings are in tests/data, whose README describes their origin.
"""
from __future__ import annotations

import contextlib
import gzip
import hashlib
import os
import re
import subprocess
import tarfile
import tempfile
from collections.abc import Callable, Iterator
from typing import NamedTuple

from harness import must, must_be

TOP = os.path.dirname(os.path.dirname(os.path.dirname(os.path.abspath(__file__))))
TOOLS = os.path.join(TOP, "tools")
STORED = os.path.join(TOP, "tests", "data")
SECONDS = 600
# The size (bytes) of a page in the ring buffers of the recordings.
PAGE = 4096


class Done(NamedTuple):
    """The result of a run: its exit status, its output and its standard error."""

    status: int
    output: bytes
    said: str


def run(words: list[str], stdin: bytes = b"", program: str = "") -> Done:
    """Runs a command and returns its result. `program` is the psi_oomd that a tool uses."""
    environment = {**os.environ, "PYTHONDONTWRITEBYTECODE": "1", "PSI_OOMD": program}
    done = subprocess.run(words, input=stdin, capture_output=True, timeout=SECONDS, env=environment,
                          cwd=TOP)
    return Done(done.returncode, done.stdout, done.stderr.decode())


def tool(name: str, *words: str, stdin: bytes = b"", program: str = "") -> Done:
    """Runs the tool `name` of the repository and returns the result."""
    return run([os.path.join(TOOLS, name), *words], stdin, program)


def accepted(program: str, trace: bytes) -> str:
    """Returns the output of psi_oomd's `check` for a trace. `check` must accept the trace."""
    done = run([program, "check", "-"], trace)
    must_be(f"the status of check, which said {done.said}", done.status, 0)
    return done.output.decode()


@contextlib.contextmanager
def recording(name: str) -> Iterator[str]:
    """Yields a temporary folder with a copy of a stored recording. The copy may be changed."""
    with tempfile.TemporaryDirectory() as place:
        with tarfile.open(os.path.join(STORED, f"{name}.tar.xz")) as archive:
            archive.extractall(place)
        yield os.path.join(place, name)


def text(name: str) -> bytes:
    """Returns a stored ftrace text."""
    with gzip.open(os.path.join(STORED, f"{name}.ftrace.gz")) as file:
        return file.read()


def stored(name: str) -> str:
    """Returns the stored expected text with this name."""
    with open(os.path.join(STORED, name), encoding="utf-8") as file:
        return file.read()


def change(folder: str, name: str, edit: Callable[[bytes], bytes]) -> None:
    """Replaces a file of a recording by the bytes that `edit` returns for its content."""
    path = os.path.join(folder, name)
    with open(path, "rb") as file:
        before = file.read()
    after = edit(before)
    must(after != before, f"{name} is changed")
    with open(path, "wb") as file:
        file.write(after)


def count_bytes(folder: str) -> None:
    """Sets the byte count in `meta` to the total size of the page files."""
    names = [os.path.join(folder, name) for name in os.listdir(folder) if ".raw" in name]
    count = sum(os.path.getsize(name) for name in names)
    change(folder, "meta", lambda it: re.sub(rb"(?m)^bytes \d+$", b"bytes %d" % count, it))


def end_of(trace: bytes) -> int:
    """Returns the end (ns) of a trace."""
    return int(trace.splitlines()[-1].split(b" ")[0])


def digest_of(trace: bytes) -> str:
    """Returns the sha256 of a trace, in hexadecimal."""
    return hashlib.sha256(trace).hexdigest()


def digests() -> dict[str, str]:
    """Returns the stored sha256 of each recording's trace, by the recording's name."""
    return {
        name: digest
        for digest, name in (line.split() for line in stored("traces.sha256").splitlines())
    }


def converted(folder: str, *words: str, status: int = 0) -> Done:
    """Runs psitrace on a recording and returns the result. The exit status must be `status`."""
    done = tool("psitrace", folder, *words)
    must_be(f"the status of psitrace {' '.join(words)}, which said {done.said}", done.status,
            status)
    return done


def compared(program: str, folder: str, trace: bytes, *words: str) -> Done:
    """Runs `compare` on a recording and a trace, and returns the result."""
    with tempfile.NamedTemporaryFile(suffix=".trace") as file:
        file.write(trace)
        file.flush()
        return tool("compare", folder, file.name, *words, program=program)


def must_agree(program: str, folder: str, trace: bytes, *words: str) -> None:
    """Fails unless the trace agrees with the recording's pressure files."""
    done = compared(program, folder, trace, *words)
    printed = f"compare prints\n{done.output.decode()}{done.said}"
    must(done.status == 0, f"expected status 0 of compare, actual {done.status}; {printed}")
    must("are within" in done.output.decode(), f"no totals are compared; {printed}")


def hide(folder: str, event: bytes) -> None:
    """Renames an event in the recording, so that psitrace doesn't recognize it."""
    change(folder, "formats", lambda it: it.replace(b"/" + event + b"\n", b"/not_" + event + b"\n"))
