"""Damages stored recordings at random and converts them. The number of a damaged recording
determines the damage. `psitrace` may reject any damaged recording, but never with a traceback, and
`check` must accept each trace that `psitrace` writes.
"""
from __future__ import annotations

import contextlib
import functools
import gzip
import io
import os
import random
import struct
import subprocess
import sys
import tempfile
from collections import Counter
from typing import Any, NamedTuple
from unittest import mock

from harness import Wrong, must
from shared.stored import PAGE, recording

from psiconvert import command  # noqa: E402
from psiread.files import text_of  # noqa: E402
from psiread.formats import Format, formats_of, sections_of  # noqa: E402
from psiread.pages import page_at, records_of  # noqa: E402
from psiread.recording import kernel_of  # noqa: E402

BASES = ("exec-2", "cg-2", "mix-2", "threads", "wakeups")
# The number of pages per processor. With few pages, a conversion takes a fraction of a second.
PAGES = 6
NUMBERS = (0, 1, 2, -1, -2, 3, 63, 64, 65, 255, 4096, 2**15, 2**31 - 1, -(2**31), 2**32, 2**53,
           2**62, 2**63 - 1, -(2**63), 10**18)
DIGITS = ("0", "-1", "-0", "007", "4294967295", "4294967296", "18446744073709551616", "1e9", "0x10",
          "²", "٣", "", "9" * 5000)
WORDS = ((), (), ("--force",), ("--fold=1",), ("--fold=1", "--force"), ("--force", "--interrupts"),
         ("--from=0.02", "--force"),
         ("--groups=1", "--force"), ("--iowait=D", "--force"), ("--wakeups=event", "--force"),
         ("--lead-in=5min", "--force"),
         ("--fold=0.5", "--force", "--from=0.01"))  # fmt: skip


class Base(NamedTuple):
    """A stored recording that is cut to its first pages. `files` has the bytes of its files by
    name, and `formats` its event formats by number.
    """

    files: dict[str, bytes]
    formats: dict[int, Format]


@functools.lru_cache(maxsize=None)
def base_of(name: str) -> Base:
    """Returns a stored recording with only its first pages, and with the right byte count in
    `meta`.
    """
    with recording(name) as folder:
        files = {}
        for one in os.listdir(folder):
            with open(os.path.join(folder, one), "rb") as file:
                files[one] = file.read(PAGES * PAGE if one.endswith(".raw") else -1)
        formats = formats_of(sections_of(text_of(folder, "formats")))
    count = sum(len(data) for one, data in files.items() if one.endswith(".raw"))
    lines = [line for line in files["meta"].split(b"\n") if not line.startswith(b"bytes ")]
    files["meta"] = b"\n".join([*lines[:-2], b"bytes %d" % count, *lines[-2:]])
    return Base(files, {form.number: form for form in formats.values()})


# ---------------------------------------------------------------- kinds of damage


class Damage:
    """Damages the files of a recording in one or more random ways."""

    def __init__(self, base: Base, draw: random.Random) -> None:
        self.files, self.formats, self.draw = dict(base.files), base.formats, draw
        self.page = PAGE
        # What replaces a file, by the file's name: a device, a FIFO, a folder, or nothing ("gone").
        self.odd: dict[str, str] = {}

    def raw(self) -> str:
        """Returns the name of a random page file."""
        return self.draw.choice(sorted(name for name in self.files if name.endswith(".raw")))

    def put(self, name: str, at: int, data: bytes) -> None:
        """Overwrites bytes of a file, beginning at the offset `at`."""
        before = self.files[name]
        self.files[name] = before[:at] + data + before[at + len(data) :]

    def bits(self) -> None:
        """Flips some bits of pages."""
        for _ in range(self.draw.choice((1, 1, 5, 50))):
            name = self.raw()
            if self.files[name]:
                at = self.draw.randrange(len(self.files[name]))
                self.put(name, at, bytes([self.files[name][at] ^ 1 << self.draw.randrange(8)]))

    def fields(self) -> None:
        """Overwrites fields of some records with other numbers."""
        for _ in range(self.draw.choice((1, 3, 10))):
            name = self.raw()
            data, page = self.files[name], kernel_page()
            if len(data) < page.size:
                continue
            at = self.draw.randrange(len(data) // page.size) * page.size
            try:
                records = [
                    it for it in records_of(data, page_at(data, at, page)) if it[2] - it[1] >= 8
                ]
            except Exception:  # earlier damage can make the page unreadable
                continue
            if records:
                self.field(name, self.draw.choice(records)[1])

    def field(self, name: str, start: int) -> None:
        """Overwrites a random field of the record that begins at the offset `start`."""
        form = self.formats.get(int.from_bytes(self.files[name][start : start + 2], "little"))
        fields = [it for it in form.fields.values() if it.size in (1, 2, 4, 8)] if form else []
        if fields:
            field = self.draw.choice(fields)
            value = self.draw.choice(NUMBERS) & (1 << 8 * field.size) - 1
            self.put(name, start + field.offset, value.to_bytes(field.size, "little"))

    def heads(self) -> None:
        """Overwrites the time or the length in the header of a page."""
        name = self.raw()
        pages = len(self.files[name]) // PAGE
        if pages:
            at = self.draw.randrange(pages) * PAGE
            time = struct.unpack_from("<Q", self.files[name], at)[0]
            value = self.draw.choice(
                (*NUMBERS, time + 10**12, time - 10**9, time + 10**18,
                 time ^ 1 << self.draw.randrange(64))
            )
            self.put(name, at + self.draw.choice((0, 0, 8)), (value % 2**64).to_bytes(8, "little"))

    def order(self) -> None:
        """Removes, repeats or reorders pages, and sometimes cuts bytes from the end."""
        name = self.raw()
        data = self.files[name]
        pages = [data[at : at + PAGE] for at in range(0, len(data), PAGE)]
        way = self.draw.randrange(5)
        if way == 0:
            self.draw.shuffle(pages)
        elif pages:
            place = self.draw.randrange(len(pages))
            pages = [
                pages[:place], pages[place:], pages[:place] + pages[place + 1 :],
                pages[: place + 1] + pages[place:],
            ][way - 1]
        self.files[name] = b"".join(
            pages
        )[: -self.draw.choice((1, 100, 4095)) if self.draw.random() < 0.3 else None]

    def lines(self) -> None:
        """Changes words of a text file, and adds or removes lines."""
        name = self.draw.choice(("snapshot", "snapshot", "meta", "formats", "pressure"))
        lines = self.files[name].split(b"\n")
        for _ in range(self.draw.choice((1, 2, 8))):
            place = self.draw.randrange(len(lines))
            way = self.draw.random()
            if way < 0.15:
                del lines[place]
            elif way < 0.25:
                lines.insert(place, self.draw.choice(lines))
            else:
                words = lines[place].split(b" ")
                words[self.draw.randrange(len(words))] = self.draw.choice(DIGITS).encode()
                lines[place] = b" ".join(words)
            lines = lines or [b""]
        self.files[name] = b"\n".join(lines)

    def cut(self) -> None:
        """Cuts a file at a random offset, or empties it."""
        name = self.draw.choice(sorted(self.files))
        self.files[name] = self.files[name][
            : self.draw.choice((0, self.draw.randrange(len(self.files[name]) + 1)))
        ]

    def packed(self) -> None:
        """Compresses a page file, sometimes with a MiB of zeros at its end, and sometimes cuts the
        compressed bytes.
        """
        name = self.raw()
        data = self.files.pop(name) + bytes(self.draw.choice((0, 0, 1 << 20)))
        data = gzip.compress(data, 1)
        if self.draw.random() < 0.3 and data:
            data = data[: self.draw.randrange(len(data))]
        self.files[name.replace(".raw", ".0.raw.gz")] = data

    def odd_file(self) -> None:
        """Removes a file, or replaces it with a device, a FIFO or a folder."""
        name = self.draw.choice(sorted(self.files))
        self.odd[name] = self.draw.choice(("gone", "/dev/zero", "/dev/null", "fifo", "folder"))

    def more(self) -> None:
        """Adds pages of a processor that `meta` doesn't list."""
        self.files[f"cpu{self.draw.choice((2, 4, 9, 70))}.raw"] = self.files[self.raw()]

    def apply(self) -> list[str]:
        """Damages the recording in random ways, and returns the names of these ways."""
        often = {
            "bits": 6, "fields": 12, "heads": 6, "order": 4, "lines": 8, "cut": 2, "packed": 1,
            "odd_file": 1, "more": 1,
        }
        ways = self.draw.choices(
            list(often), list(often.values()), k=self.draw.choice((1, 1, 2, 3))
        )
        for way in ways:
            if way in ("bits", "fields", "heads", "order", "packed", "more") and not any(
                it.endswith(".raw") for it in self.files
            ):
                continue
            getattr(self, way)()
        return ways

    def write(self, folder: str) -> None:
        """Writes the recording's files into a folder."""
        for name, data in self.files.items():
            path, odd = os.path.join(folder, name), self.odd.get(name)
            if odd is None:
                with open(path, "wb") as file:
                    file.write(data)
            elif odd == "fifo":
                os.mkfifo(path)
            elif odd == "folder":
                os.mkdir(path)
            elif odd != "gone":
                os.symlink(odd, path)


@functools.lru_cache(maxsize=None)
def kernel_page() -> Any:
    """Returns the page layout of the kernel of the stored recordings."""
    with recording("exec-2") as folder:
        return kernel_of(folder).page


# ---------------------------------------------------------------- converting damaged recordings


def converted_here(folder: str, output: str, words: tuple[str, ...]) -> tuple[int, str]:
    """Runs psitrace in this process, and returns its status and its messages."""
    said = io.StringIO()
    with contextlib.redirect_stderr(said), mock.patch.object(sys, "argv", ["psitrace"]):
        status = command.main([folder, "-o", output, *words])
    return status, said.getvalue()


def convert(program: str, number: int) -> tuple[int, bool]:
    """Damages the recording with this number, and converts it. If psitrace writes a trace, `check`
    must accept the trace. Returns psitrace's status, and whether psitrace wrote a trace.
    """
    draw = random.Random(number)
    damage = Damage(base_of(draw.choice(BASES)), draw)
    ways, words = damage.apply(), draw.choice(WORDS)
    with tempfile.TemporaryDirectory() as place:
        folder, output = os.path.join(place, "recording"), os.path.join(place, "trace")
        os.mkdir(folder)
        damage.write(folder)
        what = f"recording {number}, damaged by {', '.join(ways)}, with {words}"
        try:
            status, said = converted_here(folder, output, words)
        except (Exception, SystemExit) as fault:
            raise Wrong(f"{what}: {type(fault).__name__}: {str(fault)[:300]}") from fault
        if status not in (0, 2, 3) or not said.startswith("psitrace: "):
            raise Wrong(f"{what}: status {status}: {said[-500:]}")
        if not os.path.exists(output):
            return status, False
        done = subprocess.run([program, "check", output, "--tick-ms=2000"], capture_output=True)
        if done.returncode:
            raise Wrong(f"{what}: status {status}, and check says {done.stderr.decode()}")
        return status, True


def must_convert(program: str, numbers: range) -> None:
    """Converts the damaged recordings with these numbers, and fails if a result is wrong."""
    found: Counter[tuple[int, bool]] = Counter()
    faults = []
    for number in numbers:
        try:
            found[convert(program, number)] += 1
        except Wrong as fault:
            faults.append(str(fault))
    for (status, is_written), count in sorted(found.items()):
        print(f"status {status} {'with' if is_written else 'without'} a trace: {count}")
    must(not faults, "\n".join(faults))
