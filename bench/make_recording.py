#!/usr/bin/env python3
"""Makes a recording from a trace, in the format of tools/record, to measure the speed of
tools/psitrace on recordings of any length.

usage: bench/make_recording.py TRACE FOLDER [TIMES]     (1 if TIMES is left out)

TRACE must create its groups and tasks at its start. All other lines must be wakeups, switches and
stalls. FOLDER is created. The pages have the layout of the kernel of the stored recording mix-2.
The pages are repeated TIMES times; the timestamps of each copy are later. At the start of a
repetition the tasks' states differ from those at the end of the previous one, which psitrace
repairs and counts.
"""
from __future__ import annotations

import os
import struct
import sys
import tarfile
from collections.abc import Iterator

sys.dont_write_bytecode = True
TOP = os.path.dirname(os.path.dirname(os.path.abspath(__file__)))
sys.path.insert(0, os.path.join(TOP, "tools"))

from psiread.formats import INTEGERS, Format, formats_of, sections_of  # noqa: E402

PAGE, HEAD, LONGEST = 4096, 16, 1 << 27
START = 10**12
HOWS = {"preempt": 0, "sleep": 1, "iowait": 2, "exit": 32, "idle": 0}


class Record:
    """Encodes records of one kind of event. The fields `names` are integers, and all other bytes
    are 0.
    """

    def __init__(self, form: Format, names: tuple[str, ...]) -> None:
        fields = [form.fields[name] for name in ("common_type", *names)]
        size = max(field.offset + field.size for field in form.fields.values() if field.size)
        self.size, self.number = (size + 3) // 4 * 4, form.number
        self.layouts = [
            (struct.Struct("<" + INTEGERS[it.size, it.is_signed]).pack_into, it.offset)
            for it in fields
        ]

    def bytes(self, *values: int) -> bytes:
        """Returns the bytes of a record whose fields have these values."""
        data = bytearray(self.size)
        for (pack, offset), value in zip(self.layouts, (self.number, *values)):
            pack(data, offset, value)
        return bytes(data)


class Pages:
    """Writes a processor's pages to a file. A page is written when it is full."""

    def __init__(self, name: str) -> None:
        self.file = open(name, "wb")
        self.page, self.first, self.last = bytearray(), 0, 0

    def add(self, time_ns: int, data: bytes) -> None:
        """Adds a record at `time_ns` to the current page."""
        if not self.page or len(self.page) + len(
            data
        ) + 4 > PAGE - HEAD or time_ns - self.last >= LONGEST:
            self.end()
            self.first = self.last = time_ns
        self.page += struct.pack("<I", len(data) // 4 | (time_ns - self.last) << 5) + data
        self.last = time_ns

    def end(self) -> None:
        """Writes the current page, and begins a new one."""
        if self.page:
            self.file.write(
                struct.pack("<QQ", self.first, len(self.page)) + self.page.ljust(PAGE - HEAD, b"\0")
            )
            self.page = bytearray()


class Recording:
    """Writes a recording into a new folder."""

    def __init__(self, folder: str, processors: int) -> None:
        os.mkdir(folder)
        with tarfile.open(os.path.join(TOP, "tests", "data", "mix-2.tar.xz")) as archive:
            found = archive.extractfile("mix-2/formats")
            assert found
            text = found.read()
        self.folder, self.processors = folder, processors
        self.write("formats", text.decode())
        forms = formats_of(sections_of(text.decode()))
        self.switch = Record(forms["sched_switch"],
                             ("common_pid", "prev_pid", "prev_state", "next_pid"))
        self.probe = Record(forms["psw"], ("common_pid", "pid", "io"))
        self.wakeup = Record(forms["sched_wakeup"], ("common_pid", "pid", "target_cpu"))
        self.stalls = {
            "stall": Record(forms["ms_enter"], ("common_pid",)),
            "unstall": Record(forms["ms_leave"], ("common_pid",)),
        }
        self.marker = forms["print"]
        self.pages = [Pages(f"{folder}/cpu{it}.raw") for it in range(processors)]
        self.runs = [0] * processors
        self.home: dict[int, int] = {}
        self.snapshot = [f"at {START + 1}", "group / none"]

    def write(self, name: str, text: str) -> None:
        """Writes a file of the recording."""
        with open(os.path.join(self.folder, name), "w", encoding="ascii") as file:
            file.write(text)

    def take(self, time_ns: int, words: list[str]) -> None:
        """Writes the records of the events for a line of the trace."""
        verb = words[0]
        if verb == "group":
            self.snapshot.append(f"group {words[1]} none")
        elif verb == "fork":
            self.home[int(words[1])] = int(words[3])
            self.snapshot.append(f"task {words[1]} {words[1]} S {words[3]} {words[2]} name")
        elif verb == "wake":
            cpu = int(words[2])
            self.home[int(words[1])] = cpu
            self.pages[cpu].add(time_ns, self.wakeup.bytes(self.runs[cpu], int(words[1]), cpu))
        elif verb == "switch":
            cpu, following, before = int(words[1]), int(words[2]), self.runs[int(words[1])]
            pages = self.pages[cpu]
            pages.add(time_ns, self.probe.bytes(before, before, int(words[3] == "iowait")))
            pages.add(time_ns, self.switch.bytes(before, before, HOWS[words[3]], following))
            self.runs[cpu] = following
        elif verb in self.stalls:
            number = int(words[1])
            cpu = self.home[number]
            self.pages[cpu].add(time_ns, self.stalls[verb].bytes(number))

    def end(self) -> None:
        """Writes the pages that aren't full, and the remaining files of the recording."""
        for pages in self.pages:
            pages.end()
            pages.file.close()
        self.write("snapshot", "\n".join(self.snapshot) + "\n")
        self.write("pressure", "")
        self.write("meta", f"recording 1\ncpus {self.processors}\nend seconds\n")


def later(data: bytes, times: int, length: int) -> Iterator[bytes]:
    """Yields `times` copies of the pages. The timestamps of each copy are `length` ns later than in
    the copy before.
    """
    heads = [struct.unpack_from("<Q", data, at)[0] for at in range(0, len(data), PAGE)]
    for turn in range(times):
        found = bytearray(data)
        for place, time_ns in enumerate(heads):
            struct.pack_into("<Q", found, place * PAGE, time_ns + turn * length)
        yield bytes(found)


def main(arguments: list[str]) -> None:
    trace, folder = arguments[:2]
    times = int(arguments[2]) if arguments[2:] else 1
    with open(trace, encoding="ascii") as file:
        recording = Recording(folder, int(file.readline().partition("cpus=")[2]))
        for line in file:
            time_ns, *words = line.split()
            # A task or group that exists at time 0 is only in the snapshot, in which the task
            # sleeps.
            if words[0] in ("group", "fork") or int(time_ns):
                recording.take(START + int(time_ns), words)
    recording.end()
    for processor in range(recording.processors if times > 1 else 0):
        with open(f"{folder}/cpu{processor}.raw", "rb") as pages:
            data = pages.read()
        with open(f"{folder}/cpu{processor}.raw", "wb") as out:
            out.writelines(later(data, times, int(time_ns)))


if __name__ == "__main__":
    main(sys.argv[1:])
