"""Reads files of samples in any supported format, and stores their rows."""
from __future__ import annotations

import gzip
import os
import re
import zlib
from collections.abc import Iterator
from typing import NamedTuple, TextIO

from psicli.fault import Fault
from psicli.times import SECOND
from psirec.meta import is_recording
from psireplay.kinds import JSON, RULES, kind_of, kind_message

from .metrics import SECOND_ROOT, Metrics, read_dump, read_json
from .recording import read_folder
from .rows import AVERAGES, ROOT, Place, must_be_path
from .store import Store
from .texts import read_csv, read_json_lines, read_loop

BEGINNING = 4096
SAMPLES = "samples"
# The shortest interval between samples (ns) at which avg10 describes the growth of a total better
# than a straight line. At shorter intervals avg10 depends too much on the time before.
LONG = 14 * SECOND
PRESSURE = "pressure"


def other_kind(name: str, beginning: str) -> str:
    """Returns the part of an error message that says what kind of file this is. Returns an empty
    string if the kind isn't known, or if the file may contain samples.
    """
    kind = kind_of(beginning.encode("utf-8", "surrogateescape"))
    if kind and kind.what == JSON:
        return f"it is {RULES}, not {SAMPLES}" if '"rulesets"' in beginning else ""
    return kind_message(kind, SAMPLES, name)


def open_text(name: str) -> TextIO:
    """Opens a text file, which may be compressed with gzip."""
    with open(name, "rb") as file:
        is_packed = file.read(2) == b"\x1f\x8b"
    if is_packed:
        return gzip.open(name, "rt", encoding="utf-8", errors="surrogateescape", newline="\n")
    return open(name, encoding="utf-8", errors="surrogateescape", newline="\n")


class Naming(NamedTuple):
    """The options for the names of groups. `renamed` has the new path for each renamed group; its
    descendants are renamed too. `depth` is the largest number of components of a path. `labels` has
    the labels whose values form a series' path. If it is empty, the label `id` has the path.
    """

    renamed: dict[str, str]
    depth: int | None
    labels: tuple[str, ...]

    def path_of(self, name: str) -> str | None:
        """Returns a group's path, or None if it has too many components."""
        for old in sorted(self.renamed, key=len, reverse=True) if self.renamed else ():
            if name == old or name.startswith(old.rstrip("/") + "/"):
                name = self.renamed[old].rstrip("/") + name[len(old.rstrip("/")) :]
                break
        name = name or ROOT
        if self.depth is not None and name != ROOT and name.count("/") > self.depth:
            return None
        return name


class Inputs:
    """Reads the samples of files. Error messages name the file and the line."""

    def __init__(self, naming: Naming, averages: bool | None) -> None:
        # False if averages aren't stored. None until the interval between samples is known:
        # averages are stored only if it is at least LONG.
        self.naming, self.averages = naming, averages
        self.store = Store()
        self.files: list[str] = []
        self.paths: dict[str, str | None] = {}
        self.newest: dict[tuple[str, int], int] = {}
        self.metrics = Metrics(naming.labels)
        self.count = self.line = 0

    def place(self, where: tuple[int, int]) -> Place:
        """Returns the file and line of a row. `where` has the number of the file and the line."""
        return Place(self.files[where[0]], where[1])

    def here(self) -> Place:
        """Returns the file and line that are currently read."""
        return Place(self.files[-1], self.line)

    def refused(self, beginning: str, why: str) -> Fault:
        """Returns an error for the current line. In the first line, the message says what kind of
        file this is instead, if that is known.
        """
        other = other_kind(self.files[-1], beginning) if self.line == 1 else ""
        return Fault(f"{self.files[-1]}: {other}" if other else f"{self.here()}: {why}")

    def put(self, time: int, group: str, field: int, values: tuple[int, ...], line: int) -> None:
        """Stores `values` of `group` at `time` (ns since 1970), for consecutive fields from `field`
        on. `line` is the number of the line in the file.
        """
        self.line = line
        if field >= AVERAGES and self.averages is False:
            return
        if group not in self.paths:
            path = self.naming.path_of(group) if group != SECOND_ROOT else group
            if path is not None and path != SECOND_ROOT:
                must_be_path(path, self.here())
            self.paths[group] = path
        path = self.paths[group]
        if path is not None:
            self.count += 1
            self.store.put((time, path, field, values, (len(self.files) - 1, line)))

    def put_in_order(
        self, time: int, group: str, field: int, values: tuple[int, ...], line: int
    ) -> None:
        """Stores values as `put` does. Raises a Fault if `time` is before the previous time of the
        same group and field, since samples in this format must be in order of time.
        """
        if time < self.newest.get((group, field), time):
            self.line = line
            raise Fault(f"{self.here()}: the time goes back: {group} was read later before")
        if self.averages is None and time > self.newest.get((group, field), time):
            self.averages = time - self.newest[group, field] >= LONG
        self.newest[group, field] = time
        self.put(time, group, field, values, line)

    def read(self, name: str) -> None:
        """Reads a file, or the folder of a recording."""
        before, self.line = self.count, 1
        self.newest.clear()
        self.files.append(name)
        folder = os.path.dirname(name) or "."
        if os.path.isdir(name):
            read_folder(name, self.put)
        elif os.path.basename(name) == PRESSURE and is_recording(folder):
            read_folder(folder, self.put)
        else:
            self.read_file(name)
        if self.count == before:
            raise Fault(f"{name}: there are no samples of pressure in it{self.metrics.others()}")

    def read_file(self, name: str) -> None:
        """Reads a file. The format is detected from the file's first characters."""
        beginning = ""
        try:
            with open_text(name) as file:
                beginning = file.read(BEGINNING)
                file.seek(0)
                self.read_text(file, beginning)
        except (EOFError, zlib.error) as fault:
            raise Fault(f"{self.here()}: the file ends too early: {fault}") from None
        except (ValueError, KeyError, IndexError) as fault:
            raise self.refused(beginning, f"this is no sample: {str(fault)[:100]}") from None
        except FileNotFoundError:
            raise Fault(f"no file: {name}") from None
        except OSError as fault:
            raise Fault(f"{name}: {fault.strerror}") from None

    def read_text(self, file: TextIO, beginning: str) -> None:
        """Reads a text whose first characters are `beginning`, which determine its format."""
        first = beginning.lstrip()
        if "\0" in beginning:
            raise self.refused(beginning, "this is no text: is it compressed?")
        if re.match(r'\{\s*__name__|\{[a-zA-Z_]+="', first):
            read_dump(self.numbered(file), self.metrics, self.put)
        elif first.startswith("{") and re.search(
            r'"(status|data|metric|error|resultType)"', beginning
        ):
            read_json(file, self.metrics, self.put, self)
        elif first.startswith("{"):
            read_json_lines(self.numbered(file), self.put_in_order)
        elif re.match(r"[0-9.]+\s*\n", first):
            read_loop(self.numbered(file), self.put_in_order)
        elif re.match(r"time,|[0-9.]+,", first):
            read_csv(self.numbered(file), self.put_in_order, lambda: self.averages is not False)
        elif re.match(r"#|[a-zA-Z_:][a-zA-Z0-9_:]*[ {]", first):
            read_dump(self.numbered(file), self.metrics, self.put)
        else:
            self.line = 1
            raise self.refused(beginning, "this is none of the formats of docs/SAMPLES.md")

    def numbered(self, file: TextIO) -> Iterator[tuple[int, str]]:
        """Yields the lines of a file with their numbers, from 1."""
        for number, line in enumerate(file, 1):
            self.line = number
            yield number, line.rstrip("\n")
