"""Parses configuration files of systemd with sections, comments and continued lines, according to
systemd.syntax(7).
"""
from __future__ import annotations

import os
import re
from collections.abc import Iterator
from dataclasses import dataclass

from psicli.fault import Fault
from psicli.wording import quoted


@dataclass(frozen=True)
class Setting:
    """A setting in a file. `place` is the file and the line, for messages. `section` is empty for a
    line of `systemctl show`, whose output has no sections.
    """

    place: str
    section: str
    name: str
    value: str

    def fault(self, wanted: str) -> Fault:
        """Returns a Fault that says that the setting's value is malformed. `wanted` describes a
        valid value.
        """
        return Fault(f"{self.place}: {self.name} is {quoted(self.value)}: it has to be {wanted}")


def bytes_at(path: str) -> bytes:
    """Returns the bytes of a file. Raises a Fault if the file can't be read."""
    try:
        with open(path, "rb") as file:
            return file.read()
    except OSError as fault:
        raise Fault(f"{path}: {fault.strerror}") from fault


def text_at(path: str) -> str:
    """Returns the text of a file. Raises a Fault if the file can't be read or isn't UTF-8."""
    data = bytes_at(path)
    try:
        return data.decode("utf-8")
    except UnicodeDecodeError as fault:
        line = data.count(b"\n", 0, fault.start) + 1
        raise Fault(f"{path} line {line}: it isn't UTF-8") from fault


def whole_lines(text: str) -> Iterator[tuple[int, str]]:
    """Yields each logical line with the number of its first line, from 1. Skips comments and empty
    lines. A line that ends in a backslash is continued by the next line that isn't a comment.
    """
    begun: tuple[int, str] | None = None
    for number, line in enumerate(text.split("\n"), 1):
        if line.lstrip()[:1] in ("#", ";"):
            continue
        first, front = begun or (number, "")
        if line.endswith("\\"):
            begun = (first, front + line[:-1] + " ")
            continue
        begun = None
        if (front + line).strip():
            yield first, (front + line).strip()
    if begun and begun[1].strip():
        yield begun[0], begun[1].strip()


def settings_of(path: str) -> Iterator[Setting]:
    """Yields the settings of a file in order. Raises a Fault if a line is malformed."""
    section = ""
    for number, line in whole_lines(text_at(path)):
        place = f"{path} line {number}"
        if line.startswith("["):
            if not re.fullmatch(r"\[[^\]\[]+\]", line):
                raise Fault(f"{place}: {quoted(line)} is no section: write [OOM], or [Slice]")
            section = line[1:-1]
            continue
        name, is_there, value = line.partition("=")
        if not is_there or not name.strip():
            raise Fault(f"{place}: {quoted(line)} is no setting: write NAME=VALUE")
        if not section:
            raise Fault(
                f"{place}: {name.strip()} stands before any section, so it is passed over: write"
                " [OOM], or [Slice], above"
            )
        yield Setting(place, section, name.strip(), value.strip())


def drop_ins(root: str, folders: list[str]) -> list[str]:
    """Returns the drop-in files in `folders`, sorted by file name. If several folders have a file
    with the same name, only the first folder's is used. That file may be empty or a link to
    /dev/null, to disable the others.
    """
    found: dict[str, str] = {}
    for folder in folders:
        try:
            names = os.listdir(os.path.join(root, folder))
        except (FileNotFoundError, NotADirectoryError):
            continue
        except OSError as fault:
            raise Fault(f"{os.path.join(root, folder)}: {fault.strerror}") from fault
        for name in names:
            if name.endswith(".conf"):
                found.setdefault(name, os.path.join(root, folder, name))
    return [found[name] for name in sorted(found)]
