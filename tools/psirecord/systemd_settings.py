"""Stores the settings of systemd-oomd in the folder `systemd` of a recording, if systemd runs.
tools/systemd-oomd reads them. The folder contains these files:

version     the first words of `systemctl --version`
units       the output of `systemctl show` for all services, slices and scopes (SHOWN)
groups      a line for each control group: its path, its owner, memory.oom.group and its attributes
            (group_line)
etc/.. run/.. usr/..   oomd.conf with its drop-in files, and each unit file that contains a setting
            of systemd-oomd. Files of the same name in other folders are included, since one of
            them may override the setting. All other lines of unit files are empty, since
            environments and arguments aren't recorded

`tools/systemd-oomd --settings` accepts this folder. It also accepts a folder that contains only
files of the last kind. All files are written before the recording begins.
"""
from __future__ import annotations

import os
import re
import subprocess
from collections.abc import Callable, Iterator
from dataclasses import dataclass

from psirec.systemd import CONFIGURATIONS, FOLDER, GROUPS, SYSTEM_UNITS, UNITS, USER_UNITS, VERSION

from .folder import DiskFull, Folder
from .machine import Machine, read_file
from .samples import Group, groups, number_in

BOOTED = "run/systemd/system"
# The properties of units that show a unit's group and what systemd-oomd does with it.
SHOWN = (
    "Id",
    "ControlGroup",
    "ManagedOOMSwap",
    "ManagedOOMMemoryPressure",
    "ManagedOOMMemoryPressureLimit",
    "ManagedOOMMemoryPressureDurationUSec",
    "ManagedOOMPreference",
)
SETTING = re.compile(rb"^\s*(ManagedOOM|OOMPolicy)", re.MULTILINE)
# Matches the lines of a unit file that are stored: section headings, the settings of systemd-oomd,
# and the slice of the unit's group.
STORED = re.compile(rb"\s*(\[|(ManagedOOM\w*|OOMPolicy|Slice)\s*=)")
TRUE = (b"1", b"yes", b"y", b"true", b"t", b"on")
PATIENCE_SECONDS = 10

Tell = Callable[[str], None]


@dataclass(frozen=True)
class Answer:
    """The output of `systemctl`, or the error if there was no output."""

    printed: bytes
    fault: str


@dataclass(frozen=True)
class Place:
    """The location of systemd: the root of the machine's files, and the command that queries
    systemd. On a real machine the root is empty.
    """

    root: str
    command: str

    def is_booted(self) -> bool:
        """Returns whether systemd runs on this machine (sd_booted(3))."""
        return os.path.isdir(f"{self.root}/{BOOTED}")

    def asked(self, *words: str) -> Answer:
        """Runs `systemctl` with these arguments, and returns its output."""
        try:
            done = subprocess.run(
                [self.command, *words],
                stdin=subprocess.DEVNULL,
                capture_output=True,
                timeout=PATIENCE_SECONDS,
            )
        except OSError as error:
            return Answer(b"", error.strerror)
        except subprocess.SubprocessError:
            return Answer(b"", f"no answer in {PATIENCE_SECONDS} s")
        first = done.stderr.decode(errors="replace").strip().partition("\n")[0]
        return Answer(done.stdout, "" if done.stdout else first or f"status {done.returncode}")


def place_of(machine: Machine) -> Place:
    """Returns the location of systemd: on the real machine, or in the folder of plain files that
    replaces the machine in tests.
    """
    root = os.path.dirname(machine.proc).rstrip("/")
    return Place(root, f"{root}/systemctl" if root else "systemctl")


# ---------------------------------------------------------------- control groups


def is_true(folder: str, attribute: str) -> bool:
    """Returns whether an attribute of a group's folder exists, and is true by systemd's rules for
    booleans.
    """
    try:
        return os.getxattr(folder, attribute).strip(b"\0 \n").lower() in TRUE
    except OSError:
        return False


def owner(folder: str) -> int:
    """Returns the uid of a group's owner, or 0 if the group was removed."""
    try:
        return os.stat(folder).st_uid
    except OSError:
        return 0


def group_line(group: Group) -> str:
    """Returns the line of a group. It contains the properties that systemd-oomd reads but a trace
    lacks.
    """
    is_whole = number_in(f"{group.folder}/memory.oom.group") == 1
    avoid, omit = (is_true(group.folder, f"user.oomd_{it}") for it in ("avoid", "omit"))
    attributes = f"oom_group={is_whole:d} avoid={avoid:d} omit={omit:d}"
    return f"{group.path} uid={owner(group.folder)} {attributes}\n"


# ---------------------------------------------------------------- unit files


def files_below(root: str, folder: str) -> Iterator[str]:
    """Yields the paths, relative to `root`, of the unit files in `folder` and of their drop-in
    files. Drop-in files are one folder deeper.
    """
    try:
        names = sorted(os.listdir(f"{root}/{folder}"))
    except OSError:
        return
    for name in names:
        if name.endswith(".d") and os.path.isdir(f"{root}/{folder}/{name}"):
            yield from (
                f"{folder}/{name}/{it}"
                for it in sorted(os.listdir(f"{root}/{folder}/{name}"))
                if it.endswith(".conf")
            )
        elif re.search(r"\.(service|slice|scope)$", name):
            yield f"{folder}/{name}"


def configurations(root: str) -> Iterator[str]:
    """Yields the paths of oomd.conf and its drop-in files."""
    for folder in CONFIGURATIONS:
        if os.path.exists(f"{root}/{folder}/oomd.conf"):
            yield f"{folder}/oomd.conf"
        yield from (
            it for it in files_below(root, folder) if it.startswith(f"{folder}/oomd.conf.d/")
        )


def unit_files(root: str, folders: tuple[str, ...]) -> Iterator[str]:
    """Yields the unit files that contain a setting of systemd-oomd. Also yields the files of the
    same name in other folders, since one of them may override the setting.
    """
    found = {
        name: os.path.basename(name) for folder in folders for name in files_below(root, folder)
    }
    setting = {last for name, last in found.items() if SETTING.search(read_file(f"{root}/{name}"))}
    yield from (name for name, last in found.items() if last in setting)


def settings_alone(text: bytes) -> bytes:
    """Returns the text of a unit file in which only the lines that match STORED keep their
    contents. A comment becomes `#`, and any other line becomes empty, which preserves the line
    numbers. A line that ends in a backslash continues on the next line that isn't a comment.
    """
    lines, is_stored, goes_on = [], False, False
    for line in text.splitlines():
        if line.lstrip()[:1] in (b"#", b";"):
            lines.append(b"#")
            continue
        is_stored = is_stored if goes_on else bool(STORED.match(line))
        goes_on = line.endswith(b"\\")
        lines.append(line if is_stored else b"")
    return b"".join(it + b"\n" for it in lines)


def is_other_name(root: str, name: str) -> bool:
    """Returns whether `name` is a second path of a file in `usr/lib`. This is so for paths that
    begin with `lib/` if `lib` is a link.
    """
    return name.startswith("lib/") and os.path.islink(f"{root}/lib")


def contents(machine: Machine, tell: Tell) -> Iterator[tuple[str, bytes]]:
    """Yields the name and the contents of each file to store."""
    place = place_of(machine)
    yield VERSION, place.asked("--version").printed.partition(b"\n")[0] + b"\n"
    shown = place.asked(
        "show", "--no-pager", "--type=service,slice,scope", "--property=" + ",".join(SHOWN), "*"
    )
    if shown.fault:
        tell(
            f"systemctl says nothing of units ({shown.fault}): what systemd-oomd watches is known"
            " by files alone"
        )
    yield UNITS, shown.printed
    lines = "".join(group_line(it) for it in groups(machine))
    yield GROUPS, lines.encode(errors="surrogateescape")
    for name in configurations(place.root):
        if not is_other_name(place.root, name):
            yield name, read_file(f"{place.root}/{name}")
    for name in (*unit_files(place.root, SYSTEM_UNITS), *unit_files(place.root, USER_UNITS)):
        if not is_other_name(place.root, name):
            yield name, settings_alone(read_file(f"{place.root}/{name}"))


def store(machine: Machine, folder: Folder, tell: Tell) -> None:
    """Stores the settings of systemd-oomd in a recording's folder, if systemd runs. After an error
    the recording continues, since no trace depends on the settings. The error is reported.
    """
    if not place_of(machine).is_booted():
        return
    try:
        for name, data in contents(machine, tell):
            folder.write_below(f"{FOLDER}/{name}", data)
    except (OSError, DiskFull) as error:
        tell(f"the settings of systemd-oomd weren't stored whole: {error}")
