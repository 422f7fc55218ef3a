"""Reads a machine's settings of systemd-oomd, and looks them up by a group's path.

The settings are read from a folder with files as in a machine's root, or from the folder that
tools/record stored. The latter also has what systemd itself reported about its units, and each
group's owner and attributes. These have priority over files.
"""
from __future__ import annotations

import os
import re
from dataclasses import dataclass, replace

from psicli.fault import Fault
from psirec.systemd import CONFIGURATIONS, GROUPS, SYSTEM_UNITS, UNITS, USER_UNITS, VERSION
from psisystemd.limits import Limits, read_limits
from psisystemd.texts import text_at
from psisystemd.units import TYPES, Unit, UnitFiles, shown_units

NEWEST = 257
"""The version of systemd that is assumed if neither an option nor the recording states one."""
MANAGER = re.compile(r"user@([0-9]{1,10})\.service")
BELOW_MANAGER = re.compile(rf"/{MANAGER.pattern}(?:/|$)")
GROUP_LINE = re.compile(r"(/\S*) uid=([0-9]{1,10}) oom_group=([01]) avoid=([01]) omit=([01])")
NO_UNIT = Unit()


@dataclass(frozen=True)
class Watched:
    """How systemd-oomd watches a group. `swap` and `pressure` say whether it watches the group for
    swap and for memory pressure. `limit` (hundredths of a percent) and `duration` (ns) apply to
    memory pressure.
    """

    swap: bool
    pressure: bool
    limit: int
    duration: int


@dataclass(frozen=True)
class Attributes:
    """The attributes of a group's folder: its owner (uid), whether the group is killed as a whole
    (memory.oom.group), and its preference.
    """

    owner: int
    is_whole: bool
    preference: str


def version_of(path: str) -> int:
    """Parses the version of systemd on a recorded machine, from the output of `systemctl
    --version`.
    """
    found = re.match(r"systemd ([0-9]{1,4})\b", text_at(path))
    if not found:
        raise Fault(
            f"{path} line 1: it isn't what `systemctl --version` says: give the version by"
            " --systemd"
        )
    return int(found[1])


def recorded_groups(path: str) -> dict[str, Attributes]:
    """Parses the attributes of the groups on a recorded machine. Returns them by path."""
    groups = {}
    for number, line in enumerate(text_at(path).splitlines(), 1):
        found = GROUP_LINE.fullmatch(line)
        if not found:
            raise Fault(
                f"{path} line {number}: it is no group as tools/record writes it: PATH uid=0"
                " oom_group=0 avoid=0 omit=0"
            )
        preference = "omit" if found[5] == "1" else "avoid" if found[4] == "1" else "none"
        groups[found[1]] = Attributes(int(found[2]), found[3] == "1", preference)
    return groups


class Settings:
    """All settings of systemd-oomd on a machine. `notes` lists the settings that systemd ignores.
    """

    def __init__(self, root: str, version: int | None = None) -> None:
        self.root = root
        if not os.path.isdir(root):
            raise Fault(
                f"{root}: it is no folder: give what tools/record stored as `systemd`, or files as"
                " from a machine's root on"
            )
        self.notes: list[str] = []
        has = {
            name: os.path.join(root, name)
            for name in (VERSION, UNITS, GROUPS)
            if os.path.isfile(os.path.join(root, name))
        }
        self.version = version or (version_of(has[VERSION]) if VERSION in has else NEWEST)
        known = (*CONFIGURATIONS, *SYSTEM_UNITS, *USER_UNITS)
        if not has and not any(os.path.isdir(os.path.join(root, it)) for it in known):
            raise Fault(
                f"{root}: it has no settings of systemd: no `{UNITS}` of tools/record, and none of"
                f" {', '.join(known[:5])}"
            )
        self.limits: Limits = read_limits(root, self.version, self.notes)
        self.files = {
            is_users: UnitFiles(root, is_users, self.version, self.notes)
            for is_users in (False, True)
        }
        self.shown = shown_units(has[UNITS], self.version) if UNITS in has else {}
        self.groups = recorded_groups(has[GROUPS]) if GROUPS in has else {}
        self.units: dict[str, Unit] = {}
        self.watches: dict[str, Watched] = {}

    def unit(self, path: str) -> Unit:
        """Returns the settings of the unit whose group is at `path`."""
        if path not in self.units:
            self.units[path] = self.looked_up(path)
        return self.units[path]

    def looked_up(self, path: str) -> Unit:
        place = unit_of(path)
        by_files = self.files[place[1]].unit(place[0]) if place else NO_UNIT
        if path not in self.shown:
            return by_files
        shown = self.shown[path][1]
        return replace(shown, is_whole=by_files.is_whole)

    def watched(self, path: str) -> Watched:
        """Returns how the group at `path` is watched."""
        if path not in self.watches:
            unit = self.unit(path)
            limit = self.limits.pressure if unit.limit is None else unit.limit
            self.watches[path] = Watched(
                unit.swap, unit.pressure, limit, unit.duration or self.limits.duration
            )
        return self.watches[path]

    def is_whole(self, path: str) -> bool:
        """Returns whether the group is killed as a whole (memory.oom.group), so that it is a
        candidate even if it has children.
        """
        if path in self.groups:
            return self.groups[path].is_whole
        return bool(self.unit(path).is_whole)

    def owner(self, path: str) -> int:
        """Returns the uid of the group's owner. If the owner isn't recorded, groups of a user's
        manager belong to that user, and all other groups to root.
        """
        if path in self.groups:
            return self.groups[path].owner
        found = BELOW_MANAGER.search(path)
        return int(found[1]) if found else 0

    def preference(self, path: str, traced: str) -> str:
        """Returns the group's preference: from its recorded attributes or else from its unit. If
        neither has one, returns `avoid` if the trace says so (`traced`), and `none` if not.
        """
        if path in self.groups:
            return self.groups[path].preference
        return self.unit(path).preference or (traced if traced == "avoid" else "none")


def unit_of(path: str) -> tuple[str, bool] | None:
    """Returns the name of the unit whose group is at `path`, and whether it belongs to a user's
    manager. Returns None if the path can't be that of a unit: all folders above a unit are slices,
    except for the user's manager.
    """
    if path == "/":
        return "-.slice", False
    *above, name = path[1:].split("/")
    managers = [number for number, it in enumerate(above) if MANAGER.fullmatch(it)]
    slices = above if not managers else above[: managers[0]] + above[managers[0] + 1 :]
    is_unit = name.rpartition(".")[2] in TYPES and all(it.endswith(".slice") for it in slices)
    return (name, bool(managers)) if is_unit else None
