"""Reads the settings of systemd-oomd in units: from unit files and drop-in files, merged as systemd
does, or from the output of `systemctl show`.
"""
from __future__ import annotations

import os
import re
from collections.abc import Iterator
from dataclasses import dataclass, field, replace
from typing import TypeVar

from psicli.fault import Fault
from psicli.times import SECOND
from psirec.layout import escaped_path
from psirec.systemd import SYSTEM_UNITS, USER_UNITS
from psisystemd.limits import DURATION, SHARE, checked_duration, unknown
from psisystemd.texts import Setting, drop_ins, settings_of, text_at
from psisystemd.values import duration, share, share_of_scale

TYPES = ("service", "slice", "scope")
"""The types of units that may have settings of systemd-oomd."""
SECTIONS = {"service": "Service", "slice": "Slice", "scope": "Scope"}
MODES = {"auto": False, "kill": True}
PREFERENCES = ("none", "avoid", "omit")
SWAP, PRESSURE = "ManagedOOMSwap", "ManagedOOMMemoryPressure"
LIMIT, DURATION_OF_UNIT = "ManagedOOMMemoryPressureLimit", "ManagedOOMMemoryPressureDurationSec"
PREFERENCE, POLICY = "ManagedOOMPreference", "OOMPolicy"
NAMES = (SWAP, PRESSURE, LIMIT, DURATION_OF_UNIT, PREFERENCE)
POLICIES = ("continue", "stop", "kill")
# The first version of systemd in which a unit may have its own duration.
OWN_DURATION = 257
# The name of a unit's duration in the output of `systemctl show`.
SHOWN_DURATION = "ManagedOOMMemoryPressureDurationUSec"


Meaning = TypeVar("Meaning")


@dataclass(frozen=True)
class Unit:
    """The settings of a unit's group. `limit` is in hundredths of a percent, and `duration` in ns.
    If one of them is None, the value in oomd.conf applies. `is_whole` says whether memory.oom.group
    is set, and is None if the unit doesn't determine that.
    """

    swap: bool = False
    pressure: bool = False
    limit: int | None = None
    duration: int | None = None
    preference: str | None = None
    is_whole: bool | None = None
    slice: str | None = None
    places: dict[str, str] = field(default_factory=dict)
    """The file and line of each setting that the unit has."""

    def changed(self, setting: Setting, version: int) -> Unit:
        """Returns the unit with the value of a setting. The setting's name must be a known one."""
        places = {**self.places, setting.name: setting.place}
        if setting.name in (SWAP, PRESSURE):
            is_on = chosen(setting, MODES, "auto")
            return (
                replace(self, swap=is_on, places=places)
                if setting.name == SWAP
                else replace(self, pressure=is_on, places=places)
            )
        if setting.name == LIMIT:
            found = share(setting.value) if setting.value else 0
            if found is None:
                raise setting.fault(SHARE)
            return replace(self, limit=found or None, places=places)
        if setting.name == DURATION_OF_UNIT:
            if duration(setting.value) == 0:
                raise setting.fault(DURATION)
            found = checked_duration(setting)
            return replace(self, duration=found, places=places) if version >= OWN_DURATION else self
        if setting.name == PREFERENCE:
            if not setting.value:
                return self
            return replace(
                self,
                preference=chosen(setting, dict(zip(PREFERENCES, PREFERENCES)), "none"),
                places=places,
            )
        if setting.name == POLICY:
            policy = chosen(setting, {it: it == "kill" for it in POLICIES}, "stop")
            return replace(self, is_whole=policy, places=places)
        return replace(self, slice=setting.value, places=places)


def chosen(setting: Setting, words: dict[str, Meaning], empty: str) -> Meaning:
    """Returns the meaning of the setting's value, which is a key of `words`. An empty value means
    `empty`. Raises a Fault for other values.
    """
    value = setting.value or empty
    if value not in words:
        raise setting.fault(" or ".join(words))
    return words[value]


# ---------------------------------------------------------------- unit files


def template_of(name: str) -> str | None:
    """Returns the template of an instance, such as user@.service for user@1000.service. Returns
    None if `name` isn't an instance.
    """
    prefix, is_instance, rest = name.partition("@")
    instance, _, kind = rest.rpartition(".")
    return f"{prefix}@.{kind}" if is_instance and instance else None


def widened(name: str) -> str | None:
    """Returns a unit's name without its last component between dashes: a-b-.service for
    a-b-c.service, and then a-.service. The result is never a template: a-.service for a-b@.service.
    Returns None if the name has only one component.
    """
    name = name.replace("@.", ".", 1)
    stem = name.partition("@")[0] if "@" in name else name.rpartition(".")[0]
    front = stem.removesuffix("-").rpartition("-")[0]
    return f"{front}-{name[len(stem):]}" if front else None


def drop_in_names(name: str) -> Iterator[str]:
    """Yields the names whose drop-in files apply to a unit, the most specific first. For
    u-v@x.service these are its own name, u-v@.service, u-.service and u-@x.service. A name may
    occur twice.
    """
    yield name
    if template := template_of(name):
        yield from drop_in_names(template)
    if shorter := widened(name):
        yield from drop_in_names(shorter)


class UnitFiles:
    """The unit files below the folder `root`. If `is_users`, these are the files of users'
    managers, and otherwise those of the system's manager.
    """

    def __init__(self, root: str, is_users: bool, version: int, notes: list[str]) -> None:
        self.root, self.version, self.notes = root, version, notes
        folders = USER_UNITS if is_users else SYSTEM_UNITS
        self.folders = [it for it in folders if os.path.isdir(os.path.join(root, it))]
        self.known: dict[str, Unit] = {}

    def unit(self, name: str) -> Unit:
        """Returns the settings of a unit, merged from all its files."""
        if name not in self.known:
            self.known[name] = self.read(name)
        return self.known[name]

    def read(self, name: str) -> Unit:
        kind = name.rpartition(".")[2]
        unit = Unit()
        for path in self.paths(name, kind):
            for setting in settings_of(path):
                if setting.section == SECTIONS[kind] and self.is_known(setting, kind):
                    unit = unit.changed(setting, self.version)
        return unit

    def paths(self, name: str, kind: str) -> list[str]:
        """Returns the paths of the unit's file, or of its template's file, and of its drop-in
        files.
        """
        files = [
            os.path.join(self.root, it, one)
            for one in (name, template_of(name))
            if one
            for it in self.folders
        ]
        mains = [it for it in files if os.path.exists(it)][:1]
        folders = [f"{it}/{one}.d" for it in self.folders for one in drop_in_names(name)]
        return mains + drop_ins(self.root, folders + [f"{it}/{kind}.d" for it in self.folders])

    def is_known(self, setting: Setting, kind: str) -> bool:
        """Returns whether systemd knows the setting in a unit of this kind. Adds a note if systemd
        ignores a setting that resembles one of systemd-oomd.
        """
        if setting.name == DURATION_OF_UNIT and self.version < OWN_DURATION:
            self.note(
                f"{setting.place}: {setting.name} means nothing before systemd {OWN_DURATION}"
            )
        elif setting.name == PREFERENCE and not setting.value:
            self.note(
                f"{setting.place}: {setting.name} is empty: systemd ignores that, and keeps what"
                " was set before"
            )
        elif setting.name.startswith("ManagedOOM") and setting.name not in NAMES:
            self.note(unknown(setting, list(NAMES), "units"))
        return (
            setting.name in NAMES
            or setting.name == "Slice"
            or setting.name == POLICY
            and kind != "slice"
        )

    def note(self, text: str) -> None:
        if text not in self.notes:
            self.notes.append(text)

    def named(self) -> list[str]:
        """Returns the names of all units and templates that have a file or a drop-in folder,
        sorted.
        """
        found = set()
        for folder in self.folders:
            for name in os.listdir(os.path.join(self.root, folder)):
                plain = name.removesuffix(".d")
                if plain.rpartition(".")[2] in TYPES and plain.rpartition(".")[0]:
                    found.add(plain)
        return sorted(found)


# ---------------------------------------------------------------- the output of systemctl show


def shown_units(path: str, version: int) -> dict[str, tuple[str, Unit]]:
    """Parses the output of `systemctl show`, in which empty lines separate the units. Returns each
    unit's name and settings, by the path of its group.
    """
    found: dict[str, tuple[str, Unit]] = {}
    block: list[Setting] = []
    for number, line in enumerate([*text_at(path).splitlines(), ""], 1):
        name, is_there, value = line.partition("=")
        if line and not is_there:
            raise Fault(
                f"{path} line {number}: it is no line of `systemctl show`, which are NAME=VALUE"
            )
        if line:
            block.append(Setting(f"{path} line {number}", "", name, value))
        elif block:
            shown = {it.name: it for it in block}
            group = shown["ControlGroup"].value if "ControlGroup" in shown else ""
            if group:
                unit_name = shown["Id"].value if "Id" in shown else group
                found[escaped_path(os.fsencode(group))] = (unit_name, shown_unit(shown, version))
            block = []
    return found


def shown_unit(shown: dict[str, Setting], version: int) -> Unit:
    """Returns the settings of a unit in the output of `systemctl show`."""
    unit = Unit()
    for name in (SWAP, PRESSURE, PREFERENCE):
        if name in shown:
            unit = unit.changed(shown[name], version)
    if LIMIT in shown:
        limit = share_of_scale(shown[LIMIT].value)
        if limit is None:
            raise shown[LIMIT].fault("a number up to 4294967295, which is 100%")
        unit = replace(unit, limit=limit or None, places={**unit.places, LIMIT: shown[LIMIT].place})
    setting = shown.get(SHOWN_DURATION)
    if (
        setting
        and version >= OWN_DURATION
        and not re.fullmatch(r"infinity|\[not set\]|", setting.value)
    ):
        found = duration(setting.value)
        if found is None or found < SECOND:
            raise setting.fault(DURATION)
        unit = replace(
            unit, duration=found, places={**unit.places, DURATION_OF_UNIT: setting.place}
        )
    return unit
