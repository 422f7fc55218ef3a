"""Reads the limits that apply to all groups from oomd.conf and its drop-in files."""
from __future__ import annotations

import difflib
import os
from dataclasses import dataclass, replace

from psicli.times import SECOND
from psirec.systemd import CONFIGURATIONS
from psisystemd.texts import Setting, drop_ins, settings_of
from psisystemd.values import duration, share

SHARE = "a percentage such as 60%, from 0% to 100%, with at most two decimals"
DURATION = "a time of at least 1 s, such as 20s or 1min 30s"
SECTION = "OOM"
# The first version of systemd that also reads oomd.conf in /run and /usr.
MAIN_ANYWHERE = 256


@dataclass(frozen=True)
class Limits:
    """The limits in oomd.conf: shares in hundredths of a percent, and a duration in ns."""

    swap_used: int = 9000
    pressure: int = 6000
    duration: int = 30 * SECOND
    places: tuple[tuple[str, str], ...] = ()
    """The file and line of each setting that occurs in a file."""

    def changed(self, setting: Setting) -> Limits:
        """Returns the limits with the value of a setting. Raises a Fault if the value is malformed.
        """
        if setting.name == "DefaultMemoryPressureDurationSec":
            return self.put(setting, "duration", checked_duration(setting) or Limits.duration)
        found = share(setting.value)
        if found is None:
            raise setting.fault(SHARE)
        return self.put(setting, NAMES[setting.name], found)

    def put(self, setting: Setting, field: str, value: int) -> Limits:
        places = tuple({**dict(self.places), setting.name: setting.place}.items())
        return replace(self, **{field: value}, places=places)


NAMES = {
    "SwapUsedLimit": "swap_used",
    "DefaultMemoryPressureLimit": "pressure",
    "DefaultMemoryPressureDurationSec": "duration",
}


def checked_duration(setting: Setting) -> int | None:
    """Parses a duration, and returns ns. Returns None if the value is empty or 0, which selects the
    default. Raises a Fault if the duration is malformed or shorter than 1 s.
    """
    if not setting.value:
        return None
    found = duration(setting.value)
    if found == 0:
        return None
    if found is None or found < SECOND:
        raise setting.fault(DURATION)
    return found


def unknown(setting: Setting, names: list[str], where: str) -> str:
    """Returns a note that systemd doesn't know this setting. `where` names the file or the section
    that contains the setting.
    """
    meant = difflib.get_close_matches(setting.name, names, 1)
    guess = f"; did you mean {meant[0]}?" if meant else ""
    return (
        f"{setting.place}: there is no setting {setting.name} in {where}, so it is passed"
        f" over{guess}"
    )


def configurations(root: str, version: int) -> list[str]:
    """Returns the paths of oomd.conf and its drop-in files. A later file overrides an earlier one.
    If several folders have an oomd.conf, only the first folder's is used.
    """
    mains = [os.path.join(root, it, "oomd.conf") for it in CONFIGURATIONS]
    main = [it for it in (mains if version >= MAIN_ANYWHERE else mains[:1]) if os.path.exists(it)]
    return main[:1] + drop_ins(root, [f"{it}/oomd.conf.d" for it in CONFIGURATIONS])


def read_limits(root: str, version: int, notes: list[str]) -> Limits:
    """Reads the limits from the files below the folder `root`. Adds a note to `notes` for each
    setting that systemd ignores.
    """
    limits = Limits()
    for path in configurations(root, version):
        for setting in settings_of(path):
            if setting.section != SECTION:
                notes.append(
                    f"{setting.place}: {setting.name} stands in [{setting.section}], and means"
                    f" nothing outside of [{SECTION}]"
                )
            elif setting.name in NAMES:
                limits = limits.changed(setting)
            else:
                notes.append(unknown(setting, list(NAMES), "oomd.conf"))
    return limits
