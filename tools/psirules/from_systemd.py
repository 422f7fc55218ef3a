"""tools/rules from-systemd: converts the settings of systemd-oomd to the nearest rules of
psi_oomd.
"""
import argparse
import re
import sys
from collections.abc import Iterator
from dataclasses import dataclass
from typing import Any

from psicli.running import complain
from psicli.status import Status
from psicli.times import SECOND
from psicli.wording import quoted
from psirules.lint import written
from psirules.patterns import is_pattern
from psisystemd.settings import BELOW_MANAGER, Settings
from psisystemd.units import (
    DURATION_OF_UNIT,
    LIMIT,
    PREFERENCE,
    PRESSURE,
    SWAP,
    TYPES,
    Unit,
    UnitFiles,
    template_of,
)
from psisystemd.values import percent
from psiworld.groups import ROOT

ABOUT = """Prints rules for psi_oomd that are nearest to what systemd-oomd does by the \
settings of FOLDER, which is one as
tools/systemd-oomd takes it. For each setting that rules can't say, or say otherwise, a line \
stands on standard error, which ends in LOST
where somebody else may be killed, or at another moment. Replay by --tick-ms 1000 --interval-s 1, \
since systemd-oomd looks each
second. tools/systemd-oomd itself needs no such rules, and loses nothing."""
STATUS = (
    "The status is 0 where the rules say all of it, 1 where some of that is lost, and 2 where"
    " FOLDER can't be read."
)
MANAGERS = "user.slice/user-*.slice/user@*.service"
MOST_RULESETS, MOST_PATTERNS = 64, 16
HUNDREDTHS = 100
SWAP_LIMIT, PRESSURE_LIMIT = "SwapUsedLimit", "DefaultMemoryPressureLimit"
LENGTH = "DefaultMemoryPressureDurationSec"


@dataclass(frozen=True)
class Place:
    """A unit, or a template of units, with the pattern of its groups. `has_groups` says whether
    these groups usually have children.
    """

    name: str
    pattern: str
    has_groups: bool
    unit: Unit

    def inner(self) -> str:
        """Returns the pattern of the possible victims: the group's children, or the group itself if
        it usually has no children.
        """
        if self.pattern == ROOT:
            return "*"
        return f"{self.pattern}/*" if self.has_groups else self.pattern

    def both(self) -> str:
        """Returns the patterns of the group and of its children, separated by a comma."""
        return f"{self.pattern},{self.pattern}/*" if self.has_groups else self.pattern


def slices(name: str) -> str:
    """Returns the pattern of a slice's group, which is below the groups of the slice's parents:
    `a.slice/a-b.slice` for `a-b.slice`.
    """
    parts = name.removesuffix(".slice").replace("%i", "*").split("-")
    if not any(parts):
        return ROOT
    parts[-1] = parts[-1] or "*"
    return "/".join("-".join(parts[: count + 1]) + ".slice" for count in range(len(parts)))


def pattern_of(name: str, unit: Unit, is_users: bool) -> str | None:
    """Returns the pattern of a unit's groups, for a unit that is known only from unit files.
    `is_users` says that users' managers run the unit. Returns None if the unit's name doesn't
    determine its groups.
    """
    stem, _, kind = name.rpartition(".")
    if kind == "scope":
        return None
    if kind == "slice":
        place = slices(name)
    else:
        prefix, is_template, _ = stem.partition("@")
        is_user = prefix == "user" and is_template
        usual = "app.slice" if is_users else "user-%i.slice" if is_user else "system.slice"
        if is_template and not is_users and prefix != "user":
            usual = "system-" + prefix.replace("-", r"\x2d") + ".slice"
        last = re.sub(r"@(?=\.)|-(?=\.)", lambda it: it[0] + "*", name)
        above = slices(unit.slice or usual)
        place = last if above == ROOT else f"{above}/{last}"
    return f"{MANAGERS}/{place}" if is_users and place != ROOT else MANAGERS if is_users else place


class Nearest:
    """Converts the settings of systemd-oomd to the nearest rules. Collects notes on what is lost.
    """

    def __init__(self, settings: Settings) -> None:
        self.settings = settings
        self.notes: list[tuple[str, bool]] = [(note, False) for note in settings.notes]
        self.places = [*self.shown(), *self.named(False), *self.named(True)]
        self.rulesets: list[dict[str, Any]] = []
        self.add_swap([it for it in self.places if it.unit.swap])
        for place in self.places:
            if place.unit.pressure:
                self.add_pressure(place)
        self.tell_wishes()
        self.tell_pauses()

    def tell(self, what: str, is_lost: bool = False) -> None:
        self.notes.append((what, is_lost))

    def shown(self) -> Iterator[Place]:
        """Yields the watched units that systemd itself reported."""
        for path, (name, unit) in self.settings.shown.items():
            is_manager = BELOW_MANAGER.fullmatch("/" + path.rpartition("/")[2])
            has_groups = name.endswith(".slice") or bool(is_manager)
            if unit.swap or unit.pressure:
                yield Place(name, path if path == ROOT else path[1:], has_groups, unit)

    def named(self, is_users: bool) -> Iterator[Place]:
        """Yields the watched units that only unit files name. Adds a note for each unit that no
        rule can watch.
        """
        files: UnitFiles = self.settings.files[is_users]
        known = {name for name, _ in self.settings.shown.values()} if not is_users else set()
        known |= {template for name in known if (template := template_of(name))}
        for name in files.named():
            unit = files.unit(name)
            if name in known or not (unit.swap or unit.pressure):
                continue
            pattern = pattern_of(name, unit, is_users)
            if pattern is None or not is_pattern(pattern):
                self.tell(
                    f"{places_of(unit)}: {name} is watched, but files don't say where its group is:"
                    " no rule watches it",
                    True,
                )
                continue
            yield Place(name, pattern, name.endswith(".slice") or name.startswith("user@"), unit)
        for kind in TYPES:
            unit = files.unit(f"-any-.{kind}")
            if unit.swap or unit.pressure:
                self.tell(f"{places_of(unit)}: every {kind} is watched: no rule says that", True)

    def add(self, ruleset: dict[str, Any], place: Place) -> None:
        """Adds a ruleset. If the file already has the maximum number of rulesets, adds a note."""
        if len(self.rulesets) == MOST_RULESETS:
            self.tell(
                f"{place.name}: more than {MOST_RULESETS} rulesets aren't taken: no rule watches"
                " it",
                True,
            )
        else:
            self.rulesets.append(ruleset)

    def whole(self, hundredths: int, place: str) -> int:
        """Rounds a share (hundredths of a percent) to a whole percentage, as psi_oomd's thresholds
        require. Adds a note if the rounding changes the share.
        """
        nearest = (hundredths + HUNDREDTHS // 2) // HUNDREDTHS
        if hundredths % HUNDREDTHS:
            self.tell(
                f"{place}: a limit of {percent(hundredths)}: thresholds are whole, so it is written"
                f" {nearest} %",
                True,
            )
        return nearest

    def add_swap(self, places: list[Place]) -> None:
        """Adds rulesets for the units `places`, which are watched for swap. Each ruleset compares
        at most MOST_PATTERNS of them.
        """
        limits = self.settings.limits
        limit_at = dict(limits.places).get(SWAP_LIMIT, SWAP_LIMIT)
        limit = self.whole(limits.swap_used, limit_at) if places else 0
        for first in range(0, len(places), MOST_PATTERNS):
            some = places[first : first + MOST_PATTERNS]
            detectors = [
                plugin("memory_above", cgroup="/", threshold=f"{limit}%", duration="0"),
                plugin("swap_free", threshold_pct=str(100 - limit)),
            ]
            inner = ",".join(it.inner() for it in some)
            action = plugin(
                "kill_by_swap_usage", cgroup=inner, threshold="5%", recursive="true"
            )
            name = f"swap of {', '.join(it.name for it in some)}"
            group = [f"memory and swap above {limit} percent", *detectors]
            parts = {"post_action_delay": "0", "detectors": [group], "actions": [action]}
            self.add({"name": name, **parts}, some[0])
        if len(places) > MOST_PATTERNS:
            self.tell(
                f"{SWAP}=kill of {len(places)} units: rulesets compare {MOST_PATTERNS} of them"
                " each, not all with one another",
                True,
            )

    def add_pressure(self, place: Place) -> None:
        """Adds a ruleset for a unit that is watched for memory pressure."""
        unit, limits = place.unit, self.settings.limits
        if place.pattern == ROOT:
            self.tell(
                f"{unit.places[PRESSURE]}: {PRESSURE}=kill of {place.name}: systemd-oomd never"
                " kills by it, so there is no rule"
            )
            return
        common = dict(limits.places)
        limit_at = common.get(PRESSURE_LIMIT, PRESSURE_LIMIT)
        limit_at = unit.places.get(LIMIT, "") if unit.limit else limit_at
        limit = self.whole(limits.pressure if unit.limit is None else unit.limit, limit_at)
        length_at = common.get(LENGTH, LENGTH)
        length_at = unit.places.get(DURATION_OF_UNIT, "") if unit.duration else length_at
        ns = unit.duration or limits.duration
        seconds = -(-ns // SECOND)
        if ns % SECOND:
            self.tell(
                f"{length_at}: a duration with a part of a second: it is written {seconds} s", True
            )
        if "*" in place.pattern:
            self.tell(
                f"{unit.places[PRESSURE]}: of several groups of {place.name} the greatest pressure"
                " counts for all of them",
                True,
            )
        self.add(pressure_ruleset(place, limit, seconds), place)

    def tell_wishes(self) -> None:
        """Adds notes on preferences of groups and units that rules can't express."""
        groups = [(path, it.preference, it.is_whole) for path, it in self.settings.groups.items()]
        units = [(it.name, it.unit.preference, bool(it.unit.is_whole)) for it in self.wishing()]
        for who, wish, is_whole in [*groups, *units]:
            if wish == "omit":
                self.tell(
                    f"{who}: {PREFERENCE}=omit: it is never killed there, and rules have no word"
                    " for that",
                    True,
                )
            if wish == "avoid":
                self.tell(
                    f"{who}: {PREFERENCE}=avoid: rules obey it where the trace says"
                    f" `prefer {who} avoid`"
                )
            if is_whole:
                self.tell(
                    f"{who}: memory.oom.group: it is killed as a whole there, and rules choose"
                    " among the groups in it",
                    True,
                )

    def wishing(self) -> Iterator[Place]:
        """Yields units that may have preferences, whether watched or not, but that have no recorded
        group: those that systemd reported and, if no group was recorded, those of unit files.
        """
        recorded = self.settings.groups
        for path, (name, unit) in self.settings.shown.items():
            if path not in recorded:
                yield Place(name, path, False, unit)
        if not recorded:
            for files in self.settings.files.values():
                yield from (Place(name, "", False, files.unit(name)) for name in files.named())

    def tell_pauses(self) -> None:
        """Adds a note, if there are several rulesets for memory pressure, that a pause after a kill
        affects only the ruleset that killed.
        """
        pressures = sum(it["name"].startswith("memory pressure") for it in self.rulesets)
        if pressures > 1:
            self.tell(
                f"after a kill systemd-oomd rests for all groups: each of {pressures} rulesets of"
                " memory pressure rests alone",
                True,
            )


def places_of(unit: Unit) -> str:
    """Returns the file and line of the setting by which a unit is watched."""
    return unit.places[PRESSURE if unit.pressure else SWAP]


def plugin(name: str, **args: str) -> dict[str, Any]:
    return {"name": name, "args": args}


def pressure_ruleset(place: Place, limit: int, seconds: int) -> dict[str, Any]:
    """Returns the ruleset that kills in a unit if its memory pressure is above `limit` (percent)
    for a duration (s) and the unit reclaims memory.
    """
    pressure = plugin(
        "pressure_above",
        cgroup=place.pattern,
        resource="memory",
        threshold=str(limit),
        duration=str(seconds),
    )
    reclaim = plugin("memory_reclaim", cgroup=place.both(), duration="30")
    scans = plugin("kill_by_pg_scan", cgroup=place.inner(), recursive="true")
    sizes = plugin(
        "kill_by_memory_size_or_growth",
        cgroup=place.inner(),
        size_threshold="0",
        recursive="true",
    )
    name = f"full pressure above {limit} percent for {seconds} s, with reclaim"
    return {
        "name": f"memory pressure of {place.name}",
        "detectors": [[name, pressure, reclaim]],
        "actions": [scans, sizes],
    }


def run(options: argparse.Namespace) -> int:
    nearest = Nearest(Settings(options.folder, options.systemd))
    for what, is_lost in nearest.notes:
        complain(f"{what}{' (LOST)' if is_lost else ''}")
    if not nearest.rulesets:
        complain(f"{quoted(options.folder)} watches no group: the rules kill nobody")
    sys.stdout.flush()
    sys.stdout.buffer.write(written({"rulesets": nearest.rulesets}))
    sys.stdout.buffer.flush()
    return Status.FOUND if any(is_lost for _, is_lost in nearest.notes) else Status.DONE
