"""Parses the arguments of oomd's plugins as oomd does."""
from __future__ import annotations

from collections.abc import Callable
from dataclasses import dataclass
from typing import Any

from psicli.wording import quoted
from psioomd.configuration import PluginUse
from psioomd.faults import Refused
from psioomd.numbers import BadNumber, signed32, size, stof, stoi, unsigned
from psioomd.patterns import Patterns
from psireplay.groups import Host

KIB = 1 << 10


@dataclass(frozen=True)
class Argument:
    """An argument of a plugin: the parser of its text, and whether the plugin requires the
    argument.
    """

    read: Callable[[str, Host], Any]
    is_required: bool = False


def truth(text: str, _: Host) -> bool:
    if text in ("true", "True", "1"):
        return True
    if text in ("false", "False", "0"):
        return False
    raise BadNumber("Invalid resource value, must be true/false, True/False, 1/0.")


def resource(text: str, _: Host) -> str:
    if text not in ("io", "memory"):
        raise BadNumber("Invalid resource value, must be either 'io' or 'memory'.")
    return text


def memory_size(text: str, host: Host) -> int:
    """Parses a size, and returns bytes. A percentage refers to MemTotal."""
    return size(text, host.memory // KIB * KIB)


def swap_size(text: str, host: Host) -> int:
    """Parses a size, and returns bytes. A percentage refers to SwapTotal, which oomd stores as a
    32-bit number.
    """
    return size(text, signed32(host.swap // KIB * KIB))


def plain(read: Callable[[str], Any]) -> Callable[[str, Host], Any]:
    """Adapts a parser that needs only the text to the signature of all parsers, which also take the
    host.
    """
    return lambda text, _: read(text)


CGROUP = {"cgroup": Argument(plain(Patterns), True)}
UNSIGNED, TRUTH = Argument(plain(unsigned)), Argument(truth)
REQUIRED_INT, RESOURCE = Argument(plain(stoi), True), Argument(resource, True)
PRESSURE = {**CGROUP, "resource": RESOURCE, "threshold": REQUIRED_INT, "duration": REQUIRED_INT}
KILL = {
    **CGROUP, "recursive": TRUTH, "post_action_delay": UNSIGNED, "dry": TRUTH,
    "always_continue": TRUTH, "debug": TRUTH,
}  # fmt: skip
MEMORY = {**CGROUP, "duration": REQUIRED_INT, "debug": TRUTH}
ARGUMENTS: dict[str, dict[str, Argument]] = {
    "pressure_above": PRESSURE,
    "pressure_rising_beyond": {**PRESSURE, "fast_fall_ratio": Argument(plain(stof))},
    "memory_above": {**MEMORY, "threshold": Argument(memory_size, True)},
    "memory_reclaim": {**CGROUP, "duration": REQUIRED_INT},
    "swap_free": {"threshold_pct": REQUIRED_INT},
    "exists": {**CGROUP, "negate": TRUTH, "debug": TRUTH},
    "nr_dying_descendants": {
        **CGROUP, "count": Argument(plain(unsigned), True), "lte": TRUTH, "debug": TRUTH,
    },
    "dump_cgroup_overview": {**CGROUP, "always": TRUTH},
    "kill_by_memory_size_or_growth": {
        **KILL, "size_threshold": UNSIGNED, "growing_size_percentile": UNSIGNED,
        "min_growth_ratio": UNSIGNED,
    },
    "kill_by_swap_usage": {**KILL, "threshold": Argument(swap_size)},
    "kill_by_pressure": {**KILL, "resource": RESOURCE},
    "kill_by_pg_scan": KILL,
}  # fmt: skip
WITH_MEMINFO = ("memory_above", "kill_by_swap_usage")
ANON = "threshold_anon"


def known(use: PluginUse) -> tuple[dict[str, Argument], dict[str, str]]:
    """Returns the arguments that the plugin accepts, and those that the configuration contains."""
    table, args = dict(ARGUMENTS[use.name]), dict(use.args)
    if use.name in WITH_MEMINFO:
        args.pop("meminfo_location", None)
    if use.name == "memory_above" and ANON in args:
        table[ANON] = table.pop("threshold")
        args.pop("threshold", None)
    return table, args


def values(use: PluginUse, host: Host) -> dict[str, Any]:
    """Parses the values of a plugin's arguments. `host` contains the machine's totals at the start
    of oomd. Raises Refused if oomd rejects an argument.
    """
    table, args = known(use)
    for name, argument in table.items():
        if argument.is_required and name not in args:
            raise Refused(use.place, f'Required arg "{name}" missing in plugin "{use.name}"')
    found = {}
    for name, text in args.items():
        if name not in table:
            raise Refused(use.place, f'Unknown arg "{name}" in plugin "{use.name}"')
        try:
            found[name] = table[name].read(text, host)
        except BadNumber as fault:
            reason = f"Plugin={use.name} failed to init() with code=1"
            raise Refused(use.place, f"{reason}: {name} is {quoted(text)}: {fault}") from fault
    return found
