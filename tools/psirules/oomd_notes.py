"""Notes for tools/rules lint: differences between oomd 0.5.0 and psi_oomd that a rules file itself
shows.
"""
from __future__ import annotations

import re
from collections.abc import Iterator
from typing import Any

from psicli.wording import quoted
from psirules.forms import spelled
from psirules.mending import Finding, Kind, items

SECOND_MS = 1000
DEFAULT_TICK_MS, DEFAULT_INTERVAL_S = 2000, 5
WAITS = (
    "in oomd it waits for a second look, then kills whether the detectors still hold or not, also"
    " without any scan"
)
LOSES = "; if they don't hold, its post_action_delay is lost"
AT_ZERO = "oomd kills at pressure 0 too, and compares whole percents"
CRASHES = "growing_size_percentile 100: oomd 0.5.0 crashes when it takes this action"
SWAP = (
    "oomd keeps SwapTotal in 32 bits: with 2 GiB of swap or more the percentage is of another"
    " number"
)


def plugins_of(data: Any) -> Iterator[tuple[str, str, dict[str, Any]]]:
    """Yields the place, the name and the arguments of each plugin in a rules file."""
    for number, ruleset in enumerate(items(data, "rulesets") if isinstance(data, dict) else []):
        if not isinstance(ruleset, dict):
            continue
        place = f"ruleset {number} {quoted(str(ruleset.get('name', '')))}"
        for at, group in enumerate(items(ruleset, "detectors")):
            detectors = group[1:] if isinstance(group, list) else []
            name = quoted(str(group[0])) if isinstance(group, list) and group else "''"
            for item, plugin in enumerate(detectors):
                yield from named(f"{place}, group {at} {name}, item {item}", plugin)
        for at, plugin in enumerate(items(ruleset, "actions")):
            yield from named(f"{place}, action {at}", plugin)


def named(place: str, plugin: Any) -> Iterator[tuple[str, str, dict[str, Any]]]:
    if isinstance(plugin, dict) and isinstance(plugin.get("name"), str):
        args = plugin.get("args")
        yield f"{place} {quoted(plugin['name'])}", plugin["name"], (
            args if isinstance(args, dict) else {}
        )


def texts_of(name: str, args: dict[str, Any]) -> Iterator[str]:
    """Yields notes on a plugin, from its name and arguments."""
    found = {key: spelled(value) or "" for key, value in args.items()}
    ratio = found.get("min_growth_ratio", "")
    if re.fullmatch(r"[0-9]+\.[0-9]+", ratio):
        whole = ratio.partition(".")[0]
        yield f"min_growth_ratio: oomd reads {quoted(ratio)} as {whole}; leave it out for 1.25"
    if "\\" in found.get("cgroup", ""):
        yield (
            rf"cgroup: oomd takes a \ in {quoted(found['cgroup'])} as an escape, so it matches"
            r" nothing: write \\ or * for it"
        )
    if name == "kill_by_pg_scan":
        yield WAITS + (LOSES if "post_action_delay" in found else "")
    if name == "kill_by_pressure":
        yield AT_ZERO
    if found.get("growing_size_percentile") == "100":
        yield CRASHES
    if name == "kill_by_swap_usage" and found.get("threshold", "").endswith("%"):
        yield f"threshold: {SWAP}"


def of_pace(tick_ms: int | None, interval_s: int | None) -> Iterator[Finding]:
    """Yields a note if the options set a tick or an interval, and the interval isn't a multiple of
    the tick.
    """
    if tick_ms is None and interval_s is None:
        return
    tick, interval = tick_ms or DEFAULT_TICK_MS, (interval_s or DEFAULT_INTERVAL_S) * SECOND_MS
    if interval % tick:
        ticks = [-(-interval * it // tick) * tick for it in (1, 2, 3)]
        first, second, third = (f"{it / SECOND_MS:g}" for it in ticks)
        what = (
            f"ticks of {tick} ms don't divide the interval of {interval // SECOND_MS} s: psi_oomd"
            f" evaluates at {first}, {second}, {third} s, and oomd looks at"
            f" {', '.join(f'{interval * it // SECOND_MS}' for it in (1, 2, 3))} s"
        )
        yield Finding("the pace", Kind.NOTE, what)


def notes(data: Any) -> list[Finding]:
    """Returns all notes on a rules file, in the order of the file."""
    return [
        Finding(place, Kind.NOTE, text)
        for place, name, args in plugins_of(data)
        for text in texts_of(name, args)
    ]
