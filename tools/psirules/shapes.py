"""Finds missing keys in a rules file, and values of a wrong JSON type. psi_oomd itself reports only
the place and the cause of an error.
"""
from collections.abc import Iterator
from typing import Any

from psicli.wording import quoted
from psirules.plugins import ACTIONS, DETECTORS

KINDS = {
    dict: "an object",
    list: "a list",
    str: "a text",
    bool: "true or false",
    int: "a number",
    float: "a number",
}


def kind_of(value: object) -> str:
    """Returns the name of a value's JSON type."""
    return KINDS.get(type(value), "null")


def first_fault(data: Any) -> str | None:
    """Describes the first missing key or value of a wrong type, in the order in which psi_oomd
    reads the file. Returns None if there is no such error.
    """
    return next(faults(data), None)


def faults(data: Any) -> Iterator[str]:
    """Yields a description of each missing key, and of each value of a wrong type."""
    if not isinstance(data, dict):
        yield f"the file is {kind_of(data)}, and has to be an object with the key 'rulesets'"
        return
    yield from key_faults("the file", data, {"rulesets": list})
    for number, ruleset in enumerate(items(data, "rulesets")):
        yield from ruleset_faults(f"ruleset {number}", ruleset)


def ruleset_faults(place: str, ruleset: Any) -> Iterator[str]:
    if not isinstance(ruleset, dict):
        yield f"{place} is {kind_of(ruleset)}, and has to be an object"
        return
    yield from key_faults(place, ruleset, {"name": str, "detectors": list, "actions": list})
    for number, group in enumerate(items(ruleset, "detectors")):
        yield from group_faults(f"{place}, group {number}", group)
    for number, action in enumerate(items(ruleset, "actions")):
        yield from plugin_faults(f"{place}, action {number}", action)


def group_faults(place: str, group: Any) -> Iterator[str]:
    if not isinstance(group, list):
        yield f"{place} is {kind_of(group)}, and has to be a list: a name and detectors"
    elif not group:
        yield f"{place} is an empty list: its name is missing"
    else:
        if not isinstance(group[0], str):
            yield f"the name of {place} is {kind_of(group[0])}, and has to be a text"
        for number, detector in enumerate(group[1:]):
            yield from plugin_faults(f"{place}, item {number}", detector)


def plugin_faults(place: str, plugin: Any) -> Iterator[str]:
    if not isinstance(plugin, dict):
        yield f"{place} is {kind_of(plugin)}, and has to be an object"
        return
    yield from key_faults(place, plugin, {"name": str})
    args = plugin.get("args", {})
    if not isinstance(args, dict):
        yield f"the value of 'args' in {place} is {kind_of(args)}, and has to be an object"
        return
    name = plugin.get("name")
    known = {**DETECTORS, **ACTIONS}.get(name) if isinstance(name, str) else None
    for argument in known.required if known else ():
        if argument not in args:
            yield f"{place} {quoted(str(name))} has no argument {quoted(argument)}"
    for argument, value in args.items():
        if not isinstance(value, (str, int)):
            yield (
                f"the argument {quoted(argument)} of {place} is {kind_of(value)}, and has to be a"
                " text"
            )


def key_faults(place: str, at: dict[str, Any], wanted: dict[str, type]) -> Iterator[str]:
    """Yields a description of each key of `wanted` that is missing in an object, or has a value of
    another type.
    """
    for key, kind in wanted.items():
        if key not in at:
            yield f"{place} has no key {quoted(key)}"
        elif not isinstance(at[key], kind):
            yield (
                f"the value of {quoted(key)} in {place} is {kind_of(at[key])}, and has to be"
                f" {KINDS[kind]}"
            )


def items(at: dict[str, Any], key: str) -> list[Any]:
    """Returns the list at `key`, or an empty list if there is none."""
    found = at.get(key)
    return found if isinstance(found, list) else []
