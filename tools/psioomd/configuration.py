"""Parses a configuration as oomd does. First the text is parsed as JSON with comments, according to
the rules of JsonCpp. Then the contents are converted according to the rules of oomd.
"""
from __future__ import annotations

from collections.abc import Iterable, Iterator
from dataclasses import dataclass, field
from typing import Any

from psicli.fault import Fault
from psicli.wording import quoted
from psioomd.faults import Refused
from psirules.relaxed import Reading


@dataclass
class PluginUse:
    """A plugin in a configuration: its name, its arguments as strings, and its position for
    messages.
    """

    name: str
    args: dict[str, str]
    place: str


@dataclass
class GroupUse:
    """A group of detectors in a ruleset: its name, its detectors, and its position for messages."""

    name: str
    detectors: list[PluginUse]
    place: str


@dataclass
class RulesetUse:
    """A ruleset in a configuration. Delays are strings as in the file, or empty if missing."""

    name: str
    place: str
    groups: list[GroupUse] = field(default_factory=list)
    actions: list[PluginUse] = field(default_factory=list)
    delay: str = ""
    hook_timeout: str = ""
    silenced: str = ""
    may_replace_detectors: bool = False
    may_replace_actions: bool = False
    is_disabled_by_drop_in: bool = False


@dataclass
class Configuration:
    """A configuration: its file name, its rulesets, the names of its prekill hooks, and its JSON
    data.
    """

    name: str
    rulesets: list[RulesetUse]
    hooks: list[str]
    data: Any

    def plugins(self) -> Iterator[str]:
        """Yields the names of all detectors and actions."""
        for ruleset in self.rulesets:
            for group in ruleset.groups:
                yield from (it.name for it in group.detectors)
            yield from (it.name for it in ruleset.actions)


def text_of(value: Any, place: str) -> str:
    """Converts a JSON value to a string as JsonCpp's asString does."""
    if value is None:
        return ""
    if isinstance(value, bool):
        return "true" if value else "false"
    if isinstance(value, float):
        digits = format(value, ".17g")
        return digits if any(it in digits for it in ".en") else f"{digits}.0"
    if isinstance(value, (str, int)):
        return str(value)
    raise Refused(place, "Value is not convertible to string. (it aborts)")


def truth_of(value: Any, place: str) -> bool:
    """Converts a JSON value to a boolean as JsonCpp's asBool does."""
    if value is None or isinstance(value, (bool, int, float)):
        return bool(value)
    raise Refused(place, "Value is not convertible to bool. (it aborts)")


def items(value: Any) -> Iterable[Any]:
    """Returns the values over which oomd iterates: the items of a list, or an object's values in
    order of keys.
    """
    if isinstance(value, dict):
        return [value[key] for key in sorted(value)]
    return value if isinstance(value, list) else []


def object_at(value: Any, place: str) -> dict[str, Any]:
    """Returns `value` if it is a JSON object, and an empty object if it is null. Raises Refused for
    any other value, since oomd then aborts.
    """
    if value is None or isinstance(value, dict):
        return value or {}
    raise Refused(place, "requires objectValue or nullValue (it aborts)")


def plugin_use(value: Any, place: str) -> PluginUse:
    """Converts a plugin. As in oomd, the first argument that isn't a string, number or boolean ends
    the arguments: it and all later arguments are ignored.
    """
    if not isinstance(value, dict) or not isinstance(value.get("name"), str):
        return PluginUse("", {}, place)
    name, args = value["name"], {}
    arguments = value.get("args")
    found: dict[str, Any] = arguments if isinstance(arguments, dict) else {}
    for key in sorted(found):
        if not isinstance(found[key], (str, int, float, bool)):
            break
        args[key] = text_of(found[key], place)
    return PluginUse(name, args, f"{place} {quoted(name)}")


def group_use(value: Any, place: str) -> GroupUse:
    """Converts a group of detectors. The first item of the list may be the group's name."""
    found = list(value) if isinstance(value, list) else []
    name = str(found.pop(0)) if found and isinstance(found[0], str) else ""
    here = f"{place} {quoted(name)}"
    detectors = [plugin_use(it, f"{here}, item {at}") for at, it in enumerate(found)]
    return GroupUse(name, detectors, here)


def ruleset_use(value: Any, number: int, file: str) -> RulesetUse:
    place = f"{file}: ruleset {number}"
    found = object_at(value, place)
    name = text_of(found.get("name"), place)
    use = RulesetUse(name, f"{place} {quoted(name)}")
    switches = object_at(found.get("drop-in"), use.place)
    use.is_disabled_by_drop_in = truth_of(switches.get("disable-on-drop-in"), use.place)
    use.may_replace_detectors = truth_of(switches.get("detectors"), use.place)
    use.may_replace_actions = truth_of(switches.get("actions"), use.place)
    use.silenced = text_of(found.get("silence-logs"), use.place)
    use.delay = text_of(found.get("post_action_delay"), use.place)
    use.hook_timeout = text_of(found.get("prekill_hook_timeout"), use.place)
    use.groups = [
        group_use(it, f"{use.place}, group {at}")
        for at, it in enumerate(items(found.get("detectors")))
    ]
    use.actions = [
        plugin_use(it, f"{use.place}, action {at}")
        for at, it in enumerate(items(found.get("actions")))
    ]
    return use


def configuration(name: str, data: bytes) -> Configuration:
    """Parses a configuration. Doesn't check the arguments of plugins."""
    try:
        read = Reading(data).data
    except Fault as fault:
        raise Refused(name, f"Unable to parse JSON: {fault}") from fault
    top = object_at(read, name)
    rulesets = [ruleset_use(it, at, name) for at, it in enumerate(items(top.get("rulesets")))]
    hooks = [plugin_use(it, name).name for it in items(top.get("prekill_hooks"))]
    return Configuration(name, rulesets, hooks, read)
