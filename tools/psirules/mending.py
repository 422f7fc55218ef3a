"""Finds what psi_oomd rejects, ignores or reads differently from oomd in a rules file, and corrects
it.
"""
import difflib
from dataclasses import dataclass
from enum import Enum
from typing import Any

from psicli.wording import quoted
from psirules import plugins
from psirules.forms import is_text, is_valid, repair, spelled
from psirules.plugins import ACTIONS, DETECTORS, OF_OOMD, Effect, Form, Plugin


class Kind(Enum):
    """How psi_oomd treats the text that a finding is about."""

    REFUSED = "refused"
    IGNORED = "passed over"
    DIFFERS = "differs from oomd"
    NOTE = "note"


@dataclass(frozen=True)
class Finding:
    """Something to report in a rules file: its place, its kind, a description, the correction (None
    if there is none), and whether the correction loses a part of what oomd would do.
    """

    place: str
    kind: Kind
    what: str
    change: str | None = None
    is_lost: bool = False

    def text(self) -> str:
        return f"{self.place}: {self.kind.value}: {self.what}"

    def told_change(self) -> str:
        return (
            f"{self.place}: {self.what}:"
            f" {self.change or 'nothing is changed'}{' (LOST)' if self.is_lost else ''}"
        )


def alike(word: str, names: list[str]) -> str | None:
    """Returns the known name that is most similar to a misspelt one, or None if none is similar."""
    found = difflib.get_close_matches(word, names, 1, 0.75)
    return found[0] if found else None


class Mender:
    """Finds errors in the data of a rules file, and corrects the data in place."""

    def __init__(self, data: Any) -> None:
        self.data = data
        self.findings: list[Finding] = []
        if isinstance(data, dict):
            self.keys("the file", data, plugins.TOP_KEYS, plugins.TOP_KEYS_OF_OOMD)
            for number, ruleset in enumerate(items(data, "rulesets")):
                if isinstance(ruleset, dict):
                    self.ruleset(
                        f"ruleset {number} {quoted(str(ruleset.get('name', '')))}", ruleset
                    )

    def find(
        self, place: str, kind: Kind, what: str, change: str | None = None, is_lost: bool = False
    ) -> None:
        self.findings.append(Finding(place, kind, what, change, is_lost))

    def keys(
        self, place: str, at: dict[str, Any], known: tuple[str, ...], of_oomd: tuple[str, ...] = ()
    ) -> None:
        """Renames unknown keys that resemble a missing known key. Adds a finding for each."""
        for key in [key for key in at if key not in known + of_oomd]:
            meant = alike(key, [it for it in known if it not in at])
            if meant:
                self.find(
                    place,
                    Kind.IGNORED,
                    f"no key {quoted(key)}; did you mean {quoted(meant)}?",
                    "it gets this name",
                )
                rename(at, key, meant)

    def ruleset(self, place: str, ruleset: dict[str, Any]) -> None:
        self.keys(place, ruleset, plugins.RULESET_KEYS, plugins.RULESET_KEYS_OF_OOMD)
        if "post_action_delay" in ruleset:
            self.value(place, ruleset, "post_action_delay", Form.SECONDS)
        result = []
        for number, group in enumerate(items(ruleset, "detectors")):
            name = str(group[0]) if isinstance(group, list) and group else ""
            if not isinstance(group, list) or self.group(
                f"{place}, group {number} {quoted(name)}", group
            ):
                result.append(group)
        if isinstance(ruleset.get("detectors"), list):
            ruleset["detectors"] = result
        if isinstance(ruleset.get("actions"), list):
            ruleset["actions"] = self.actions(place, ruleset["actions"])

    def group(self, place: str, group: list[Any]) -> bool:
        """Corrects a group of detectors in place, and removes detectors that psi_oomd doesn't know.
        Returns False if the whole group must be removed.
        """
        if len(group) == 1:
            self.find(place, Kind.NOTE, "it has no detector, so it always holds; oomd refuses it")
        result = group[:1]
        for number, detector in enumerate(group[1:]):
            here = f"{place}, item {number}"
            effect = self.plugin(here, detector, DETECTORS, ACTIONS)
            if effect is None:
                result.append(detector)
                continue
            what = missing("detector", detector["name"], effect)
            if effect is not Effect.CONTINUES:
                is_lost = effect is not Effect.STOPS
                self.find(
                    here,
                    Kind.REFUSED,
                    what,
                    "its group is taken out, which here never fires",
                    is_lost,
                )
                return False
            self.find(here, Kind.REFUSED, what, "it is taken out")
        group[:] = result
        return True

    def actions(self, place: str, actions: list[Any]) -> list[Any]:
        """Corrects a list of actions. Returns the remaining actions."""
        result = []
        for number, action in enumerate(actions):
            here = f"{place}, action {number}"
            effect = self.plugin(here, action, ACTIONS, DETECTORS)
            if effect is None:
                result.append(action)
                continue
            what = missing("action", action["name"], effect)
            if effect is Effect.STOPS:
                self.find(
                    here,
                    Kind.REFUSED,
                    what,
                    "it is taken out, with all after it and the rest that it begins",
                    True,
                )
                break
            self.find(here, Kind.REFUSED, what, "it is taken out", effect is not Effect.CONTINUES)
        if actions and not result:
            self.find(place, Kind.NOTE, "no action of it is left", "it stays, and kills nobody")
        return result

    def plugin(
        self, place: str, plugin: Any, known: dict[str, Plugin], others: dict[str, Plugin]
    ) -> Effect | None:
        """Corrects a plugin's name and arguments in place, and returns None. `known` has the
        plugins that are allowed here, and `others` has psi_oomd's other plugins. If psi_oomd's
        rules can't contain this plugin here, returns what it does in oomd.
        """
        if not isinstance(plugin, dict) or not isinstance(plugin.get("name"), str):
            return None
        name = plugin["name"]
        if name in OF_OOMD or name in others:
            return OF_OOMD.get(name, Effect.DECIDES)
        if name not in known:
            meant = alike(name, list(known))
            guess = f"; did you mean {quoted(meant)}?" if meant else ""
            self.find(
                place,
                Kind.REFUSED,
                f"no plugin {quoted(name)}{guess}",
                "it gets this name" if meant else None,
            )
            if not meant:
                return None
            plugin["name"] = name = meant
        self.keys(f"{place} {quoted(name)}", plugin, plugins.PLUGIN_KEYS)
        if isinstance(plugin.get("args"), dict):
            return self.arguments(f"{place} {quoted(name)}", plugin["args"], known[name])
        return None

    def arguments(self, place: str, args: dict[str, Any], plugin: Plugin) -> Effect | None:
        """Corrects arguments, and returns None. Returns an effect if an argument makes it
        impossible to express the plugin in psi_oomd's rules.
        """
        for name in list(args):
            if name in plugin.of_oomd or plugin.form_of(name):
                continue
            meant = alike(name, [it for it in plugin.arguments() if it not in args])
            guess = f"; did you mean {quoted(meant)}?" if meant else ""
            change = "it gets this name" if meant else "it is taken out"
            what = f"no argument {quoted(name)}: it means nothing here, and oomd refuses it{guess}"
            self.find(place, Kind.IGNORED, what, change)
            if meant:
                rename(args, name, meant)
            else:
                del args[name]
        self.of_oomd(place, args, plugin)
        for name in [name for name in plugin.arguments() if name in args]:
            form = plugin.form_of(name)
            if form is Form.RESOURCE and args[name] == "cpu":
                return Effect.WAITS_FOR_CPU
            if form:
                self.value(place, args, name, form)
        return None

    def of_oomd(self, place: str, args: dict[str, Any], plugin: Plugin) -> None:
        """Adds findings for `dry` and `threshold_anon`, which only oomd knows. Gives `threshold`
        the value of `threshold_anon`, which is removed.
        """
        if spelled(args.get("dry")) in ("true", "True", "1") and "dry" in plugin.of_oomd:
            self.find(
                place,
                Kind.NOTE,
                "oomd would log this kill and not do it; here each kill is only printed",
            )
        if "threshold_anon" in args and "threshold_anon" in plugin.of_oomd:
            what = "no argument 'threshold_anon': a trace doesn't know anonymous memory"
            self.find(
                place,
                Kind.DIFFERS,
                what,
                "it takes the place of 'threshold', which counts all memory",
                True,
            )
            args["threshold"] = args.pop("threshold_anon")

    def value(self, place: str, args: dict[str, Any], name: str, form: Form) -> None:
        """Corrects the value of the argument `name`, which must have the form `form`. Adds a
        finding for each error, also if no correction is known.
        """
        text = spelled(args[name])
        if text is None:
            self.find(
                place,
                Kind.REFUSED,
                f"{name} is {type_told(args[name])}, not a text: it has to be {form.value}",
            )
            return
        found = repair(form, text)
        if found:
            kind = Kind.DIFFERS if is_text(args[name]) and is_valid(form, text) else Kind.REFUSED
            self.find(
                place,
                kind,
                f"{name}: {found.why}",
                f"it is written {quoted(found.text)}",
                found.is_lost,
            )
            args[name] = found.text
        elif not is_valid(form, text):
            self.find(place, Kind.REFUSED, f"{name} is {quoted(text)}: it has to be {form.value}")
        elif not is_text(args[name]):
            self.find(
                place,
                Kind.REFUSED,
                f"{name} is the number {text}, which isn't whole",
                f"it is written {quoted(text)}",
            )
            args[name] = text


def missing(kind: str, name: str, effect: Effect) -> str:
    """Returns the message that psi_oomd has no such plugin. It says what the plugin does in oomd.
    """
    if effect is Effect.WAITS_FOR_CPU:
        return f"{quoted(name)} of resource 'cpu': it has to be {Form.RESOURCE.value}"
    return f"no {kind} {quoted(name)}: in oomd it {effect.value}"


def items(at: dict[str, Any], key: str) -> list[Any]:
    """Returns the list at `key`, or an empty list if there is none."""
    found = at.get(key)
    return found if isinstance(found, list) else []


def rename(at: dict[str, Any], old: str, new: str) -> None:
    """Renames a key, and preserves the order of the keys."""
    pairs = [(new if key == old else key, value) for key, value in at.items()]
    at.clear()
    at.update(pairs)


def type_told(value: object) -> str:
    return (
        "an object" if isinstance(value, dict) else "a list" if isinstance(value, list) else "null"
    )
