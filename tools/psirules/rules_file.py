"""Reads rules files that psi_oomd accepts, and looks up the names in them."""
import json
import tempfile
from collections.abc import Iterator
from contextlib import contextmanager
from typing import Any

from psicli.fault import Fault
from psicli.times import time_text
from psicli.wording import quoted
from psirules.program import Kill, RulesAt


def bytes_of(name: str) -> bytes:
    """Returns the bytes of a file. The name `-` has no special meaning."""
    try:
        with open(name, "rb") as file:
            return file.read()
    except OSError as fault:
        raise Fault(
            f"{name}: {fault.strerror}: look for a slip in its name, and whether it may be read"
        ) from fault


@contextmanager
def temporary_rules(data: bytes, name: str) -> Iterator[RulesAt]:
    """Yields a temporary rules file with these bytes. `name` is the original file, for messages.
    The replay then uses the rules whose names are printed, even if the original file is a pipe or
    is changed.
    """
    with tempfile.NamedTemporaryFile(prefix="psirules-", suffix=".json") as file:
        file.write(data)
        file.flush()
        yield RulesAt(file.name, name)


class RulesFile:
    """A rules file that psi_oomd accepted, so all required keys exist."""

    def __init__(self, name: str, data: bytes) -> None:
        self.name = name
        self.data: dict[str, Any] = json.loads(data)
        self.rulesets: list[dict[str, Any]] = self.data["rulesets"]

    def ruleset_name(self, number: int) -> str:
        return str(self.rulesets[number]["name"])

    def plugin_name(self, kill: Kill) -> str:
        return str(self.rulesets[kill.ruleset]["actions"][kill.action]["name"])

    def killer(self, kill: Kill) -> str:
        ruleset = f"ruleset {kill.ruleset} {quoted(self.ruleset_name(kill.ruleset))}"
        return f"{ruleset}, action {kill.action} {quoted(self.plugin_name(kill))}"

    def killed(self, kill: Kill) -> str:
        """Returns the words that follow the path of a killed group: `killed at TIME by KILLER`."""
        return f"killed at {time_text(kill.time_ns)} by {self.killer(kill)}"

    def record(self, kill: Kill) -> dict[str, object]:
        """Returns a kill as a JSON object."""
        return {
            "moment_ns": kill.time_ns,
            "path": kill.path,
            "ruleset": kill.ruleset,
            "ruleset_name": self.ruleset_name(kill.ruleset),
            "action": kill.action,
            "plugin": self.plugin_name(kill),
        }

    def numbers_of(self, ruleset: str) -> list[int]:
        """Returns the numbers of the rulesets with the name `ruleset`. If there are none, `ruleset`
        may be the number of a ruleset.
        """
        named = [number for number, it in enumerate(self.rulesets) if it["name"] == ruleset]
        if (
            not named
            and ruleset.isascii()
            and ruleset.isdigit()
            and int(ruleset) < len(self.rulesets)
        ):
            return [int(ruleset)]
        return named

    def patterns(self) -> list[tuple[int, str]]:
        """Returns the patterns of groups that the rulesets use, as pairs of a ruleset's number and
        a pattern, without duplicates.
        """
        found = []
        for number, ruleset in enumerate(self.rulesets):
            plugins = [it for group in ruleset["detectors"] for it in group[1:]] + ruleset[
                "actions"
            ]
            named = [
                it
                for plugin in plugins
                for it in str(plugin.get("args", {}).get("cgroup", "")).split(",")
                if it
            ]
            found += [(number, it) for it in dict.fromkeys(named)]
        return found

    def ruleset_names(self) -> list[str]:
        return [self.ruleset_name(number) for number in range(len(self.rulesets))]
