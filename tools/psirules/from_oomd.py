"""tools/rules from-oomd: converts a configuration of oomd to the nearest rules of psi_oomd."""
import argparse
import re
from collections.abc import Callable
from decimal import Decimal
from typing import Any

from psicli.wording import quoted
from psioomd.arguments import ANON, known, values
from psioomd.configuration import Configuration, GroupUse, PluginUse, RulesetUse
from psioomd.emulation import read_configuration
from psioomd.engine import engine
from psioomd.machine import Extras, Machine
from psioomd.numbers import stof, stoi
from psioomd.patterns import split, without_braces
from psireplay.groups import Host
from psirules.forms import MOST_BYTES, MOST_PATTERNS, size_text
from psirules.oomd_notes import AT_ZERO, SWAP, WAITS
from psirules.patterns import is_pattern
from psirules.plugins import ACTIONS, DETECTORS
from psirules.to_oomd import RECURSES, print_made

ABOUT = """Prints rules for psi_oomd that are nearest to what oomd 0.5.0 does by the configuration
FILE. Each argument is read as oomd reads it (a size without a letter counts MiB, a
ratio is a whole number) and written as psi_oomd reads it. For each thing that rules
can't say a line is on standard error, which ends in LOST if somebody else may be
killed, or at another time. Replay by --tick-ms 1000, so that psi_oomd evaluates when
oomd looks. tools/oomd itself needs no such rules, and loses nothing."""
STATUS = (
    "The status is 0 if the rules say all of it, 1 if some of that is lost, and 2 if oomd refuses"
    " FILE."
)
MOST_SECONDS, MOST_PERCENT, MOST_RATIO = 1000000, 100, 1000
# The machine for which percentages are parsed. Its sizes don't matter, since the result is written
# as a percentage again.
TOTALS = Host(0, 0, 0)
NOTHING = ("continue", "dump_cgroup_overview")
SECONDS = ("duration", "post_action_delay")
PERCENTS = ("threshold", "threshold_pct", "size_threshold", "growing_size_percentile")
TRUTHS = ("negate", "recursive", "always_continue")


class Gone(Exception):
    """Raised if psi_oomd's rules have no equivalent of a plugin."""


class Nearest:
    """Converts a configuration of oomd to the nearest rules. Collects notes on what is lost."""

    def __init__(self, read: Configuration) -> None:
        self.notes: list[tuple[str, bool]] = []
        self.data = {"rulesets": [self.ruleset(it) for it in read.rulesets]}
        for hook in read.hooks:
            self.tell(read.name, f"the prekill hook {quoted(hook)} is left out")

    def tell(self, place: str, what: str, is_lost: bool = True) -> None:
        self.notes.append((f"{place}: {what}", is_lost))

    def ruleset(self, use: RulesetUse) -> dict[str, Any]:
        result: dict[str, Any] = {"name": use.name}
        if use.delay:
            result["post_action_delay"] = str(min(stoi(use.delay), MOST_SECONDS))
        groups = [self.group(it) for it in use.groups]
        return {
            **result,
            "detectors": [it for it in groups if it],
            "actions": self.actions(use.actions),
        }

    def group(self, use: GroupUse) -> list[Any] | None:
        """Converts a group of detectors. Returns None if a detector has no equivalent. The group is
        then left out of the rules, so it never fires.
        """
        result: list[Any] = [use.name]
        for it in use.detectors:
            if it.name in NOTHING:
                self.tell(it.place, "it always holds: it is left out", False)
                continue
            try:
                result.append(self.plugin(it, DETECTORS))
            except Gone:
                what = "rules have no such detector: its group is left out, and never fires"
                self.tell(it.place, what, it.name != "stop")
                return None
        return result

    def actions(self, uses: list[PluginUse]) -> list[Any]:
        result = []
        for it in uses:
            if it.name in NOTHING:
                self.tell(it.place, "it does nothing: it is left out", False)
                continue
            if it.name == "stop":
                self.tell(
                    it.place,
                    "it is left out, with all actions after it and the pause that it begins",
                )
                break
            try:
                result.append(self.plugin(it, ACTIONS))
            except Gone:
                self.tell(it.place, "rules have no such action: it is left out")
        return result

    def plugin(self, use: PluginUse, table: dict[str, Any]) -> dict[str, Any]:
        if use.name not in table:
            raise Gone
        _, args = known(use)
        read = values(use, TOTALS)
        result: dict[str, str] = {}
        for name, text in args.items():
            at = f"{use.place}: {name}"
            if name == ANON:
                self.tell(
                    use.place,
                    f"{ANON}: a trace has no anonymous memory: all memory is held against it",
                )
                name = "threshold"
            found = self.argument(
                at,
                use.name,
                name,
                text,
                read[ANON if ANON in read and name == "threshold" else name],
            )
            if found is not None:
                result[name] = found
        self.losses(use, result)
        return {"name": use.name, "args": result}

    def argument(self, place: str, plugin: str, name: str, text: str, value: Any) -> str | None:
        """Returns the text of an argument for psi_oomd, or None if psi_oomd has no such argument.
        """
        is_size = name == "threshold" and plugin in ("memory_above", "kill_by_swap_usage")
        for is_it, write in self.writers(name, is_size):
            if is_it:
                return write(place, text, value)
        return None

    def writers(
        self, name: str, is_size: bool
    ) -> list[tuple[bool, Callable[[str, str, Any], str]]]:
        return [
            (name == "cgroup", lambda place, text, _: self.patterns(place, text)),
            (name == "resource", lambda _, text, __: text),
            (is_size, self.size),
            (name in SECONDS, lambda place, _, value: self.whole(place, value, MOST_SECONDS)),
            (name in PERCENTS, lambda place, _, value: self.whole(place, value, MOST_PERCENT)),
            (
                name == "min_growth_ratio",
                lambda place, _, value: self.whole(place, value, MOST_RATIO),
            ),
            (name == "fast_fall_ratio", lambda place, text, _: self.ratio(place, text)),
            (name in TRUTHS, lambda _, __, value: "true" if value else "false"),
        ]

    def whole(self, place: str, value: int, most: int) -> str:
        nearest = max(0, min(value, most))
        if nearest != value:
            self.tell(place, f"{value} isn't from 0 to {most}: it is written {nearest}")
        return str(nearest)

    def size(self, place: str, text: str, value: int) -> str:
        if text.endswith("%"):
            return f"{stoi(text[:-1])}%"
        nearest = max(0, min(value, MOST_BYTES))
        if nearest != value:
            self.tell(place, f"{value} bytes: it is written {size_text(nearest)}")
        return self.exact(nearest)

    def exact(self, count: int) -> str:
        """Formats a number of bytes. Uses a unit letter only if the result is exact."""
        found = size_text(count)
        return str(count) if "." in found else found

    def ratio(self, place: str, text: str) -> str:
        value = Decimal(repr(round(max(0.0, min(stof(text), float(MOST_RATIO))), 7)))
        found = f"{value:.3f}".rstrip("0").rstrip(".")
        if Decimal(found) != value:
            self.tell(place, f"{quoted(text)} has more than three decimals: it is written {found}")
        return found

    def patterns(self, place: str, text: str) -> str:
        """Returns patterns with `*` as the only wildcard. A pattern with other wildcards is
        replaced by one that matches more. A pattern that can't match a group of a trace is omitted.
        """
        found = []
        for pattern in split(text, ","):
            plain = "/".join(split(without_braces("/".join(split(pattern, "/"))), "/")) or "/"
            bare = re.sub(r"\\(.)", lambda it: "\0" if it[1] == "\\" else it[1], plain).replace(
                "\0", "\\"
            )
            wide = re.sub(r"\[[^]/]+\]|\?", "*", bare)
            if wide != bare:
                self.tell(
                    place,
                    (
                        f"{quoted(pattern)} has ? or [], for which * is all that there is: more"
                        " groups match"
                    ),
                )
            if is_pattern(wide):
                found.append(wide)
            else:
                self.tell(
                    place, f"{quoted(pattern)} matches no group of a trace: it is left out", False
                )
        if len(found) > MOST_PATTERNS:
            self.tell(
                place, f"there are more than {MOST_PATTERNS} patterns: the others are left out"
            )
        return ",".join(dict.fromkeys(found[:MOST_PATTERNS])) or "no-such-group"

    def losses(self, use: PluginUse, args: dict[str, str]) -> None:
        """Adds notes on differences between psi_oomd and oomd with the same arguments."""
        if use.name == "kill_by_swap_usage" and args.get("threshold", "").endswith("%"):
            self.tell(use.place, f"rules take the exact percentage, but {SWAP}")
        if use.name == "kill_by_pg_scan":
            self.tell(use.place, f"rules kill at once, and only a group that scanned, but {WAITS}")
        if use.name == "kill_by_pressure":
            self.tell(use.place, f"rules kill by the exact sum above 0, but {AT_ZERO}")
        if args.get("recursive") == "true":
            self.tell(
                use.place, f"recursive: rules kill the last group that is chosen, but {RECURSES}"
            )
        if use.args.get("dry") in ("true", "True", "1"):
            self.tell(use.place, "dry: oomd would log this kill and not do it", False)


def run(options: argparse.Namespace) -> int:
    read = read_configuration(options.file)
    engine(read, [], Machine(Extras(), TOTALS), 0)
    nearest = Nearest(read)
    return print_made(nearest.data, nearest.notes)
