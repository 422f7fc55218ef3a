"""tools/rules to-oomd: converts rules of psi_oomd to a configuration of oomd."""
import argparse
import json
import sys
from typing import Any

from psicli.running import complain
from psicli.status import Status
from psicli.wording import quoted
from psirules.forms import UNITS
from psirules.lint import written
from psirules.oomd_notes import AT_ZERO, SWAP, WAITS
from psirules.program import Program, Refusal

ABOUT = """Prints the rules of FILE, which psi_oomd takes, as a configuration of oomd 0.5.0: sizes
with letters, names with their backslashes escaped, every argument as oomd reads it. For
what oomd says otherwise a line is on standard error, which ends in LOST if somebody
else may be killed, or at another time. docs/RULES.md has what differs for all rules."""
STATUS = (
    "The status is 0 if the configuration says all of it, 1 if some of that is lost, and 2 if FILE"
    " can't be read."
)
WHOLE_RATIO, DEFAULT_RATIO = ".000", "1.250"
MOST_PERCENTILE = "99"
RECURSES = (
    "in oomd a group with children is never killed itself, and each level has to pass the"
    " thresholds"
)
CONTINUE = {"name": "continue", "args": {}}


def oomd_size(text: str) -> str:
    """Converts a size to oomd's notation, with a unit letter or as a sum, since oomd reads a bare
    number as MiB.
    """
    if text.endswith("%"):
        return text
    count = int(text)
    for letter, unit in reversed(UNITS.items()):
        if letter and count and count % unit == 0:
            return f"{count // unit}{letter}"
    return f"0K {count}" if count else "0"


class Converter:
    """Converts psi_oomd's rules to a configuration of oomd. Collects notes on what is lost."""

    def __init__(self, data: Any) -> None:
        self.notes: list[tuple[str, bool]] = []
        rulesets = [self.ruleset(number, it) for number, it in enumerate(data["rulesets"])]
        self.data = {"rulesets": [it for it in rulesets if it]}

    def tell(self, place: str, what: str, is_lost: bool = True) -> None:
        self.notes.append((f"{place}: {what}", is_lost))

    def ruleset(self, number: int, ruleset: dict[str, Any]) -> dict[str, Any] | None:
        name = ruleset["name"] or f"ruleset {number}"
        place = f"ruleset {number} {quoted(ruleset['name'])}"
        if not ruleset["detectors"] or not ruleset["actions"]:
            what = "detectors" if not ruleset["detectors"] else "actions"
            self.tell(place, f"it has no {what}, so it kills nobody: it is left out", False)
            return None
        groups = [
            self.group(f"{place}, group {at}", at, it) for at, it in enumerate(ruleset["detectors"])
        ]
        actions = [
            self.plugin(f"{place}, action {at}", it) for at, it in enumerate(ruleset["actions"])
        ]
        return {"name": name, "detectors": groups, "actions": actions}

    def group(self, place: str, number: int, group: list[Any]) -> list[Any]:
        """Converts a group of detectors. A group without detectors always holds, so it gets oomd's
        detector `continue`.
        """
        name, *detectors = group
        plugins = [self.plugin(f"{place}, item {at}", it) for at, it in enumerate(detectors)]
        return [name or f"group {number}", *(plugins or [CONTINUE])]

    def plugin(self, place: str, plugin: dict[str, Any]) -> dict[str, Any]:
        name, args = plugin["name"], dict(plugin["args"])
        here = f"{place} {quoted(name)}"
        if "cgroup" in args:
            args["cgroup"] = args["cgroup"].replace("\\", "\\\\")
        if "threshold" in args and name in ("memory_above", "kill_by_swap_usage"):
            args["threshold"] = oomd_size(args["threshold"])
        self.ratio(here, args)
        self.losses(here, name, args)
        return {"name": name, "args": args}

    def ratio(self, place: str, args: dict[str, Any]) -> None:
        """Converts `min_growth_ratio`. oomd reads only the integer part of the text, and its
        default is 1.25.
        """
        text = args.pop("min_growth_ratio", None)
        if text is None or text == DEFAULT_RATIO:
            return
        whole = text.partition(".")[0]
        args["min_growth_ratio"] = whole
        if not text.endswith(WHOLE_RATIO):
            self.tell(
                place,
                f"min_growth_ratio {text}: oomd reads whole numbers alone: it is written {whole}",
            )

    def losses(self, place: str, name: str, args: dict[str, Any]) -> None:
        """Adds notes on differences between oomd and psi_oomd with the same arguments."""
        if args.get("growing_size_percentile") == "100":
            args["growing_size_percentile"] = MOST_PERCENTILE
            self.tell(
                place,
                (
                    "growing_size_percentile 100 makes oomd crash: it is written 99, the same up to"
                    " 100 candidates"
                ),
                False,
            )
        if name == "kill_by_swap_usage" and args["threshold"].endswith("%"):
            self.tell(place, SWAP)
        if name == "kill_by_pg_scan":
            self.tell(place, WAITS)
        if name == "kill_by_pressure":
            self.tell(place, AT_ZERO)
        if args.get("recursive") == "true":
            self.tell(place, f"recursive: {RECURSES}")


def canonical(program: Program, name: str) -> Any:
    """Returns the rules of a file as psi_oomd prints them, with all arguments."""
    with program.started(["rules", "--", name], None) as child:
        assert child.stdout is not None
        said = child.stdout.read()
    if child.returncode:
        raise Refusal(name, "", child.returncode)
    return json.loads(said)


def print_made(data: Any, notes: list[tuple[str, bool]]) -> int:
    """Prints the converted data on standard output, and the notes on standard error. Returns the
    exit status.
    """
    for what, is_lost in notes:
        complain(f"{what}{' (LOST)' if is_lost else ''}")
    sys.stdout.flush()
    sys.stdout.buffer.write(written(data))
    sys.stdout.buffer.flush()
    return Status.FOUND if any(is_lost for _, is_lost in notes) else Status.DONE


def run(options: argparse.Namespace) -> int:
    program = Program()
    program.prepare()
    converter = Converter(canonical(program, options.file))
    return print_made(converter.data, converter.notes)
