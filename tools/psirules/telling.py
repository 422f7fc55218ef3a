"""Prints the outcomes of checks as lines for people, as TAP (version 13) for test harnesses, or as
JSON.
"""
import json
import sys
from collections.abc import Callable
from dataclasses import dataclass
from enum import Enum

from psicli.status import Status


class Form(Enum):
    LINES = "lines"
    TAP = "tap"
    JSON = "json"


@dataclass(frozen=True)
class Outcome:
    """The outcome of a check: its name, whether it passed (None if it couldn't be run), and the
    reason.
    """

    name: str
    is_ok: bool | None
    message: str


def status_of(outcomes: list[Outcome]) -> int:
    """Returns the exit status. FAILED, for a check that couldn't be run, has priority over FOUND,
    for a check that failed.
    """
    if any(outcome.is_ok is None for outcome in outcomes):
        return Status.FAILED
    return Status.DONE if all(outcome.is_ok for outcome in outcomes) else Status.FOUND


def tell_json(value: object) -> None:
    json.dump(value, sys.stdout, indent=1)
    print()


def tell_tap(outcomes: list[Outcome]) -> None:
    """Prints outcomes as TAP: a plan, and a line for each outcome, followed by its message in YAML.
    """
    print(f"TAP version 13\n1..{len(outcomes)}")
    for number, outcome in enumerate(outcomes, 1):
        name = outcome.name.replace("\\", "\\\\").replace("#", "\\#")
        print(f"{'ok' if outcome.is_ok else 'not ok'} {number} - {name}")
        print(f"  ---\n  message: {json.dumps(outcome.message)}\n  ...")


def tell(
    form: Form,
    outcomes: list[Outcome],
    record: Callable[[int], object],
    tell_lines: Callable[[], None],
) -> int:
    """Prints outcomes in the requested form, and returns the exit status. `record` returns the JSON
    value for a status, and `tell_lines` prints lines for people.
    """
    status = status_of(outcomes)
    if form is Form.JSON:
        tell_json(record(status))
    elif form is Form.TAP:
        tell_tap(outcomes)
    else:
        tell_lines()
    return status
