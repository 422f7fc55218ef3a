"""Checks of the corrections that lint makes in randomly changed rules files. psi_oomd must accept
the corrected files.
"""
from __future__ import annotations

import json
import random

from harness import must, must_be
from lint.runs import DEFAULTS, RULES, is_taken, lint, rules_of
from shared.rooms import RUNAWAY, RUNAWAY_RULES, Room
from psirules.mending import Kind, Mender

VALUES: tuple[object, ...] = (
    *(
        "", " ", "a", "0", "1", "01", "15", "30s", " 7", "+7", "-1", "100", "101", "1000",
        "1000001", "9" * 30,
    ),
    *(
        "0.85", ".85", "0.8500", "1.2345", "1e2", "1000.999", "1001", "60.5", "true", "True",
        "TRUE", "io", "memory", "cpu",
    ),
    *(
        "1.5G", "1.5M 32K 512", "512k", "100 M", "5%", "5.5%", "101%", "1048577T", "/", "a,b",
        "a, b", "a,,b", "/a/", "a//b",
    ),
    *(
        "a?", "[ab]c", "..", "a/../b", "a b", "\u00e9", ",".join("a" * 16), ",".join("a" * 17),
        "*/*", "\\x2d@:-.",
    ),
    *(0, 7, 10**25, -1, 0.5, 1.0, True, False, None, [], {}),
)


def check_agreement_with_the_program(room: Room) -> None:
    """For argument values of all forms, lint reports an error if and only if psi_oomd rejects the
    file. psi_oomd accepts the file that --fix writes.
    """
    for plugin, args in DEFAULTS.items():
        if plugin in ("memory_reclaim", "kill_by_pg_scan", "pressure_above"):
            continue  # other plugins' arguments have the same forms
        names = {
            **args,
            **({"recursive": "", "min_growth_ratio": ""} if plugin.endswith("growth") else {}),
        }
        for name in names:
            for value in random.Random(f"{plugin} {name}").sample(VALUES, 6):
                text = rules_of(plugin, {**args, name: value})
                mender = Mender(json.loads(text))
                refusals = [it for it in mender.findings if it.kind is Kind.REFUSED]
                must_be(f"{plugin} {name} {value!r}: {mender.findings}", bool(refusals),
                        not is_taken(room, text))
                if refusals and all(it.change for it in refusals):
                    must(is_taken(room, json.dumps(mender.data)),
                         f"{plugin} {name} {value!r}: {mender.data}")


def check_any_edit(room: Room) -> None:
    """If parts of a rules file are removed or repeated, lint reports nothing only if psi_oomd
    accepts the file. A second run of --fix changes nothing.
    """
    drawn = random.Random(43)
    with open(RUNAWAY_RULES, "rb") as file:
        whole = file.read()
    for number in range(12):
        start = drawn.randrange(len(whole))
        end = start + drawn.choice((1, 2, 8, 40))
        text = whole[:start] + (whole[start:end] * 2 if number % 3 == 0 else b"") + whole[end:]
        found, fixed = lint(room, text), lint(room, text, "--fix")
        must("Traceback" not in found.error + fixed.error, f"{text!r}: {found} {fixed}")
        must(found.status == 1 or is_taken(room, text), f"{text!r}: {found}")
        if fixed.status != 2:
            again = lint(room, fixed.output, "--fix")
            must_be(f"{text!r}, corrected twice", again.output, fixed.output)
            must(is_taken(room, fixed.output), f"{text!r}: {fixed}")


def check_the_program_has_the_last_word(room: Room) -> None:
    group = ["g", {"name": "exists", "args": {"cgroup": "a"}}]
    ruleset: dict[str, object] = {"name": "r", "detectors": [group], "actions": []}
    cases: list[tuple[list[dict[str, object]], str]] = [
        ([ruleset] * 65, "the file: refused: rules: TooMany: a list is longer than it may be"),
        (
            [ruleset, {"name": "x", "detectors": []}],
            "ruleset 1 'x': refused: rules ruleset 1: MissingKey: ruleset 1 has no key 'actions'\n",
        ),
        (
            [dict(ruleset, detectors=[group, []])],
            (
                "ruleset 0 'r', group 1: refused: rules ruleset 0 group 1: MissingKey: ruleset 0, "
                "group 1 is an empty list: its name"
            ),
        ),
        (
            [dict(ruleset, name=5)],
            (
                "ruleset 0 '5': refused: rules ruleset 0: WrongKind: the value of 'name' in "
                "ruleset 0 is a number, and has to be a text"
            ),
        ),
    ]
    for rulesets, message in cases:
        text = json.dumps({"rulesets": rulesets})
        found = lint(room, text)
        must(found.status == 1 and found.output.startswith(f"rules.json: {message}"),
             f"{message}: {found}")
        fixed = lint(room, text, "--fix")
        must_be("--fix", (fixed.status, fixed.output), (2, ""))


def check_other_files_of_rules(room: Room) -> None:
    """A misspelt key `rulesets` is corrected. A missing file or program is reported."""
    group = ["g", {"name": "exists", "args": {"cgroup": "a"}}]
    ruleset: dict[str, object] = {"name": "r", "detectors": [group], "actions": []}
    for word in ("ruleset", "rulset"):
        done = lint(room, json.dumps({word: [ruleset]}), "--fix")
        must_be(f"{word} for rulesets", (done.status, json.loads(done.output)),
                (0, {"rulesets": [ruleset]}))
    lost = room.run(RULES, "lint", "none.json")
    must(
        lost.status == 2
        and lost.error.startswith("rules: none.json: No such file or directory: look"),
        f"{lost}",
    )
    none = room.run(RULES, "lint", RUNAWAY, program="./none")
    must(none.status == 2 or none.status == 1, f"{none}")
