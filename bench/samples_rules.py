"""Defines the rules that bench/samples.py replays, and counts how often two replays agree on kills.
"""
from __future__ import annotations

import json
import re
import subprocess
from typing import NamedTuple

from psireplay.program import program_path
from sampling import SECOND


def run(*words: str) -> bytes:
    """Runs a command and returns its output. A command that fails ends the measurement."""
    return subprocess.run(words, check=True, capture_output=True).stdout


def above(resource: str, threshold: int, duration: int) -> dict[str, object]:
    args = {
        "cgroup": "*/*", "resource": resource, "threshold": str(threshold),
        "duration": str(duration),
    }
    return {"name": "pressure_above", "args": args}


def plugin(name: str, **args: str) -> dict[str, object]:
    return {"name": name, "args": args}


def rules() -> dict[str, tuple[list[dict[str, object]], dict[str, object]]]:
    """Returns eleven rules by name. A rule consists of detectors and an action."""
    size = plugin("kill_by_memory_size_or_growth", cgroup="*/*")
    memory, io = plugin("kill_by_pressure", cgroup="*/*", resource="memory"), plugin(
        "kill_by_pressure", cgroup="*/*", resource="io"
    )
    rising = plugin("pressure_rising_beyond", cgroup="*/*", resource="memory", threshold="20",
                    duration="10")
    reclaim, swap = plugin("memory_reclaim", cgroup="*/*", duration="10"), plugin(
        "swap_free", threshold_pct="90"
    )
    return {
        "memory above 10 for 10 s": ([above("memory", 10, 10)], memory),
        "memory above 40 for 10 s": ([above("memory", 40, 10)], memory),
        "memory above 60 for 10 s": ([above("memory", 60, 10)], size),
        "memory above 60 for 30 s": ([above("memory", 60, 30)], memory),
        "memory above 20 for 30 s and reclaim": ([above("memory", 20, 30), reclaim], size),
        "memory rising beyond 20 for 10 s": ([rising], memory),
        "io above 10 for 10 s": ([above("io", 10, 10)], io),
        "io above 30 for 10 s": ([above("io", 30, 10)], io),
        "swap free below 90 and memory above 10": (
            [swap, above("memory", 10, 10)], plugin("kill_by_swap_usage", cgroup="*/*")
        ),
        "memory above 20 for 10 s, by scans": (
            [above("memory", 20, 10)], plugin("kill_by_pg_scan", cgroup="*/*")
        ),
        "memory above 20 for 10 s, by size": ([above("memory", 20, 10)], size),
    }


def rules_file() -> str:
    """Returns a rules file with a ruleset for each of the eleven rules. No ruleset has a delay
    after kills.
    """
    found = [
        {
            "name": name, "post_action_delay": "0", "detectors": [["it", *detectors]],
            "actions": [action],
        }
        for name, (detectors, action) in rules().items()
    ]
    return json.dumps({"rulesets": found})


def kills_of(trace: str, file: str, *words: str) -> dict[tuple[int, int], str]:
    """Returns the victims of a replay, keyed by the ruleset's index and the evaluation's number.
    Evaluations are 5 s apart.
    """
    printed = run(
        program_path(), "replay", f"--rules={file}", "--report-s=0", *words, "--", trace
    ).decode()
    kills = re.findall(r"^kill (\d+) ruleset=(\d+) action=0 (\S+)$", printed, re.MULTILINE)
    return {(int(ruleset), int(at) // SECOND // 5): path for at, ruleset, path in kills}


class Agreement(NamedTuple):
    """How well two traces agree on a rule. `both`, `either` and `same` count the evaluations at
    which the rule fires on both traces, on at least one, and on both with the same victim. `first`
    counts first kills on the first trace; `near` and `far` count those within 6 s and 20 s of the
    first kill on the other trace.
    """

    both: int = 0
    either: int = 0
    same: int = 0
    first: int = 0
    near: int = 0
    far: int = 0

    def plus(self, one: dict[int, str], other: dict[int, str]) -> Agreement:
        """Returns the agreement including one more machine. `one` and `other` are this machine's
        victims on the two traces, keyed by the number of the evaluation.
        """
        both = one.keys() & other.keys()
        apart = 5 * abs(min(one) - min(other)) if one and other else None
        return Agreement(
            self.both + len(both), self.either + len(one.keys() | other.keys()),
            self.same + sum(one[it] == other[it] for it in both),
            self.first + bool(one), self.near + (apart is not None and apart <= 6),
            self.far + (apart is not None and apart <= 20),
        )  # fmt: skip

    def cell(self) -> str:
        return (
            f"{100 * self.both / max(1, self.either):.1f} % / "
            f"{100 * self.same / max(1, self.both):.1f} %"
        )


def by_rule(kills: dict[tuple[int, int], str], rule: int) -> dict[int, str]:
    return {at: path for (ruleset, at), path in kills.items() if ruleset == rule}
