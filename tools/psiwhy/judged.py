"""Evaluates a rules file on a trace. Finds the kills, the times at which detectors were true, and
how near detectors came to their thresholds.
"""
from __future__ import annotations

import json
import tempfile
from typing import Any, NamedTuple, Optional

from psicli.times import SECOND
from psireplay.rules import Rules
from psireplay.runs import Done, Runs

from .nearness import Watch, watch
from .truths import ALWAYS, Truths, truths

# The program's defaults for the length of a tick (ms) and the interval of evaluations (s).
TICK_MS, INTERVAL_S = 2000, 5


class Asked(NamedTuple):
    """A trace and a rules file to evaluate. `tick_ms` is the length of a tick, and `interval_s` the
    interval of evaluations; None selects the program's default.
    """

    trace: str
    rules: str
    drop_in: Optional[str] = None
    tick_ms: Optional[int] = None
    interval_s: Optional[int] = None

    @property
    def pace(self) -> list[str]:
        """The options for `psi_oomd replay` that set the tick and the interval."""
        options = (("--tick-ms", self.tick_ms), ("--interval-s", self.interval_s))
        return [f"{name}={value}" for name, value in options if value is not None]

    def is_due(self, tick: int) -> bool:
        """Whether the rules are evaluated at the tick that ends at `tick` (ns)."""
        length = (self.tick_ms or TICK_MS) * SECOND // 1000
        interval = (self.interval_s or INTERVAL_S) * SECOND
        return tick // interval > (tick - length) // interval


class Judged(NamedTuple):
    """The results of evaluating rules on a trace. `run` is the replay, and `json` has the rulesets
    as the program parsed them. `asked` has the runs that determined when detectors were true.
    `watches` says how near each detector came to its threshold, keyed by the numbers of the
    ruleset, the group and the detector. `host` is the machine's memory (bytes).
    """

    of: Asked
    run: Done
    json: list[dict[str, Any]]
    rules: Rules
    asked: list[Done]
    truths: Truths
    watches: dict[tuple[int, int, int], Watch]
    host: Optional[int]

    @property
    def evaluations(self) -> list[int]:
        return self.truths[ALWAYS]


def read_rules(runs: Runs, asked: Asked) -> tuple[list[dict[str, Any]], Rules]:
    """Returns the rules as the program parsed them, with the drop-in file applied."""
    words = [f"--drop-in={asked.drop_in}"] if asked.drop_in is not None else []
    text = runs.program("rules", *words, "--", asked.rules).text()
    with tempfile.NamedTemporaryFile("w", suffix=".json", encoding="utf-8") as file:
        file.write(text)
        file.flush()
        rules = Rules(file.name)
    rules.name = asked.rules
    return json.loads(text)["rulesets"], rules


def judge(runs: Runs, asked: Asked, run: Done) -> Judged:
    """Finds when each detector of the rules was true in a trace, and how near it came to its
    threshold. `run` is a replay of the trace that prints a report at each evaluation.
    """
    values, rules = read_rules(runs, asked)
    before = len(runs.done)
    found = truths(runs, values, asked.trace, asked.pace)
    watches = {
        (number, place, which): Watch(detector)
        for number, ruleset in enumerate(values)
        for place, group in enumerate(ruleset["detectors"])
        for which, detector in enumerate(group[1:])
    }
    host = watch(run.lines(), asked.trace, found[ALWAYS], list(watches.values()))
    return Judged(asked, run, values, rules, runs.done[before:], found, watches, host)
