"""Determines which rules can be evaluated on traces that were made from samples, and how reliable
the results are.
"""
from __future__ import annotations

import math
from collections.abc import Iterable, Iterator
from typing import Any

from psicli.fault import Fault
from psicli.times import SECOND
from psireplay.sampled import Sampled, sampled

# The plugins that need counts of scanned pages in a trace.
OF_SCANS = ("memory_reclaim", "kill_by_pg_scan")
# The time constant (s) of the 10 s average: after a full stall of PERIOD seconds the average is 63
# percent. `ABOVE` has the plugins with a pressure threshold.
PERIOD = 10.0
ABOVE = ("pressure_above", "pressure_rising_beyond")


def must_have_scans(trace: str, plugins: Iterable[str], name: str) -> None:
    """Raises a Fault if one of the plugins needs counts of scanned pages, and the trace was made
    from samples without them. `name` is the rules file of the plugins.
    """
    found = next((it for it in plugins if it in OF_SCANS), None)
    mark = sampled(trace) if found else None
    if mark and not mark.has_scans:
        raise Fault(
            f"{trace} was made of samples without counts of scanned pages, and {found} of"
            f" {name} needs them"
        )


def must_judge(trace: str, rules: Any, name: str) -> None:
    """Raises a Fault if a rule needs counts of scanned pages, and the trace was made from samples
    without them. `rules` is the parsed data of the rules file `name`.
    """
    for ruleset in rules["rulesets"]:
        plugins = [it for group in ruleset["detectors"] for it in group[1:]] + ruleset["actions"]
        must_have_scans(trace, (it["name"] for it in plugins), name)


def note(trace: str) -> str:
    """Returns the text that follows a result: the interval of the trace's samples. Returns an empty
    string if the trace wasn't made from samples.
    """
    mark = sampled(trace)
    return f" ({mark.interval()})" if mark else ""


def least_stall(mark: Sampled, threshold: float, duration: float) -> float:
    """Returns the length (s) of the shortest full stall that surely keeps the 10 s average above
    `threshold` (percent) for `duration` (s). It is the time until the average exceeds the
    threshold, plus the duration, plus two intervals between the samples of a trace with the mark
    `mark`.
    """
    rise = PERIOD * math.log(100 / (100 - min(threshold, 99.0)))
    return duration + rise + 2 * mark.every / SECOND


def thresholds(rules: Any) -> Iterator[tuple[float, float]]:
    """Yields the threshold (percent) and the duration (s) of each pressure detector in a rules
    file.
    """
    for ruleset in rules["rulesets"]:
        for group in ruleset["detectors"]:
            for detector in group[1:]:
                if detector["name"] in ABOVE:
                    yield float(detector["args"]["threshold"]), float(detector["args"]["duration"])


def promise(trace: str, rules: Any) -> str | None:
    """Returns a sentence that states the shortest stall that these rules surely detect in a trace
    of samples. Returns None for other traces, and for rules without pressure detectors.
    """
    mark, found = sampled(trace), list(thresholds(rules))
    if not mark or not found:
        return None
    least = max(least_stall(mark, *it) for it in found)
    return (
        f"{trace} was made of {mark.interval()}: these rules are sure to see full stalls of"
        f" {least:.0f} s and more"
    )
