"""Defines the runs that bench/effort.py measures, and writes their inputs.

Each run would reveal one kind of wasted work that contracts don't exclude. Examples are threads
that are started at each tick instead of once, a thread pool whose size differs from the requested
size, rows that are computed but not printed, patterns that are matched repeatedly, and system calls
that read one byte.
"""
from __future__ import annotations

import dataclasses
import enum
import json
import os
import subprocess


class Step(str, enum.Enum):
    """The unit of the input sizes of a run."""

    LINE = "line"
    TICK = "tick"


class Trace(enum.Enum):
    """The kind of trace that a run reads. The run's `step` says whether the size of the trace is a
    number of lines or of ticks.
    """

    NONE = "none"
    BUSY = "busy"
    SMALL = "small"
    SPREAD = "spread"
    MANY_GROUPS = "many groups"
    QUIET = "quiet"


# The arguments of `gen` for each kind of generated trace. A thousand events span about a second.
SHAPES = {
    Trace.BUSY: ("--seed", "1", "--cpus", "8", "--groups", "40"),
    Trace.SMALL: ("--seed", "1", "--cpus", "2", "--groups", "10"),
    Trace.SPREAD: ("--seed", "7", "--cpus", "64", "--groups", "10"),
    Trace.MANY_GROUPS: ("--seed", "1", "--cpus", "2", "--groups", "1000"),
}
# The default length of a tick (ns).
TICK_NS = 2 * 10**9


@dataclasses.dataclass(frozen=True)
class Run:
    """A run of a program, with inputs of two sizes. In the arguments `words`, TRACE and RULES are
    replaced by the paths of the input files, and SIZE by the size of the input.
    """

    name: str
    words: tuple[str, ...]
    trace: Trace
    sizes: tuple[int, int] = (20_000, 60_000)
    step: Step = Step.LINE
    # Whether the run must not start a thread. Only runs without threads have a constant number of
    # memory calls.
    is_alone: bool = False
    # How much the numbers of instructions and of bytes vary from run to run (percent).
    varies_percent: float = 0.0
    program: str = "psi_oomd"

    def words_for(self, size: int, room: str) -> list[str]:
        """Returns the arguments for an input of this size. The input files are in the folder
        `room`, into which `write_inputs` wrote them.
        """
        stands = {
            "TRACE": trace_path(room, self.trace, size), "RULES": rules_path(room),
            "SIZE": str(size),
        }
        return [stands.get(word, word) for word in self.words]


RULES = ("--rules", "RULES", "--interval-s", "1", "--tick-ms", "1000", "--report-s", "0")
ONE_WORKER = ("--workers", "1")
MANY_WORKERS = ("--workers", "64")
LIVE = ("--live", "/")
SHORT_TICKS = ("--tick-ms", "20", "--report-s", "0")
LONG_TICKS = ("--tick-ms", "10000", "--report-s", "0")

RUNS = (
    Run("check", ("check", "TRACE"), Trace.BUSY, is_alone=True),
    Run("stall", ("stall", "TRACE"), Trace.BUSY),
    Run("replay by one", ("replay", "TRACE", *ONE_WORKER), Trace.BUSY, is_alone=True),
    Run("replay by many", ("replay", "TRACE", *MANY_WORKERS), Trace.BUSY),
    Run("live by one", ("replay", "TRACE", *LIVE, *ONE_WORKER), Trace.BUSY, varies_percent=2),
    Run("live by many", ("replay", "TRACE", *LIVE, *MANY_WORKERS), Trace.BUSY, varies_percent=2),
    Run(
        "live at short ticks", ("replay", "TRACE", *LIVE, *MANY_WORKERS, *SHORT_TICKS), Trace.BUSY,
        varies_percent=2,
    ),
    Run(
        "live on a small machine", ("replay", "TRACE", *LIVE, *MANY_WORKERS), Trace.SMALL,
        varies_percent=2,
    ),
    Run(
        "never live", ("replay", "TRACE", "--live", "/none", *MANY_WORKERS, *SHORT_TICKS),
        Trace.SPREAD, is_alone=True,
    ),
    Run(
        "never live, long ticks",
        ("replay", "TRACE", "--live", "/none", *MANY_WORKERS, *LONG_TICKS), Trace.SPREAD,
    ),
    Run(
        "quiet", ("replay", "TRACE", *MANY_WORKERS, "--report-s", "0"), Trace.QUIET, (2_000, 6_000),
        Step.TICK,
    ),
    Run("rules", ("replay", "TRACE", *RULES, *ONE_WORKER), Trace.MANY_GROUPS, is_alone=True),
    Run("gen", ("gen", *SHAPES[Trace.BUSY], "--events", "SIZE"), Trace.NONE, is_alone=True),
    Run("stress", ("stress", *SHAPES[Trace.BUSY], "--events", "SIZE", *MANY_WORKERS), Trace.NONE),
    Run("observed", ("TRACE", "8", "/"), Trace.BUSY, varies_percent=2, program="psi_observe"),
    Run(
        "observed where it is never live", ("TRACE", "8", "/none"), Trace.BUSY, is_alone=True,
        program="psi_observe",
    ),
)


def trace_path(room: str, trace: Trace, size: int) -> str:
    return os.path.join(room, f"{trace.name.lower()}-{size}.trace")


def rules_path(room: str) -> str:
    return os.path.join(room, "rules.json")


def quiet_trace(ticks: int) -> str:
    """Returns a trace of two processors that lasts `ticks` ticks. All its events are at time 0."""
    lines = ["psitrace 1 cpus=2"]
    for cpu in (0, 1):
        lines += [f"0 fork {cpu + 1} / {cpu}", f"0 switch {cpu} {cpu + 1} idle"]
    return "\n".join([*lines, f"{ticks * TICK_NS} end", ""])


def rules() -> str:
    """Returns a rules file with sixteen rulesets that fire at each evaluation. Each ruleset has
    actions of all kinds over all groups.
    """
    detectors = [
        {
            "name": "pressure_above",
            "args": {"cgroup": "*", "resource": "io", "threshold": "0", "duration": "0"},
        },
        {"name": "exists", "args": {"cgroup": "g1*,g2*,none/*"}},
    ]
    always = {"cgroup": "g*,none*", "always_continue": "true", "post_action_delay": "0"}
    actions = [
        {"name": "kill_by_memory_size_or_growth", "args": always},
        {"name": "kill_by_swap_usage", "args": {**always, "threshold": "0"}},
        {"name": "kill_by_pressure", "args": {**always, "resource": "io"}},
        {"name": "kill_by_pg_scan", "args": always},
    ]
    ruleset = {"name": "all", "detectors": [["all", *detectors]], "actions": actions}
    return json.dumps({"rulesets": [ruleset] * 16})


def write_trace(program: str, trace: Trace, size: int, path: str) -> None:
    """Writes a trace of this kind and size to `path`. `program` is the psi_oomd that generates it.
    """
    with open(path, "w", encoding="utf-8") as file:
        if trace is Trace.QUIET:
            file.write(quiet_trace(size))
        else:
            subprocess.run([program, "gen", *SHAPES[trace], "--events", str(size)], stdout=file,
                           check=True)


def write_inputs(program: str, runs: list[Run], room: str) -> None:
    """Writes the rules file and the traces of all runs into the folder `room`."""
    with open(rules_path(room), "w", encoding="utf-8") as file:
        file.write(rules())
    for trace, size in sorted({(run.trace.value, size) for run in runs for size in run.sizes}):
        if trace != Trace.NONE.value:
            write_trace(program, Trace(trace), size, trace_path(room, Trace(trace), size))
