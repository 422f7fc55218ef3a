"""Checks that folded traces replay like the originals, for stored recordings, the examples, the
traces in examples/kernel and generated traces.
"""
from __future__ import annotations

import contextlib
import json
import os
import random
import re
import sys
import tempfile
from collections.abc import Iterator
from importlib.machinery import SourceFileLoader
from importlib.util import module_from_spec, spec_from_loader

from fold.common import (
    Settled, Wide, files_of, folded, must_print_alike, must_replay_alike, printed, text_of,
    window_of,
)
from harness import must, must_be
from shared.stored import STORED, accepted, recording, text, tool
from shared.program import TOP
from psifold.fold import Fold
from psifold.victims import victims_in
from shared.traces import MS, RUNAWAY, Maker

# The numbers of generated traces that are compared by replays and by `whatif`. The test's arguments
# may change the first number.
TRACES, WHATIFS = 300, 30
SECOND = 1000 * MS
EXAMPLES = os.path.join(TOP, "examples")
FOLDERS, TEXTS = ".tar.xz", ".ftrace.gz"
# Recordings with lost events. Only their longest interval without a loss is converted.
LOSSY = ("mixlost", "lost-2cpu")
TRIGGERS = ("--trigger=/ io some 100000 1000000", "--trigger=/ memory full 50000 500000",
            "--trigger=/ cpu some 200000 2000000")
GROUPS = "*,*/*,*/*/*"


def ruleset(resource: str, action: str, args: dict[str, str]) -> dict[str, object]:
    """Returns a ruleset that runs the action `action` at each evaluation at which a group has
    pressure of the resource.
    """
    stalls = {
        "name": "pressure_above",
        "args": {"cgroup": "/," + GROUPS, "resource": resource, "threshold": "0", "duration": "1"},
    }
    taken = {"name": action, "args": {"cgroup": GROUPS, **args}}
    return {
        "name": resource, "post_action_delay": "3", "detectors": [["stalls", stalls]],
        "actions": [taken],
    }


RULESETS = (
    ruleset("io", "kill_by_pressure", {"resource": "io"}),
    ruleset("memory", "kill_by_memory_size_or_growth", {}),
    ruleset("memory", "kill_by_pg_scan", {}),
)


@contextlib.contextmanager
def watching() -> Iterator[tuple[str, ...]]:
    """Yields the arguments of a replay whose rules kill whenever a group stalls."""
    with tempfile.NamedTemporaryFile("w", suffix=".json") as file:
        json.dump({"rulesets": RULESETS}, file)
        file.flush()
        yield "--rules", file.name, "--interval-s=1"


def names_of(suffix: str) -> list[str]:
    """Returns the names of all stored recordings whose file names have this suffix."""
    return sorted(name[: -len(suffix)] for name in os.listdir(STORED) if name.endswith(suffix))


def both_of(name: str) -> tuple[bytes, bytes]:
    """Returns the trace of a stored recording and the folded trace. Both have triggers."""
    if name in names_of(FOLDERS):
        with recording(name) as folder:
            return both_of_folder(folder, name in LOSSY)
    return both_by(["-"], name in LOSSY, text(name))


def both_of_folder(folder: str, is_lossy: bool = False) -> tuple[bytes, bytes]:
    """Returns the trace of a recording in a folder and the folded trace. Both have triggers."""
    return both_by([folder], is_lossy)


def both_by(source: list[str], is_lossy: bool, stdin: bytes = b"") -> tuple[bytes, bytes]:
    """Returns the trace that psitrace makes of a source, and the folded trace. Both have triggers.
    """
    words = [*source, *TRIGGERS, *(["--force"] if is_lossy else [])]
    plain, folded_trace = (tool("psitrace", *words, *more, stdin=stdin)
                           for more in ((), ("--fold=1",)))
    status = 3 if is_lossy else 0
    must_be(f"the statuses of {' '.join(words)}, of which was said {folded_trace.said}",
            (plain.status, folded_trace.status), (status, status))
    return plain.output, folded_trace.output


def check_recordings(program: str) -> None:
    """For each stored recording, `psitrace --fold` writes the same trace that `fold` writes for the
    unfolded trace. The folded and unfolded traces replay alike, with triggers and with rules.
    """
    signals = kills = 0
    for name in names_of(FOLDERS) + names_of(TEXTS):
        plain, folded_trace = both_of(name)
        must_be(f"{name}, by both tools", tool("fold", "-", "--window=1", stdin=plain).output,
                folded_trace)
        accepted(program, folded_trace)
        must(len(folded_trace) * 4 < len(plain),
             f"{name} is shorter: {len(plain)} bytes to {len(folded_trace)}")
        trace, other = plain.decode(), folded_trace.decode()
        with watching() as words:
            must_replay_alike(name, program, trace, other, SECOND, words)
            found = printed(program, other, "replay", "--tick-ms=1000", *words)
        signals, kills = signals + (b"event " in found), kills + (b"kill " in found)
    must(signals > 2 and kills > 2, f"there are signals ({signals}) and kills ({kills}) of some")


def check_examples_and_kernel_cases(program: str) -> None:
    """Each folded example replays like the original. The tick length is that in the trace's options
    file, or two seconds if there is no such file. The example `runaway` is replayed with its rules.
    """
    for name in [*files_of(EXAMPLES), *files_of(os.path.join(EXAMPLES, "kernel"))]:
        options = text_of(name.replace(".trace", ".opts")) if os.path.exists(
            name.replace(".trace", ".opts")
        ) else ""
        found = re.search(r"--tick-ms[= ]([0-9]+)", options)
        trace, window = text_of(name), int(found[1] if found else 2000) * MS
        other, _ = folded(trace, window)
        must_replay_alike(os.path.basename(name), program, trace, other, window,
                          RUNAWAY if "runaway" in name else ())


# ---------------------------------------------------------------- generated traces


def is_near_whole(fold: Fold) -> bool:
    """Returns whether rounding left a remainder in a sum of time. A total may then be rounded to a
    different microsecond.
    """
    return any(fold.check.shortfalls.values())


def check_generated_traces(program: str) -> None:
    """Folded traces replay like the generated originals, with rules. If rounding left no remainder,
    `stall` also prints the same times for both.
    """
    for number in range(TRACES):
        version = 1 + number % 2
        maker = Wide(number, version) if number % 25 == 0 else Maker(number, version)
        trace, window = maker.trace(), window_of(maker, number)
        other, fold = folded(trace, window)
        with watching() as words:
            must_replay_alike(f"generated trace {number}", program, trace, other, window, words)
        must(
            is_near_whole(fold)
            or printed(program, trace, "stall") == printed(program, other, "stall"),
            f"{number}: stall differs",
        )


def check_kills_that_happen(program: str) -> None:
    """`whatif` prints the same for a trace and for the folded trace, if `fold` knows all possible
    victims: the groups that the actions of the rules match.
    """
    loader = SourceFileLoader("whatif", os.path.join(TOP, "tests", "whatif", "test"))
    spec = spec_from_loader("whatif", loader)
    assert spec
    whatif = sys.modules["whatif"] = module_from_spec(spec)
    loader.exec_module(whatif)
    kills = near = 0
    for number in range(WHATIFS):
        draw = random.Random(number)
        maker = Settled(number, draw.choice((1, 1, 2)))
        trace, rules = maker.trace(), {"rulesets": whatif.some_rules(draw)}
        with tempfile.NamedTemporaryFile("w", suffix=".json") as file:
            json.dump(rules, file)
            file.flush()
            words = ("whatif", f"--rules={file.name}", f"--tick-ms={maker.tick // MS}",
                     "--report-s=1", "--interval-s=1")
            wanted = printed(program, trace, *words)
            other, fold = folded(trace, maker.tick, list(victims_in(rules)))
            must_be(f"trace {number}: when tasks came to victims or moved", fold.world.changes.last,
                    0)
            must_print_alike(f"whatif of trace {number}", wanted, printed(program, other, *words))
            near += printed(program, folded(trace, maker.tick)[0], *words) != wanted
        kills += b"kill " in wanted
    must(kills > WHATIFS // 2 and near > WHATIFS // 3,
         f"there are kills ({kills}), and it matters that victims are named ({near})")
