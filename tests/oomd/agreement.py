"""Compares the emulation's kills with stored kills and with the kills of oomd itself. They must be
equal, except that groups of equal rank may be exchanged.
"""
from __future__ import annotations

import glob
import gzip
import json
import os
import random
import tempfile
from collections.abc import Iterator

from harness import must, must_be
from shared.program import TOP
from shared.rooms import Room
from shared.stored import recording, tool
from oomd import random_cases
from oomd.both import emulated, has_oomd, must_agree, must_be_stored, ran, run_of
from oomd.experiments import CRASH, FOUND
from oomd.stories import ALWAYS, GROWTH, SWAP, Config, plugin, rules, written
from psioomd.emulation import Run

CASES, SHARES = 300, 6
INTERVALS = (1, 5)
EXAMPLES = ("detectors", "actions", "low-memory", "runaway", "services", "systemd-oomd")
RECORDINGS = ("mix-2", "mem-2", "cg-2", "exec-2", "threads", "wakeups")
TEXTS = ("fs-2cpu", "names-2cpu")


def check_the_stored_answers(room: Room) -> None:
    must_be("how many experiments", len(FOUND), 58)
    for it in FOUND:
        must_be_stored(it.name, emulated(run_of(room, it)), it.oomd)


def check_that_rules_differ_where_stored(room: Room) -> None:
    """For the files of each experiment, psi_oomd has the stored kills, or rejects the configuration
    if the experiment says `refused`. psi_oomd's result differs from oomd's in 39 experiments.
    """
    for it in FOUND:
        run = run_of(room, it)
        words = (run.trace, "--rules", run.config, "--tick-ms", "1000", "--interval-s",
                 str(it.interval))
        done = room.run("psi_oomd", "replay", *words, "--report-s", "0")
        if it.rules == "refused":
            must_be(f"{it.name}: the status", done.status, 3)
            continue
        kills = [it_.split() for it_ in done.output.splitlines() if it_.startswith("kill ")]
        found = [
            f"{int(at) / 10**9:g}s:{path}{who(ruleset, action)}"
            for _, at, ruleset, action, path in kills
        ]
        must_be(f"{it.name}: psi_oomd's kills", " ".join(found) or "none", it.rules)
    must_be("how many differ", sum(it.oomd != it.rules for it in FOUND), 39)


def who(ruleset: str, action: str) -> str:
    text = f"r{ruleset.partition('=')[2]}a{action.partition('=')[2]}"
    return "" if text == "r0a0" else f"({text})"


def check_oomd_on_the_experiments(room: Room) -> None:
    for it in FOUND if has_oomd() else ():
        run = run_of(room, it)
        found, own = ran(run), emulated(run)
        if it.oomd == CRASH:
            must("oomd ended at 1 s, by SIGSEGV" in found.fault, f"{it.name}: {found.fault}")
            continue
        must_be(f"{it.name}: how it ended", found.fault, "")
        must_agree(it.name, own, found.kills)


def watching(action: str, cgroup: str, **more: object) -> Config:
    """Returns a configuration whose action, for the groups that match `cgroup`, is `action`. It
    kills early in each recording.
    """
    resource = {"resource": "memory"} if action == "kill_by_pressure" else {}
    detectors = [
        plugin("pressure_above", "*,*/*", resource="memory", threshold=1, duration=2),
        plugin("memory_reclaim", "*,*/*", duration=10),
    ]
    return rules(detectors, plugin(action, cgroup, **resource, **more, post_action_delay=3))


def some_rules() -> dict[str, str]:
    """Returns configurations by name: Debian's default configuration, and others that cover all
    kinds of kill, a recursive kill, pressure of IO, and kills without a condition.
    """
    actions = (GROWTH, SWAP, "kill_by_pressure", "kill_by_pg_scan")
    found = {it: written(watching(it, "*/*,*/*/*")) for it in actions}
    found["down"] = written(watching(GROWTH, "*", recursive="true"))
    io = plugin("pressure_above", "/", resource="io", threshold=5, duration=2)
    found["io"] = written(
        rules([io], plugin("kill_by_pressure", "*", resource="io", post_action_delay=5))
    )
    found["always"] = written(
        rules(ALWAYS, plugin(GROWTH, "*,*/*", size_threshold=70, post_action_delay=2))
    )
    with open(os.path.join(TOP, "tests/oomd/oomd.json"), encoding="utf-8") as file:
        found["debian"] = file.read()
    return found


def must_agree_on(what: str, trace: str, config: str, warm: int = 0) -> int:
    """Runs the emulation and oomd itself with each interval (s) of INTERVALS between evaluations,
    and raises if their kills differ. Returns the number of kills.
    """
    count = 0
    for interval in INTERVALS:
        run = Run(trace, config, (), interval, warm=warm)
        found = ran(run)
        must_be(f"{what}: how it ended", found.fault, "")
        must_agree(f"{what}, each {interval} s", emulated(run), found.kills)
        count += len(found.kills)
    return count


def check_examples(room: Room) -> None:
    if not has_oomd():
        return
    count = 0
    for trace in sorted(glob.glob(os.path.join(TOP, "examples/*.trace"))):
        if os.path.basename(trace) == "refused.trace":
            continue
        for name in EXAMPLES:
            config = os.path.join(TOP, "examples", f"{name}.json")
            count += must_agree_on(f"{os.path.basename(trace)} by {name}", trace, config)
    must(count >= 40, f"the examples have {count} kills")


def traces(room: Room) -> Iterator[tuple[str, str]]:
    """Yields the name and the trace of each stored recording."""
    for name in RECORDINGS:
        with recording(name) as folder:
            done = tool("psitrace", folder, program=room.program)
            must_be(f"psitrace of {name}, which said {done.said}", done.status, 0)
            yield name, room.file(f"{name}.trace", done.output)
    for name in TEXTS:
        with gzip.open(os.path.join(TOP, f"tests/data/{name}.ftrace.gz")) as file:
            imported = room.run("psi_oomd", "import", "-", "--cpus", "2", stdin=file.read())
        must_be(f"import of {name}, which said {imported.error}", imported.status, 0)
        yield name, room.file(f"{name}.trace", imported.output)
    yield "debian-2cpu", os.path.join(TOP, "examples/real/debian-2cpu.trace")


def check_recordings(room: Room) -> None:
    if not has_oomd():
        return
    count = 0
    configs = {name: room.file(f"{name}.json", text) for name, text in some_rules().items()}
    for name, trace in traces(room):
        for rules_name, config in configs.items():
            paths = os.path.join(room.path, trace), os.path.join(room.path, config)
            count += must_agree_on(f"{name} by {rules_name}", *paths)
    must(count >= 50, f"the recordings have {count} kills")


def random_run(folder: str, seed: int) -> Run:
    """Writes the trace and the configuration of a random case. Returns the arguments of its run."""
    draw = random.Random(seed)
    texts = (
        random_cases.Load(draw, draw.choice((15, 30, 60))).text(),
        json.dumps(random_cases.some_config(draw)),
    )
    names = [os.path.join(folder, f"{seed}.{it}") for it in ("trace", "json")]
    for name, text in zip(names, texts):
        with open(name, "w", encoding="utf-8") as file:
            file.write(text)
    interval, warm = draw.choice((1, 1, 2, 5)), draw.choice((0, 0, 0, 10))
    return Run(names[0], names[1], (), interval, warm=warm)


def random_share(share: int) -> None:
    """Compares the emulation with oomd on the random cases whose seed is `share` modulo SHARES, if
    oomd is installed. Each share is a check of its own, so the shares can run in parallel.
    """
    if not has_oomd():
        return
    kills = 0
    with tempfile.TemporaryDirectory() as folder:
        for seed in range(share, CASES, SHARES):
            run = random_run(folder, seed)
            own, found = emulated(run), ran(run)
            must_be(f"case {seed}: how it ended", found.fault, "")
            must_agree(f"case {seed}", own, found.kills)
            kills += len(found.kills)
    must(kills > 100, f"there were {kills} kills")


def check_random_cases_0(_: Room) -> None:
    random_share(0)


def check_random_cases_1(_: Room) -> None:
    random_share(1)


def check_random_cases_2(_: Room) -> None:
    random_share(2)


def check_random_cases_3(_: Room) -> None:
    random_share(3)


def check_random_cases_4(_: Room) -> None:
    random_share(4)


def check_random_cases_5(_: Room) -> None:
    random_share(5)
