"""Checks of lead-ins, the warm-up periods that are generated before a recording: the generated
tasks' shares of time, and the averages at the recording's start.
"""
from __future__ import annotations

import os
import re
import subprocess
import tempfile

from harness import must, must_be
from shared.stored import accepted, compared, converted, recording

from psicompare.clocks import Clocks  # noqa: E402
from psiconvert.lead_in import (  # noqa: E402
    FACTORS, TICK, LeadIn, Shares, Stage, averages_in, stretches_of, timeline,
)
from psiworld.groups import Groups  # noqa: E402
from psiworld.world import World  # noqa: E402

LEAD = 720
# The largest allowed error of an average at the recording's start (percentage points), by the
# average's period (s). Averages change by that much within a tick, and the machine's readings and
# the replay's reports are at different times in the tick.
NEAR = {10: 5.0, 60: 2.0, 300: 0.6}


def check_stretches(_: str) -> None:
    """The generator finds pressures from 0 to 100 % that lead to the wanted averages, if averages
    are computed with the kernel's factors.
    """
    for wanted in ((12.5, 30.0, 22.2), (50.0, 20.0, 10.0), (5.0, 5.0, 5.0), (0.0, 0.0, 0.0)):
        stretches = stretches_of(wanted, LEAD // 2)
        averages = [0.0] * 3
        for tick in range(LEAD // 2):
            share = stretches[0 if tick < 300 else 1 if tick < 350 else 2]
            averages = [
                it * factor + share * (1 - factor) for it, factor in zip(averages, FACTORS.values())
            ]
        must(all(abs(one - other) < 0.05 for one, other in zip(averages, wanted)),
             f"{averages}, not {wanted}, by {stretches}")
        must(all(0 <= it <= 100 for it in stretches), f"{stretches} are shares")


def check_what_a_stage_shows(_: str) -> None:
    """A group's generated tasks stall for the wanted shares of time. The stalls are for IO, for
    memory and for the processor, some and full, alone and combined.
    """
    for shares in (
        Shares(0, 0, 0, 0, 0, 0), Shares(40, 10, 0, 0, 0, 0), Shares(30, 30, 0, 0, 20, 5),
        Shares(0, 0, 50, 20, 0, 0),
        Shares(0, 0, 50, 50, 60, 60), Shares(60, 25, 45, 35, 70, 30),
        Shares(100, 100, 100, 100, 0, 0),
        Shares(10, 0, 80, 75, 100, 50), Shares(25, 20, 60, 10, 30, 30),
    ):  # fmt: skip
        world = World(1, Groups())
        world.make_group("/a")
        stage = Stage(world, "/a", 0, 100)
        for at, status in timeline(shares):
            world.now = int(at * TICK / 100)
            stage.show(status)
        world.now = TICK
        stage.end()
        clocks = Clocks([*world.lines, f"{world.now} end"])
        (times,) = clocks.times(1, [0, TICK])
        must_be(f"the shares of {shares}", [it * 100 / TICK for it in times[0]], [*shares, 100])
        must_be("tasks at its end", (world.tasks, world.mended), ({}, {}))


def check_groups_above(_: str) -> None:
    """A parent group has its own pressure, which may be lower or higher than that of its children.
    """
    flat = {key: (30.0, 30.0, 30.0) for key in (("io", "some"), ("io", "full"))}
    for above in (10.0, 29.0, 45.0):
        world = World(2, Groups())
        world.make_group("/a/b")
        wanted = {"/a/b": flat, "/a": {key: (above, above, above) for key in flat}}
        LeadIn(world, wanted, LEAD // 2, 64).play()
        clocks = Clocks([*world.lines, f"{world.now} end"])
        for path, share in (("/a", above), ("/a/b", 30.0)):
            number = clocks.number_at(path, 0) or 0
            each = [times[0] for times in clocks.times(number, [700 * TICK // 2, LEAD * TICK // 2])]
            mean = sum(it[0] for it in each) / sum(it[6] for it in each) * 100
            must(abs(mean - share) < 1.5, f"{path} beside {above}: {mean:.2f} %, not {share}")


def printed_averages(program: str, trace: str) -> dict[tuple[str, str, str], tuple[float, ...]]:
    """Returns the averages in the report at the recording's start, by path, resource and level."""
    out = subprocess.run(
        [program, "replay", trace, "--report-s", "2"], capture_output=True, text=True, check=True
    ).stdout
    found = {}
    for path, resource, some, full in re.findall(
        rf"^report {LEAD}000000000 (\S+) (\w+)\nsome (.*)\nfull (.*)$", out, re.MULTILINE
    ):
        for level, line in (("some", some), ("full", full)):
            found[path, resource, level] = tuple(
                float(it) for it in re.findall(r"avg\d+=([\d.]+)", line)
            )
    return found


def check_how_recordings_begin(program: str) -> None:
    """With a lead-in, the averages at the recording's start are those of the machine's pressure
    files instead of 0. The recording's totals don't change, and the summary says when the recording
    begins.
    """
    for name in ("threads", "mem-2"):
        with recording(name) as folder, tempfile.NamedTemporaryFile(suffix=".trace") as file:
            done = converted(folder, "--lead-in", "12min")
            must(
                "psitrace: the recording begins at 720.000 s: what is before is made up"
                in done.said,
                done.said,
            )
            must(
                "averages begin at 0" not in done.said
                and accepted(program, done.output).startswith("ok "),
                done.said,
            )
            file.write(done.output)
            file.flush()
            found, tried = printed_averages(program, file.name), 0
            with open(os.path.join(folder, "pressure"), encoding="utf-8") as pressure:
                machine = averages_in(pressure.read(), 0)
            for path, averages in machine.items():
                for (resource, level), wanted in averages.items():
                    if (path, resource, level) not in found:
                        continue  # the group was created between the start and the first reading
                    for period, one, other in zip(NEAR, found[path, resource, level], wanted):
                        tried += 1
                        must(abs(one - other) <= NEAR[period],
                             f"{name} {path} {resource} {level} avg{period}: {one}, not {other}")
            must(tried > 80, f"averages are compared: {tried}")
            agreed = compared(program, folder, done.output, "--lead-in", "12min", "--lag-us", "60")
            must_be(f"the status: {agreed.output.decode()}", agreed.status, 0)


def check_words_of_lead_ins(_: str) -> None:
    """Invalid lengths of a lead-in are rejected. A recording begins after its lead-in even with
    `--groups=0`.
    """
    with recording("exec-2") as folder:
        for word in ("4min", "61min", "721", "12h", "-1", "0"):
            must("--lead-in" in converted(folder, f"--lead-in={word}", status=2).said, word)
        done = converted(folder, "--lead-in=5min", "--groups=0")
        must(
            "the recording begins at 300.000 s" in done.said
            and b" cpus=" in done.output.splitlines()[0],
            done.said,
        )
