"""Checks that the metrics contain each printed total, kill and signal, at the right time."""
from __future__ import annotations

import collections
import os
from decimal import Decimal

from harness import must, must_be
from shared.outputs import RUNAWAY, run, story
from shared.program import TOP

from .exposition import Exposition, Point

OPENMETRICS = os.path.join(TOP, "tools", "openmetrics")
START, EPOCH = "2026-11-28T14:58:12.25+01:00", Decimal("1795874292.25")
WORDS = {"some": "waiting", "full": "stalled"}
KILLER = {"ruleset": "0", "action": "0"}
ODD = r"/-\x2d@a:b.c"
ODD_TRACE = rf"""psitrace 1 cpus=1
0 group {ODD}
0 fork 1 {ODD} 0
0 switch 0 1 idle
1000000000 switch 0 0 iowait
9000000000 wake 1 0
9000000000 switch 0 1 idle
9000000000 switch 0 0 exit
9000000000 rmgroup {ODD}
15000000000 group {ODD}
21000000000 end
"""


def metrics_of(printed: bytes, *words: str) -> Exposition:
    return Exposition(run([OPENMETRICS, "--start", START, *words], printed).decode())


def totals_of(printed: bytes) -> dict[tuple[str, str, str], list[Point]]:
    """Returns the printed totals (s) with their times (s since 1970), by group, resource and
    level.
    """
    totals = collections.defaultdict(list)
    head: list[str] = []
    for words in (line.split(" ") for line in printed.decode().splitlines()):
        if words[0] == "report":
            head = words[1:]
        elif words[0] in WORDS:
            total = Decimal(words[4].removeprefix("total=")) / 10**6
            totals[head[1], head[2], words[0]].append((EPOCH + Decimal(head[0]) / 10**9, total))
    return totals


def moments_of(printed: bytes, verb: str, *words: str) -> list[Decimal]:
    """Returns the times (s since 1970) of the lines that begin with `verb` and contain `words`."""
    lines = [
        line.split(" ") for line in printed.decode().splitlines() if line.startswith(f"{verb} ")
    ]
    return [EPOCH + Decimal(line[1]) / 10**9 for line in lines if set(words) <= set(line)]


def compare_totals(printed: bytes, metrics: Exposition, **labels: str) -> None:
    """Raises unless the metrics contain exactly the printed totals, under the names that other
    exporters use.
    """
    wanted: dict[str, int] = collections.defaultdict(int)
    for (path, resource, level), points in totals_of(printed).items():
        name = f"pressure_{resource}_{WORDS[level]}_seconds_total"
        must_be(f"{name} of {path}", metrics.points(f"container_{name}", id=path, **labels), points)
        wanted[f"container_{name}"] += 1
        if path == "/" and (resource, level) != ("cpu", "full"):
            must_be(f"{name} of the machine", metrics.points(f"node_{name}", **labels), points)
            wanted[f"node_{name}"] += 1
    found = {
        f"{name}_total": len(it.metrics)
        for name, it in metrics.families.items()
        if "_pressure_" in name
    }
    must_be("names of pressure, and how many metrics each has", found, dict(wanted))


def must_count(points: list[Point], times: list[Decimal], rounds: list[Decimal]) -> None:
    """Raises unless the points of a counter are exactly one at the start, one at each event and one
    at each report. The value of a point is the number of events up to its time.
    """
    at = sorted({EPOCH, *times, *rounds})
    must_be("a counter", points,
            [(time_s, Decimal(sum(it <= time_s for it in times))) for time_s in at])


def check_totals_of_the_story(program: str) -> None:
    metrics = metrics_of(story(program))
    compare_totals(story(program), metrics)
    for name, family in metrics.families.items():
        unit = {"UNIT": "seconds"} if "_pressure_" in name else {}
        must_be(f"what is told of {name}", {**family.about, "HELP": ""},
                {"TYPE": "counter", "HELP": "", **unit})
        must(family.about["HELP"].endswith("."), f"{family.about['HELP']} is a sentence")


def check_the_names_are_those_of_the_field(program: str) -> None:
    """The metrics have the names that `prometheus-node-exporter --collector.pressure` and cAdvisor
    use.
    """
    names = set(metrics_of(story(program)).families)
    node = {"node_pressure_cpu_waiting_seconds"}
    node |= {
        f"node_pressure_{it}_{word}_seconds"
        for it in ("io", "memory")
        for word in ("waiting", "stalled")
    }
    words = ("waiting", "stalled")
    container = {
        f"container_pressure_{it}_{word}_seconds"
        for it in ("cpu", "io", "memory")
        for word in words
    }
    must_be("names", names, node | container | {"psi_oomd_kills", "psi_oomd_trigger_events"})


def check_kills_and_signals(program: str) -> None:
    printed = run([program, *RUNAWAY[:-1], "7", "--tick-ms", "500"])
    metrics = metrics_of(printed)
    rounds = [time_s for time_s, _ in totals_of(printed)["/", "io", "some"]]
    kills = moments_of(printed, "kill", "/batch/import", "ruleset=0", "action=0")
    must(len(kills) == 1, "the story has a kill")
    must_count(metrics.points("psi_oomd_kills_total", id="/batch/import", **KILLER), kills, rounds)
    limits = (("memory", "some", "1.5", "2"), ("memory", "full", "6", "10"),
              ("io", "full", "4", "10"))
    for number, (resource, level, threshold, window) in enumerate(limits):
        signals = moments_of(printed, "event", f"trigger={number}")
        must(len(signals) > 1 and not set(signals) <= set(rounds),
             "a trigger signals, also between reports")
        what = {"id": "/batch", "trigger": str(number), "resource": resource, "level": level}
        times = {"threshold_seconds": threshold, "window_seconds": window}
        must_count(metrics.points("psi_oomd_trigger_events_total", **what, **times), signals,
                   rounds)
    must_be("triggers", len(metrics.families["psi_oomd_trigger_events"].metrics), 3)


def check_names_of_rulesets(program: str) -> None:
    metrics = metrics_of(story(program), "--rules", "examples/runaway.json")
    names = {
        "ruleset_name": "batch work is short of memory", "plugin": "kill_by_memory_size_or_growth"
    }
    points = metrics.points("psi_oomd_kills_total", id="/batch/import", **KILLER, **names)
    must_be("the kill by its names", points[-1:], [(EPOCH + 300, Decimal(1))])


def check_labels(program: str) -> None:
    """Labels for all metrics are written with the necessary escapes. So is a path with a backslash
    whose group is removed and created again.
    """
    words = [program, "replay", "-", "--report-s", "1"]
    printed = run(words, ODD_TRACE.encode())
    value = r'a "b" \n'
    metrics = metrics_of(printed, f"--label=instance={value}", "--label", "job=node")
    compare_totals(printed, metrics, instance=value, job="node")
    points = metrics.points("container_pressure_io_waiting_seconds_total", id=ODD, instance=value,
                            job="node")
    waits = [total for _, total in points]
    must(waits[3] == 7 and waits[-1] == 0, f"{waits} begin at zero with the second life")


def check_no_kill_and_no_signal(program: str) -> None:
    printed = run([program, "replay", "examples/one-wait.trace"])
    metrics = metrics_of(printed)
    compare_totals(printed, metrics)
    must(not any("psi_oomd" in name for name in metrics.families),
         "what never happened has no metric")


def check_live_lines_are_passed_over(program: str) -> None:
    live = run([program, *RUNAWAY, "--live=/batch"])
    must(live.count(b"\nlive ") > 100, "there are lines of clocks")
    words = [OPENMETRICS, "--start", START]
    must_be("metrics beside them", run(words, live), run(words, story(program)))


def check_interrupts(_: str) -> None:
    full = "full avg10=9.05 avg60=1.63 avg300=0.34 total=1000000\n"
    heads = [f"report 2000000000 {path} irq\n" for path in ("/", "/a")]
    printed = f"{full.join(heads)}{full}end 2000000000 ticks=1 events=0 kills=0\n".encode()
    metrics = metrics_of(printed)
    compare_totals(printed, metrics)
    must_be("interrupts", metrics.points("node_pressure_irq_stalled_seconds_total"),
            [(EPOCH + 2, Decimal(1))])


def check_interrupts_of_a_replay(program: str) -> None:
    printed = run([program, "replay", "examples/kernel/42-v2-irq.trace", "--report-s=2"])
    metrics = metrics_of(printed)
    compare_totals(printed, metrics)
    found = metrics.points("container_pressure_irq_stalled_seconds_total", id="/a")
    totals = [(2, "0.1"), (4, "0.177777"), (6, "0.177777")]
    must_be("interrupts of a group", found,
            [(EPOCH + time_s, Decimal(total)) for time_s, total in totals])


def check_points_that_are_near(_: str) -> None:
    """If two points are within 2 ms, only the later one is written: Prometheus truncates times to
    ms, and rejects two points in the same ms.
    """
    file = "".join(f"{level} avg10=0.00 avg60=0.00 avg300=0.00 total={{0}}\n" for level in WORDS)
    lines = [
        "event 1000000 trigger=0 / io some 500000 500000\n",
        f"report 1000000000 / io\n{file.format(1)}",
        "event 1001000000 trigger=0 / io some 500000 500000\n",
        f"report 1001999999 / io\n{file.format(2)}",
        f"report 1004000000 / io\n{file.format(3)}",
    ]
    metrics = metrics_of(f"{''.join(lines)}end 1004000000 ticks=1004 events=2 kills=0\n".encode())
    found = metrics.points("node_pressure_io_waiting_seconds_total")
    must_be("totals", [(str(at - EPOCH), str(it)) for at, it in found],
            [("1.001999999", "0.000002"), ("1.004", "0.000003")])
    (signals,) = metrics.families["psi_oomd_trigger_events"].metrics.values()
    must_be("signals", [(str(at - EPOCH), int(it)) for at, it in signals],
            [("0.001", 1), ("1.001999999", 2), ("1.004", 2)])


def check_the_older_text(program: str) -> None:
    """The older text format contains the same points. Its timestamps are in ms, and its metadata
    names end with `_total`.
    """
    old = run(
        [OPENMETRICS, "--start", START, "--format=prometheus"], story(program)
    ).decode().splitlines()
    new = run([OPENMETRICS, "--start", START], story(program)).decode().splitlines()
    samples = [line.rsplit(" ", 1) for line in new if not line.startswith("#")]
    wanted = [f"{front} {int(Decimal(time_s) * 1000)}" for front, time_s in samples]
    must_be("points", [line for line in old if not line.startswith("#")], wanted)
    about = [line.split(" ", 3) for line in new if line.startswith(("# TYPE", "# HELP"))]
    lines = [f"# {what} {name}_total {text}" for _, what, name, text in about]
    must_be("what is told", sorted(line for line in old if line.startswith("#")), sorted(lines))
