"""The section of the report on oomd 0.5.0: the kills that it would have made with a certain
configuration.
"""
from __future__ import annotations

import json
from typing import Any

from psichart.svg import add
from psicli.times import seconds
from psireplay.runs import Runs

from .facts import Facts
from .html import Element, say, table
from .sections import rest, source

SHOWN = 8


def section(page: Element, facts: Facts, runs: Runs) -> None:
    """Adds the section with the kills that tools/oomd computes, if the command line names a
    configuration.
    """
    options = facts.options
    if options.oomd is None:
        return
    interval = [f"--interval-s={options.interval_s}"] if options.interval_s is not None else []
    run = runs.tool("oomd", f"--config={options.oomd}", *interval, "--json", "--", options.trace)
    result: dict[str, Any] = json.loads(run.text())
    part = add(page, "section")
    say(part, "h2", "What oomd would have done")
    say(
        part, "p",
        f"By the algorithm of oomd {result['oomd']}, which looked {result['looks']} times ",
        source(run), ".",
    )
    kills = result["decisions"]
    if not kills:
        say(part, "p", "It would have killed nobody.")
    if result["crash"]:
        say(part, "p", result["crash"])
    rows = [
        [
            f"{seconds(it['moment_ns'])} s", it["victim"], it["ruleset_name"], it["plugin"],
            "; ".join(it["why"]),
        ]
        for it in kills[:SHOWN]
    ]
    if rows:
        table(
            part, "Kills, each as if the ones before it had freed nothing",
            ["at", "victim", "ruleset", "by", "because"], rows, 5,
        )
        rest(part, len(kills), "kills")
    for note in result["notes"]:
        say(part, "p", note, class_="soft")
