"""Assembles the page in one file: its sections, its style and its script."""
from __future__ import annotations

import os
import shlex
import sys
from datetime import datetime, timezone
from xml.etree import ElementTree

from psichart.svg import STYLE, STYLE_BESIDE, add
from psicli.times import SECOND, clock_time, rounded, zone
from psireplay.runs import Runs

from . import by_oomd, judgement, sections, trust, waits
from .facts import Facts, sum_of, sums
from .html import Element, data_of, escape_controls, folded, name_groups, say, table, word
from .pictures import MS, Picture

FOLDER = os.path.dirname(os.path.abspath(__file__))


def file_of(name: str) -> str:
    """Returns the text of a file in this package's folder."""
    with open(os.path.join(FOLDER, name), encoding="utf-8") as file:
        return file.read()


def when(facts: Facts) -> str:
    """Returns the line below the title: the trace's name, its length, and the time of day at its
    start if known.
    """
    length = f"{os.path.basename(facts.options.trace)}, {rounded(facts.replay.end.time_ns)}"
    if not facts.wall:
        return length
    at = clock_time((facts.wall.epoch + facts.wall.ahead) // SECOND * SECOND)
    return f"{length} from {at.clock} on {at.day} {at.date.tm_year} ({zone(facts.wall.ahead)})"


def provenance(page: Element, facts: Facts, runs: Runs) -> None:
    """Adds the section on the commands, the program and the checksums of the files."""
    section = add(page, "section", id="made")
    say(section, "h2", "How it was made")
    words = shlex.join(["tools/report", *sys.argv[1:]])
    now = f"{datetime.now(timezone.utc):%Y-%m-%d %H:%M:%S} UTC"
    say(
        section,
        "p",
        word("code", words),
        " ran these commands at ",
        word("time", now, class_="made"),
        ":",
    )
    commands = add(section, "ol")
    for run in runs.done:
        status = f" (status {run.status})" if run.status else ""
        line = add(commands, "li", id=f"command-{run.number}")
        say(line, "code", run.words).tail = status
        if run.rules_text:
            say(folded(line, "DETECTORS.json"), "pre", run.rules_text)
    if facts.judged:
        what = (
            "DETECTORS.json has a ruleset for each detector, which kills whenever it is true: so"
            " its kills are when it was."
        )
        say(section, "p", what, class_="soft")
    say(
        section,
        "p",
        "A share at a moment is the line of its report: ",
        word("code", report_line(facts)),
        ".",
        class_="soft",
    )
    say(section, "p", "Sources: commit ", word("code", runs.commit(), class_="commit"),
        "; the program’s SHA-256: ",
        word("code", sum_of(runs.path), class_="program"))  # fmt: skip
    table(section, "SHA-256 of the files", ["file", "sum"], sums(facts.options), 2)


def report_line(facts: Facts) -> str:
    """Returns the grep command that finds a quoted report in the output of `psi_oomd replay`. This
    is the report with the highest share.
    """
    head = f"report {facts.stretch.at} {facts.subject.path} {facts.subject.resource}"
    return f"grep -A2 '^{head}$'"


def data(facts: Facts, pictures: list[Picture]) -> str:
    wall = facts.wall and (facts.wall.epoch + facts.wall.ahead) // MS
    return data_of(
        {
            "start": 0,
            "end": facts.replay.end.time_ns // MS,
            "wall": wall,
            "panels": [it.data for it in pictures],
        }
    )


def body(page: Element, facts: Facts, runs: Runs) -> None:
    main = add(page, "main")
    say(main, "h1", sections.title(facts))
    say(main, "p", when(facts), class_="soft")
    say(main, "p", *sections.lead(facts), class_="lead")
    sections.notes(main, facts)
    pictures = sections.time_lines(main, facts)
    if facts.blamed:
        waits.blame(main, facts, facts.blamed)
    judgement.rules(main, facts)
    by_oomd.section(main, facts, runs)
    trust.recording(main, facts)
    provenance(main, facts, runs)
    add(page, "script", data(facts, pictures), type="application/json", id="data")
    if pictures:
        add(page, "script", file_of("page.js"))


def html(facts: Facts, runs: Runs) -> bytes:
    page = ElementTree.Element("html", {"lang": "en"})
    head = add(page, "head")
    add(head, "meta", charset="utf-8")
    add(head, "meta", name="viewport", content="width=device-width, initial-scale=1")
    add(head, "title", sections.title(facts))
    beside = STYLE_BESIDE.replace(".series", ".whatif .series")
    add(head, "style", file_of("page.css") + STYLE + beside)
    body(add(page, "body"), facts, runs)
    name_groups(page, facts.names)
    escape_controls(page)
    text: bytes = ElementTree.tostring(page, "utf-8", method="html")
    return b"<!DOCTYPE html>\n" + text + b"\n"
