"""The section of the report on the recording: how much the trace differs from the machine's own
files, and what makes it less reliable.
"""
from __future__ import annotations

import re

from psichart.svg import add

from .facts import Facts, Recorded
from .html import Element, folded, say, table
from .sections import source

# Explanations of what makes a trace less reliable, keyed by the first word of a line in psitrace's
# summary.
WEAK = {
    "lost": (
        "Events were lost. What happened then is unknown, and so is the pressure that came of it:"
    ),
    "mended": (
        "Events didn’t fit together, and something was put in or taken to be so, as often as is"
        " told here. The more there is of it beside the events, the less the trace can be trusted:"
    ),
    "limit": "A limit of traces was met. What is beyond it isn’t in the trace:",
}

# HARMLESS lists repairs that cause no error, since the kernel does the same, or since the event
# itself contains the task's new number. VERDICT matches the line of tools/compare on all totals.
# REMARKABLE matches the lines of psitrace's summary that a reader of the page should know.
HARMLESS = ("wait for IO ended at a migration", "number changed by exec")
VERDICT = re.compile(r"(all \d+|\d+ of \d+) totals |no total ")
REMARKABLE = re.compile(
    r"(lost|mended|limit|not accounted|the machine doesn't|waits for IO by state D|omit)"
)


def cells_of(line: str) -> list[str]:
    return [cell.strip() for cell in line.strip().strip("|").split("|")]


def recording(page: Element, facts: Facts) -> None:
    """Adds the section on the recording, if the command line names a recording."""
    known = facts.recorded
    if not known:
        return
    section = add(page, "section", id="recording")
    say(section, "h2", "How far the trace can be trusted")
    comparison(section, known)
    if not known.is_same:
        text = (
            "What follows is of the trace that psitrace makes of this recording by itself; the one"
            " of this page is another."
        )
        say(section, "p", text)
    conversion(section, known)


def comparison(section: Element, known: Recorded) -> None:
    """Adds the output of tools/compare: the verdict, the causes of differences, and the totals."""
    lines = known.compared.text().strip().splitlines()
    notes = [line for line in lines if line and not line.startswith("|")]
    verdict = next(line for line in notes if VERDICT.match(line))
    text = f"Against the machine’s own pressure files: {verdict} "
    say(section, "p", text, source(known.compared), ".")
    causes = notes[notes.index(verdict) + 1 :]  # why totals are beyond their limits
    for line in causes:
        say(section, "p", line)
    rows = [cells_of(line) for line in lines if line.startswith("|")]
    box = section
    if len(rows) > 2:
        box = folded(section, "Table: totals of the machine and of the trace")
        table(box, notes[0], rows[0], rows[2:], 2)
    for line in notes[1:]:
        if line != verdict and line not in causes:
            say(box, "p", line)


def conversion(section: Element, known: Recorded) -> None:
    """Adds psitrace's summary. The lines that make the trace less reliable come first."""
    said = [re.sub(r"^psitrace: ", "", line) for line in known.summary.said.splitlines()]
    weak = [
        line
        for line in said
        if REMARKABLE.match(line)
        and line.removeprefix("mended: ").partition(":")[0] not in HARMLESS
    ]
    say(section, "h3", "What the converter says of it ", source(known.summary))
    for kind, meaning in WEAK.items():
        lines = [line.partition(": ")[2] for line in weak if line.startswith(f"{kind}:")]
        if lines:
            say(section, "p", meaning)
            found = add(section, "ul")
            for line in lines:
                say(found, "li", line)
    others = [line for line in weak if line.partition(":")[0] not in WEAK]
    nothing = [] if weak else ["Nothing was lost, and nothing was mended that matters."]
    for line in others or nothing:
        say(section, "p", line)
    rest_ = [line for line in said if line not in weak]
    if rest_:
        say(folded(section, "The rest of its summary"), "pre", "\n".join(rest_))
