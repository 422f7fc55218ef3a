"""Checks of the summary on a page: what stalled most, which ruleset came nearest to firing, what a
kill would have changed, and how reliable the page is.
"""
from __future__ import annotations

import json
import os
import re
import tempfile
from types import SimpleNamespace
from typing import Any, Optional
from xml.etree import ElementTree

from shared.printed import Printed
from harness import must, must_be
from shared.outputs import run
from shared.program import TOP
from psireport.trust import recording

from .faults import fault
from .pages import Node, page_of, read, same
from .told import lead_of

SECOND = 10**9
RUNAWAY = os.path.join(TOP, "examples", "runaway.trace")

# A trace with an empty group, in which a task of the root always waits for IO.
ROOT = (
    "psitrace 1 cpus=1\n0 group /idle\n0 fork 1 / 0\n0 switch 0 1 idle\n0 switch 0 0 iowait\n"
    "60000000000 end\n"
)
# A trace in which interrupts take half of the time, and which has no other event.
INTERRUPTS = "psitrace 2 cpus=1\n0 group /a\n0 fork 1 /a 0\n0 switch 0 1 idle\n" + "".join(
    f"{second}000000000 irq 0 500000000\n" for second in range(1, 41)
) + "40000000000 end\n"  # fmt: skip


def stalled(task: int, start: int, end: int) -> list[tuple[int, str]]:
    """Returns the trace lines of a task on processor `task` - 1. The task stalls for memory from
    `start` to `end` (s), and sleeps at all other times.
    """
    cpu = task - 1
    begin = [
        (0, f"switch {cpu} {task} idle"), (start, f"stall {task}"), (start, f"switch {cpu} 0 sleep")
    ]
    return begin + [
        (end, it) for it in (
            f"wake {task} {cpu}", f"switch {cpu} {task} idle", f"unstall {task}",
            f"switch {cpu} 0 sleep",
        )
    ]


def two_stalls(end: int, other: int = 14, first: int = 10, host: str = "host 1000000 0 0") -> str:
    """Returns a trace of `end` s in which /a/b stalls from 2 s to `first` s, and /x from 2 s to
    `other` s. `host` is the host event at time 0, or '' for none.
    """
    start_lines = [(0, host)] if host else []
    start_lines += [
        (0, it) for it in ("group /a", "group /a/b", "group /x", "fork 1 /a/b 0", "fork 2 /x 1")
    ]
    events = sorted([*stalled(1, 2, first), *stalled(2, 2, other)], key=lambda it: it[0])
    lines = [
        f"{second * SECOND} {text}" for second, text in [
            *start_lines, *events, (end, "end")
        ] if second <= end
    ]
    return "\n".join(["psitrace 1 cpus=2", *lines, ""])


OVER = two_stalls(60)


def detector(name: str, **args: str) -> dict[str, Any]:
    return {"name": name, "args": args}


def pressure(cgroup: str, threshold: str, duration: str = "0") -> dict[str, Any]:
    return detector("pressure_above", cgroup=cgroup, resource="memory", threshold=threshold,
                    duration=duration)


def ruleset(name: str, cgroup: str, *detectors: dict[str, Any]) -> dict[str, Any]:
    return {
        "name": name, "detectors": [["group", *detectors]],
        "actions": [detector("kill_by_memory_size_or_growth", cgroup=cgroup)],
    }


def page(
    program: str, trace: str, rulesets: Optional[list[dict[str, Any]]] = None, *words: str
) -> Node:
    """Returns the parsed page for a trace with these rules. The trace is a text or a path."""
    with tempfile.TemporaryDirectory() as folder:
        if trace.startswith("psitrace"):
            with open(os.path.join(folder, "a.trace"), "w", encoding="ascii") as file:
                file.write(trace)
            trace = "a.trace"
        if rulesets is not None:
            with open(os.path.join(folder, "rules.json"), "w", encoding="utf-8") as file:
                json.dump({"rulesets": rulesets}, file)
            words = ("--rules", "rules.json", *words)
        return read(page_of(program, trace, *words, folder=folder))


def title_of(found: Node) -> str:
    (heading,) = found.find("h1")
    must_be("the title", found.find("title")[0].text(), heading.text())
    return heading.text()


def highest(program: str, trace: str, *key: str) -> float:
    """Returns the highest share (percent) that the program prints for a group, a resource, a level
    and an average.
    """
    printed = Printed(run([program, "replay", "-", "--report-s", "1"], trace.encode()))
    path, resource, level, average = key
    return max(share for _, share in printed.shares[path, resource, level, average])


def check_the_root_alone(program: str) -> None:
    """If only the root stalled, the page says so."""
    found = page(program, ROOT)
    most = highest(program, ROOT, "/", "io", "some", "avg10")
    must(most > 99, f"the root waits: {most}")
    must(
        lead_of(found).startswith("The machine waited for IO, ")
        and f"up to {most:.2f} percent" in lead_of(found),
        lead_of(found),
    )
    must_be("the title", title_of(found), "Incident: IO pressure of /")


def check_interrupts_alone(program: str) -> None:
    """If no group stalled, time in interrupts counts as a stall."""
    found = page(program, INTERRUPTS)
    must(lead_of(found).startswith("The machine was held up by interrupts, at its worst from "),
         lead_of(found))
    must_be("the title", title_of(found), "Incident: interrupt pressure of /")


def check_the_nearest_ruleset(program: str) -> None:
    """The nearest ruleset is the one with the value that came closest to a threshold. Detectors
    that only check whether a group exists don't count.
    """
    full = Printed(
        run([program, "replay", "examples/runaway.trace", "--report-s", "1"])
    ).shares["/batch", "memory", "full", "avg10"]
    share, at = max(((share, time_ns) for time_ns,
                     share in full if time_ns // SECOND % 10 in (0, 6)),
                    key=lambda it: (it[0], -it[1]))
    far = ruleset("far", "web", detector("exists", cgroup="web"), pressure("web", "10"))
    high, low = (ruleset(f"above {it}", "batch/*", pressure("batch", it)) for it in ("99", "90"))
    for rulesets, number in (([far, high, low], 2), ([low, high, far], 0), ([high, low], 1)):
        wanted = (
            f"nearest was ruleset {number} ‘above 90’: full memory pressure of /batch over 10 s "
            f"was {share:.2f} percent at"
        )
        must(
            f"{wanted} {at // SECOND} s, {90 - share:.2f} below the threshold of 90."
            in lead_of(page(program, RUNAWAY, rulesets)),
            f"{rulesets}",
        )
    alone = lead_of(page(program, RUNAWAY, [far]))
    must("killed nobody; nothing that they watch came near a threshold." in alone, alone)
    lasting = lead_of(
        page(program, RUNAWAY, [high, ruleset("long", "batch/*", pressure("batch", "40", "9999"))])
    )
    must(
         f"ruleset 1 ‘long’: full memory pressure of /batch over 10 s was {share:.2f} percent at "
         f"{at // SECOND} s, above the threshold of 40 for 94 s at most, 9905 s short of 9999 s."
         in lasting, lasting)
    nowhere = lead_of(
        page(program, RUNAWAY, [ruleset("nowhere", "nowhere/*", pressure("batch", "40"))])
    )
    must(
        "killed nobody; ruleset 0 ‘nowhere’ fired at 126 s, and no live group matches 'nowhere/*'."
        in nowhere,
        nowhere,
    )


def check_a_kill_after_the_stall(program: str) -> None:
    """If a kill would have changed nothing, the page says so instead of printing the same number
    twice.
    """
    found = page(program, OVER, [ruleset("late", "a/*", pressure("a", "5", "10"))])
    must(
         "would have killed /a/b at 16 s, which says little before 30 s; the kill would have "
         "changed nothing: the stall was over."
         in
         lead_of(found), lead_of(found))  # fmt: skip
    still = lead_of(
        page(program, two_stalls(60, first=50), [ruleset("early", "a/*", pressure("a", "5", "10"))])
    )
    must("; without it /a would have had at most " in still, still)


def check_the_worst_group(program: str) -> None:
    """The title and the first sentence name the group that stalled most, even if the rules watch a
    different group.
    """
    found = page(program, OVER, [ruleset("late", "a/*", pressure("a", "5", "10"))])
    must_be("the title", title_of(found), "Incident: memory pressure of /x and /a")
    shares = [highest(program, OVER, path, "memory", "some", "avg10") for path in ("/x", "/a")]
    must(shares[0] > shares[1], f"{shares}")
    said = lead_of(found)
    must(
        said.startswith("/x stalled for memory, at its worst from ")
        and f"up to {shares[0]:.2f} percent" in said,
        said,
    )
    must(
        "/a, which the rules watch, stalled for memory, " in said
        and f"up to {shares[1]:.2f} percent" in said,
        said,
    )
    drawn = [
        it.attributes["data-group"] for it in found.find("figure") if "data-group" in it.attributes
    ]
    must({"/x", "/a"} <= set(drawn), f"both are drawn: {drawn}")


def check_short_traces(program: str) -> None:
    """If a trace is shorter than 180 s, the first sentence says which averages aren't meaningful.
    """
    little, less = (
        "averages mean little before 30 s, those over 60 and 300 s before 3 min",
        "averages over 60 and 300 s mean little before 3 min",
    )
    for end, wanted in ((20, little), (29, little), (30, less), (179, less), (180, "")):
        first = re.split(r"(?<=\.) ", lead_of(page(program, two_stalls(end))))[0]
        must(first.endswith(f"; {wanted}." if wanted else " s)."), f"{end} s: {first}")
    nobody = lead_of(page(program, two_stalls(20), [ruleset("high", "a/*", pressure("a", "99"))]))
    must(
        "The rules would have killed nobody, which says little before 30 s; nearest was " in nobody,
        nobody,
    )


def check_a_machine_without_swap(program: str) -> None:
    rules = [ruleset("swap", "a/*", detector("swap_free", threshold_pct="10"))]
    must("the machine has no swap" in page(program, OVER, rules).text(), "a host without swap")
    must("the trace says nothing of swap" in page(program, two_stalls(60, host=""), rules).text(),
         "a trace without a host")


def check_control_characters(program: str) -> None:
    """The page contains no control characters from names."""
    rules = [ruleset("a\0b\x1b[31mred\x7f", "a/*", pressure("a", "5", "10"))]
    rules[0]["detectors"][0][0] = "g\0\x1b[2J"
    text = page(program, OVER, rules).text()
    must(not re.search(r"[\x00-\x08\x0b-\x1f\x7f-\x9f]", text), "there is none")
    must("g\\x00\\x1b[2J" in text, "they are written as escapes")


def check_rules_on_other_groups(program: str) -> None:
    """If a pattern matches no group, the page says so directly after its first sentences."""
    found = page(program, OVER, [ruleset("slip", "a/*", pressure("/aa", "5"))])
    notes = [it.text() for it in found.find("p", class_="note")]
    must_be(
        "the note", notes,
        ["No group of the trace matches 'aa' of ruleset 'slip': there the rules can do nothing."],
    )
    text = found.text()
    must(text.index("No group of the trace matches") < text.index("What happened when"),
         "it is near the top")
    must_be(
        "no note",
        page(program, OVER, [ruleset("right", "a/*", pressure("a", "5"))]).find("p", class_="note"),
        [],
    )


def check_a_group_by_its_last_component(program: str) -> None:
    """--group accepts a whole path or its last component. Only the command on the page differs."""
    by_name, by_path = (
        same(page_of(program, RUNAWAY, "--group", it)) for it in ("import", "/batch/import")
    )
    must(by_name.replace(" --group import", " --group /batch/import") == by_path,
         "both pages are the same")


def check_words_that_name_nothing(program: str) -> None:
    """A missing group, an output path that is a folder, and each missing file are reported. The
    message states the purpose of the file.
    """
    every = "/, /batch, /batch/import, /batch/index, /web"
    for word, near in (("bacth", "/batch, .."), ("/bathc", "/batch, .."), ("/nosuch", every)):
        must_be(word, fault(program, 11, RUNAWAY, "--group", word),
                f"no group {word} in the replay, which has {near}")
    for words, status, wanted in (
        (["nope.trace"], 4, "there is no trace nope.trace"),
        ([RUNAWAY, "--rules", "nope.json"], 4, "there is no rules file nope.json"),
        ([RUNAWAY, "--rules", RUNAWAY, "--drop-in", "nope.json"], 4,
         "there is no drop-in file nope.json"),
        ([RUNAWAY, "--rules", TOP], 5, f"the rules file {TOP} is a folder"),
        ([RUNAWAY, "--recording", "nope"], 4, "the recording nope isn't a folder"),
    ):
        must_be(f"{words}", fault(program, status, *words), wanted)
    said = fault(program, 3, RUNAWAY, "--rules", RUNAWAY)
    must(said.endswith("rules: BadJson: it is a trace, not a rules file"), said)
    with tempfile.TemporaryDirectory() as folder:
        page_folder = os.path.join(folder, "page")
        os.mkdir(page_folder)
        must_be("a folder", fault(program, 2, RUNAWAY, "-o", page_folder),
                f"{page_folder} is a folder: name a file in it")
        must_be("what is there", os.listdir(folder), ["page"])


def trust_text(compared: str, said: str) -> str:
    """Returns the page's section about the reliability of a recording, for these messages of
    compare and psitrace.
    """
    run_ = SimpleNamespace(number=1, text=lambda: compared, said=said)
    element = ElementTree.Element("body")
    recorded = SimpleNamespace(compared=run_, summary=run_, is_same=True)
    facts: Any = SimpleNamespace(recorded=recorded)
    recording(element, facts)
    (section,) = read(ElementTree.tostring(element, "utf-8", method="html")).find("section")
    for it in section.find("details"):
        it.children = []
    return section.text()


def check_repairs_and_causes(program: str) -> None:
    """Harmless repairs of a recording cause no warning. If a total is beyond its limit, the page
    states the cause.
    """
    del program
    verdict, cause = (
        "3 of 9 totals from 0.5 s on are beyond (!) their limits: 2.5 %",
        "3 of cpu are too small: the kernel counts",
    )
    rows = "\n".join(f"| {it} | io |" for it in ("group", "-", "/", "/a"))
    harmless = (
        "psitrace: mended: wait for IO ended at a migration: 2261\n"
        "psitrace: mended: number changed by exec: 3"
    )
    text = trust_text(f"times\n\n{rows}\n\n{verdict}\n{cause}\n", harmless)
    must(verdict in text and cause in text and text.index(verdict) < text.index(cause),
         f"both are shown: {text}")
    must("the less the trace can be trusted" not in text, f"nothing is distrusted: {text}")
    harm = f"{harmless}\npsitrace: mended: task ran that wasn't known to be ready there: 87"
    text = trust_text(f"times\n\n{rows}\n\n{verdict}\n{cause}\n", harm)
    must("the less the trace can be trusted" in text and "to be ready there: 87" in text,
         f"real damage is: {text}")
    must("ended at a migration" not in text, f"and the harmless repair isn't: {text}")
