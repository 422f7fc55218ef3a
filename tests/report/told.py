"""Checks that the numbers on a page are those that psi_oomd and the tools print."""
from __future__ import annotations

import json
import os
import random
import re
import subprocess
import tempfile
from collections.abc import Sequence

from shared.printed import Printed
from harness import must, must_be
from shared.outputs import run
from shared.program import TOP
from psichart.replay import Series
from psireplay.lines import Pressure, Report
from psireport.reading import STRETCHES, thinned
from psireplay.runs import Runs
from psiwhy.truths import ALWAYS, Place, truths

from .pages import Node, data_of, page_of, read, same, story

SECOND = 10**9


def lead_of(page: Node) -> str:
    (found,) = page.find("p", class_="lead")
    return re.sub(r" \[[0-9]+\]", "", found.text())


def rows_of(section: Node) -> list[list[str]]:
    """Returns the rows of the tables in a section."""
    return [[cell.text() for cell in row.find("th") + row.find("td")] for row in section.find("tr")]


def check_the_first_sentence(program: str) -> None:
    """The numbers in the first sentence of the page are those that the commands print."""
    page = read(story(program))
    was = Printed(
        run(
            [
                program, "replay", "examples/runaway.trace", "--rules", "examples/runaway.json",
                "--report-s", "2",
            ]
        )
    )
    other = Printed(
        run(
            [
                program, "whatif", "examples/runaway.trace", "--rules", "examples/runaway.json",
                "--report-s", "2",
            ]
        )
    )
    key = "/batch", "memory", "some", "avg10"
    highest = max(share for _, share in was.shares[key])
    at = next(time_ns for time_ns, share in was.shares[key] if share == highest)
    above = [time_ns for time_ns, share in was.shares[key] if 2 * share >= highest]
    (kill,) = was.kills
    later = next(time_ns for time_ns, _ in was.shares[key] if time_ns >= kill[0] + 30 * SECOND)
    cut = [int(dict(it.shares[key])[later] * 10 + 1e-9) / 10 for it in (other, was)]
    must_be("the sentence", lead_of(page), (
        f"/batch stalled for memory, at its worst from {above[0] // SECOND} s to "
        f"{above[-1] // SECOND} s: up to {highest:.2f} percent"
        f" of the time over 10 s (at {at // SECOND} s). Ruleset 0 ‘batch work is short of memory’ "
        "would have killed /batch/import at"
        f" {kill[0] // SECOND} s; without it /batch would have had at most {cut[0]} percent in "
        f"place of {cut[1]} at {later // SECOND} s."
    ))  # fmt: skip


def check_the_commands(program: str) -> None:
    """If a number on the page links to a command, the command is in the page's list, and it prints
    the number.
    """
    page = read(story(program))
    (section,) = page.find("section", id="made")
    commands = {it.attributes["id"]: it.find("code")[0].text() for it in section.find("li")}
    for link in page.find("a", class_="from"):
        must(link.attributes["href"][1:] in commands, f"{link.text()} is a command of the page")
    words = [it.split() for it in commands.values()]
    must(all(it[0] == "psi_oomd" or os.path.exists(os.path.join(TOP, it[0])) for it in words),
         f"these are commands: {words}")
    (blame,) = [it for it in words if it[0] == "tools/blame" and "--group=/batch" in it]
    group = json.loads(run([os.path.join(TOP, blame[0]), *blame[1:]]))["groups"][0]
    cells = rows_of(page.find("section", id="blame")[0])
    for part in group["while_ran"]:
        row = [
            part["group"], f"{part['ns'] / SECOND:.3f}",
            f"{100 * part['ns'] / group['waited_ns']:.1f} %",
        ]
        must(row in cells, f"{row} is in a table")
    for name in ("runaway.trace", "runaway.json"):
        said = subprocess.run(
            ["sha256sum", f"examples/{name}"], cwd=TOP, capture_output=True, text=True, check=True
        ).stdout.split()[0]
        must([f"examples/{name}", said] in rows_of(section), f"the sum of {name}")


def check_values_for_the_script(program: str) -> None:
    """The page shows the values that the replay printed for the time under the pointer. Events and
    kills are at their times.
    """
    page = read(story(program))
    printed = Printed(
        run(
            [
                program, "replay", "examples/runaway.trace", "--rules", "examples/runaway.json",
                "--report-s", "1",
            ]
        )
    )
    data, figures = data_of(page), page.find("figure")
    found = 0
    for figure in figures:
        if "data-panel" not in figure.attributes or figure.attributes["data-resource"] == "use":
            continue
        path, resource = figure.attributes["data-group"], figure.attributes["data-resource"]
        panel = data["panels"][int(figure.attributes["data-panel"])]
        for look, values in panel["s"].items():
            level, average = look.split(" ")
            shares = printed.shares[path, resource, level, average]
            wanted = {time_ns // 10**6: round(100 * share) for time_ns, share in shares}
            rows = {at: value for at, value in zip(panel["t"], values) if at is not None}
            must(rows and rows.items() <= wanted.items(),
                 f"{path} {resource} {look}: {rows} are of {wanted}")
            must_be(f"{path} {resource} {look}: the highest", max(rows.values()),
                    max(wanted.values()))
        for level, times in panel["e"].items():
            must_be("events", times,
                    [time_ns // 10**6 for time_ns in printed.events[path, resource, level]])
        must(printed.kills[0][0] // 10**6 in panel["marks"], "the kill stands there")
        found += 1
    must(found >= 6, f"there are {found} pictures")


def some_pressure(draw: random.Random, total: int) -> Pressure:
    """Returns a pressure with random averages (hundredths of a percent), most of which are 7, and
    with this total (us).
    """
    averages = [draw.randrange(10**4) if draw.random() < 0.01 else 7 for _ in range(3)]
    return Pressure(averages[0], averages[1], averages[2], total)


def highest_of(times_ns: Sequence[int], values: Sequence[int], end: int) -> dict[int, int]:
    """Divides the time until `end` (ns) into STRETCHES equal intervals. Returns the highest value
    in each interval, by the interval's number.
    """
    highest: dict[int, int] = {}
    for time_ns, value in zip(times_ns, values):
        stretch = time_ns * STRETCHES // end
        highest[stretch] = max(highest.get(stretch, 0), value)
    return highest


def check_thinned_values(program: str) -> None:
    """If a series is so long that values are left out, the highest value of each interval is kept,
    and gaps remain gaps.
    """
    del program
    draw, series, number = random.Random(3), Series(), 0
    for tick in range(1, 40_001):
        number += 1
        if 20_000 <= tick < 20_500:
            continue
        some, full = some_pressure(draw, tick), some_pressure(draw, tick)
        series.take(Report(tick * 2 * SECOND, "/a", "io", some, full), number)
    end = 80_001 * SECOND
    few = thinned(series, 0, end)
    must(len(few.times_ns) <= 7 * STRETCHES + 2, f"{len(few.times_ns)} rows are left")
    for which, shares in series.shares.items():
        wanted = highest_of(series.times_ns, shares, end)
        must_be(f"the highest of {which}", highest_of(few.times_ns, few.shares[which], end), wanted)
    gaps = [
        place
        for place in range(1, len(few.rounds))
        if few.rounds[place] - few.rounds[place - 1] > 1
    ]
    must_be(
        "gaps",
        [
            (few.times_ns[it - 1] <= 40_000 * SECOND, few.times_ns[it] >= 41_000 * SECOND)
            for it in gaps
        ],
        [(True, True)],
    )


def check_detectors(program: str) -> None:
    """The times at which detectors are true agree with docs/RULES.md for the examples of plugins,
    and with psi_oomd's output for the example `runaway`.
    """
    before, os.environ["PSI_OOMD"] = os.environ.get("PSI_OOMD", ""), program
    try:
        runs = Runs()
        folder = os.path.join(TOP, "examples")
        with open(os.path.join(folder, "detectors.json"), encoding="utf-8") as file:
            found = truths(runs, json.load(file)["rulesets"], os.path.join(folder, "plugins.trace"),
                           [])
        firsts = {number: found[Place(number)][0] // SECOND for number in range(6)}
        must_be("when each fired first", firsts, {0: 20, 1: 16, 2: 26, 3: 10, 4: 16, 5: 26})
        must_be("the evaluations", [it // SECOND for it in found[ALWAYS]][:4], [6, 10, 16, 20])
        with open(os.path.join(folder, "runaway.json"), encoding="utf-8") as file:
            found = truths(runs, json.load(file)["rulesets"], os.path.join(folder, "runaway.trace"),
                           [])
    finally:
        os.environ["PSI_OOMD"] = before
    printed = Printed(run([program, "replay", "examples/runaway.trace", "--report-s", "1"]))
    full = dict(printed.shares["/batch", "memory", "full", "avg10"])
    times = [at for at in found[ALWAYS] if full[at] > 40]
    must_be("when the condition held", found[Place(0, 0, 0, True)], times)
    must_be("when it was true", found[Place(0, 0, 0)],
            [at for at in times if at - times[0] >= 20 * SECOND])
    first = found[ALWAYS].index(times[0])
    must_be("that it held at a stretch", times, found[ALWAYS][first : first + len(times)])


def check_how_near(program: str) -> None:
    """For each detector, the page states the highest value and the longest time for which the
    condition held, even if the ruleset never fires.
    """
    printed = Printed(run([program, "replay", "examples/runaway.trace", "--report-s", "1"]))
    shares = printed.shares["/batch", "memory", "full", "avg10"]
    evaluated = [
        (share, time_ns // SECOND) for time_ns, share in shares if time_ns // SECOND % 10 in (0, 6)
    ]
    share, at = max(evaluated, key=lambda it: (it[0], -it[1]))
    (rules,) = read(story(program)).find("section", id="rules")
    must(f"highest {share:.2f} % (/batch at {at} s)" in rules.text(),
         f"how near it came: {rules.text()}")
    with tempfile.TemporaryDirectory() as folder:
        with open(os.path.join(TOP, "examples", "runaway.json"), encoding="utf-8") as file:
            text = file.read().replace('"threshold":"40"', '"threshold":"90"')
        with open(os.path.join(folder, "high.json"), "w", encoding="utf-8") as file:
            file.write(text)
        page = read(
            page_of(
                program, os.path.join(TOP, "examples", "runaway.trace"), "--rules", "high.json",
                folder=folder,
            )
        )
    must("would have killed nobody; nearest was ruleset 0" in lead_of(page), lead_of(page))
    (rules,) = page.find("section", id="rules")
    must("It never fired: at most 1 of 2 detectors were true at once." in rules.text(),
         rules.text())
    must(f"{90 - share:.2f} % below" in rules.text(), "how far it is from firing")


def check_names_are_shown(program: str) -> None:
    """If the name of a group or a file looks like an HTML element, the page shows it as text."""
    with tempfile.TemporaryDirectory() as folder:
        with open(os.path.join(TOP, "examples", "runaway.json"), encoding="utf-8") as file:
            text = file.read().replace(
                "batch work is short of memory", "<script>alert(1)</script>"
            ).replace("stalled and", "</p><b>")
        name = "a <img src=x> b.json"
        with open(os.path.join(folder, name), "w", encoding="utf-8") as file:
            file.write(text)
        html = page_of(program, os.path.join(TOP, "examples", "runaway.trace"), "--rules", name,
                       folder=folder)
    page = read(html)
    must_be("scripts", len(page.find("script")), 2)
    must_be("images", len(page.find("img")) + len(page.find("b")), 0)
    must("Ruleset 0 ‘<script>alert(1)</script>’ would have killed" in lead_of(page), lead_of(page))
    must(name in page.text(), "the file's name is there")


def check_an_hour(program: str) -> None:
    """The page for an hour-long trace with many groups is smaller than 2 MB."""
    draw = random.Random(1)
    groups = [f"/g{number}" for number in range(12)]
    lines = ["psitrace 1 cpus=4", *(f"0 group {path}" for path in groups)]
    lines += [f"0 fork {number + 1} {path} {number % 4}" for number, path in enumerate(groups)]
    now, queues = 0, [[number + 1 for number in range(12) if number % 4 == cpu] for cpu in range(4)]
    running: list[int] = [0] * 4
    while now < 3600 * SECOND:
        now += draw.randrange(SECOND)
        cpu = draw.randrange(4)
        then = queues[cpu].pop(0)
        lines.append(f"{now} switch {cpu} {then} {'preempt' if running[cpu] else 'idle'}")
        queues[cpu] += [running[cpu]] if running[cpu] else []
        running[cpu] = then
        lines += [
            f"{now} mem {draw.choice(groups)} {draw.randrange(2**30)} 0 0"
        ] if draw.random() < 0.3 else []
    with tempfile.TemporaryDirectory() as folder:
        with open(os.path.join(folder, "hour.trace"), "w", encoding="ascii") as file:
            file.write("\n".join([*lines, f"{now} end\n"]))
        page = page_of(program, "hour.trace", folder=folder)
    must(200_000 < len(page) < 2 * 10**6, f"it has {len(page)} bytes")


def check_stored_pages(program: str) -> None:
    """The stored pages of the examples equal the pages that the command makes."""
    with open(os.path.join(TOP, "examples", "runaway.html"), "rb") as file:
        must(same(file.read()) == same(story(program)),
             "examples/runaway.html is what its command makes: make it anew")
    with tempfile.TemporaryDirectory() as folder:
        os.symlink(os.path.join(TOP, "examples"), os.path.join(folder, "examples"))
        page_of(program, "examples/real/debian-2cpu.trace", "-o", "debian-2cpu.html", folder=folder)
        example = os.path.join(TOP, "examples", "real", "debian-2cpu.html")
        made_here = os.path.join(folder, "debian-2cpu.html")
        with open(made_here, "rb") as output, open(example, "rb") as stored:
            must(same(stored.read()) == same(output.read()),
                 "examples/real/debian-2cpu.html is what its command makes: make it anew")


def check_nothing_from_elsewhere(program: str) -> None:
    """The page contains no reference that a browser would fetch, and its script is short."""
    page = read(story(program))
    for node in [
        it for tag in ("script", "img", "link", "iframe", "image", "use") for it in page.find(tag)
    ]:
        must(not {"src", "href", "xlink:href"} & node.attributes.keys(),
             f"{node.tag} names nothing: {node.attributes}")
    must(
        not re.search(r"url\(|@import|https?://(?!www\.w3\.org/2000/svg)", story(program).decode()),
        "there is no address",
    )
    with open(os.path.join(TOP, "tools", "psireport", "page.js"), encoding="utf-8") as file:
        must(len(file.readlines()) < 150, "the script is short")
