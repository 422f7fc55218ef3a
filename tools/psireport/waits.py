"""The section of the report on which groups waited, and which groups ran at the same time."""
from __future__ import annotations

from operator import itemgetter
from typing import Any, Optional

from psichart.svg import add
from psicli.times import seconds
from psinames.tasks import Share, shares_text

from .facts import Blamed, Facts
from .html import Element, say, table
from .sections import SHOWN, in_seconds, rest, source

NOBODY = "no task"
NO_TASK = (
    "“No task” is the time in which a task was ready on a processor and none ran there: the"
    " processor was just waking up, or ran what a trace doesn’t have, as interrupts and a"
    " hypervisor’s other guests."
)
# The tables of a group's waits. Each row is the key of the table's parts in blame's JSON, the key
# of the total, and the table's caption.
MEANWHILE = (
    ("while_ran", "waited_ns", "{group} waited {time} s for a processor: while there ran"),
    (
        "io_at_the_same_time", "io_ns",
        "{group} waited {time} s for IO: tasks of these groups did at the same time",
    ),
    (
        "memory_at_the_same_time", "memory_ns",
        "{group} was in a memory stall for {time} s: tasks of these groups were at the same time",
    ),
)  # fmt: skip
# The keys of a group's values in blame's JSON. If a group has a child with equal values, the
# group's row is omitted.
MEASURED = (
    "ran_ns", "waited_ns", "io_ns", "memory_ns", "memory_grown_bytes", "scanned_pages", "while_ran"
)  # fmt: skip


def without_same(rows: list[dict[str, Any]], keys: tuple[str, ...]) -> list[dict[str, Any]]:
    """Removes the rows of groups that have a child with equal values, since all of their values
    come from this child.
    """
    found = []
    for it in rows:
        children = [
            other
            for other in rows
            if other is not it and (other["path"].rpartition("/")[0] or "/") == it["path"]
        ]
        if not any(all(child[key] == it[key] for key in keys) for child in children):
            found.append(it)
    return found


def longest_wait(group: dict[str, Any]) -> int:
    """Returns a group's longest wait (ns): for a processor, for IO, or in memory stalls."""
    return max(int(group[key]) for key in ("waited_ns", "io_ns", "memory_ns"))


def groups_table(section: Element, blamed: Blamed) -> None:
    rows = sorted(without_same(blamed.all["groups"], MEASURED), key=longest_wait, reverse=True)
    heads = [
        "group", "ran", "waited for a processor", "for IO", "in memory stalls",
        "memory grown, MiB", "pages scanned",
    ]  # fmt: skip
    cells = [
        [
            with_processes(it["group"], it), in_seconds(it["ran_ns"]), in_seconds(it["waited_ns"]),
            in_seconds(it["io_ns"]), in_seconds(it["memory_ns"]),
            "-" if it["memory_grown_bytes"] is None else f"{it['memory_grown_bytes'] / 2**20:.1f}",
            "-" if it["scanned_pages"] is None else str(it["scanned_pages"]),
        ]
        for it in rows if it["ran_ns"] or it["waited_ns"] or it["io_ns"] or it["memory_ns"]
    ]  # fmt: skip
    caption = f"All of the trace, in s, summed over {blamed.all['processors']} processors"
    table(section, caption, heads, cells[:SHOWN])
    rest(section, len(cells), "groups")


def part_name(group: Optional[str], of: str) -> str:
    return NOBODY if group is None else f"{group} itself" if group == of else group


def with_processes(name: str, it: dict[str, Any]) -> str:
    """Returns a group's name. If processes have names, appends the processes of the group that ran.
    """
    parts = it.get("processes", [])
    shares = [Share(part["name"], tuple(part["pids"]), part["ns"]) for part in parts]
    return f"{name}: {shares_text(shares)}" if shares else name


def parts_table(
    section: Element, it: dict[str, Any], parts: list[dict[str, Any]], whole: int, caption: str
) -> None:
    """Adds a table of the parts of a group's time. Has no effect if there are no parts."""
    rows = [
        [
            with_processes(part_name(part["group"], it["group"]), part), in_seconds(part["ns"]),
            f"{100 * part['ns'] / whole:.1f} %",
        ]
        for part in parts[:SHOWN]
    ]  # fmt: skip
    if rows:
        text = caption.format(group=it["group"], time=in_seconds(whole))
        table(section, text, ["group", "s", "of it"], rows)


def matrix(section: Element, blamed: Blamed) -> None:
    """Adds a matrix that shows which groups waited, and which groups ran at the same time."""
    waiting = [it for it in without_same(blamed.all["groups"], ("while_ran",)) if it["waited_ns"]]
    waiting.sort(key=itemgetter("waited_ns"), reverse=True)
    totals: dict[Optional[str], int] = {}
    for it in waiting:
        for part in it["while_ran"]:
            totals[part["group"]] = totals.get(part["group"], 0) + part["ns"]
    runners = sorted(totals, key=lambda it: -totals[it])
    if not waiting:
        say(section, "p", "No group waited for a processor.")
        return
    heads = ["waited", "s", *(NOBODY if it is None else it for it in runners[:SHOWN])]
    heads += ["others"] if len(runners) > SHOWN else []
    rows = []
    for it in waiting[:SHOWN]:
        times = {part["group"]: part["ns"] for part in it["while_ran"]}
        cells = [times.get(runner, 0) for runner in runners]
        cells = cells[:SHOWN] + ([sum(cells[SHOWN:])] if len(runners) > SHOWN else [])
        texts = [in_seconds(cell) if cell else "·" for cell in cells]
        rows.append([it["group"], in_seconds(it["waited_ns"]), *texts])
    caption = "Who waited for a processor (rows), and who ran there meanwhile (columns), in s"
    table(section, caption, heads, rows)
    rest(section, len(waiting), "groups waited")


def blame(page: Element, facts: Facts, blamed: Blamed) -> None:
    section = add(page, "section", id="blame")
    say(section, "h2", "Who waited for whom")
    text = "What ran on a processor is what a group waited for there "
    say(section, "p", text, source(blamed.run), ".", class_="soft")
    row = add(section, "div", class_="row")
    groups_table(add(row, "div"), blamed)
    matrix(add(row, "div"), blamed)
    start, to = (seconds(blamed.worst[key]) for key in ("from_ns", "to_ns"))
    text = f"{facts.subject.path} in the worst stretch, {start} to {to} s "
    say(section, "h3", text, source(blamed.worst_run))
    row = add(section, "div", class_="row")
    for it in blamed.worst["groups"]:
        for key, whole, caption in MEANWHILE:
            parts_table(row, it, it[key], it[whole], caption)
    if any(part["group"] is None for it in blamed.all["groups"] for part in it["while_ran"]):
        say(section, "p", NO_TASK, class_="soft")
    text = (
        "“At the same time” is no cause: a trace doesn’t say who kept the disk busy or used up the"
        " memory."
    )
    say(section, "p", text, class_="soft")
