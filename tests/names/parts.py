"""Checks of the times that blame prints for processes. They must equal the times that it prints for
groups if each process has a group of its own.
"""
from __future__ import annotations

import json
from collections import Counter
from typing import Any

from harness import must, must_be
from names.companions import companion, first_process, with_companion
from shared.rooms import RUNAWAY, Room
from shared.traces import Maker

BLAME = "tools/blame"
TRACES = 12
# Tasks that are threads: the task's label, with the number of the process to which the thread
# belongs.
THREADS = {3: first_process(1), 5: first_process(2)}


class Load(Maker):
    """Makes random traces in which groups wait often."""

    FIRST = {**Maker.FIRST, "fork": 5, "stall": 1, "move": 2}
    OFTEN = {1: FIRST, 2: FIRST}


def process_of(label: int) -> int:
    """Returns the number of the process to which the task with this label belongs."""
    return THREADS.get(label, first_process(label))


def with_groups_of_processes(trace: str) -> str:
    """Returns the trace with each process in a new group of its own, below the group in which the
    process was.
    """
    lines, live = [], set[str]()

    def group_of(now: str, path: str, label: str) -> str:
        own = f"{path.rstrip('/')}/p{process_of(int(label))}"
        if own not in live:
            live.add(own)
            lines.append(f"{now} group {own}")
        return own

    for line in trace.splitlines():
        now, verb, *fields = [*line.split(), ""]
        if verb == "fork":
            lines.append(
                f"{now} fork {fields[0]} {group_of(now, fields[1], fields[0])} {fields[2]}"
            )
        elif verb == "move":
            lines.append(f"{now} move {fields[0]} {group_of(now, fields[1], fields[0])}")
        elif verb == "rmgroup":
            empty = sorted(it for it in live if it.rpartition("/")[0] == fields[0])
            lines += [f"{now} rmgroup {it}" for it in empty] + [line]
            live -= set(empty)
        else:
            lines.append(line)
    return "\n".join(lines) + "\n"


def groups_in(room: Room, *words: str) -> list[dict[str, Any]]:
    """Returns the entries of all groups in blame's JSON output."""
    done = room.run(BLAME, *words, "--json")
    must_be(f"the status of blame {words}, which said {done.error}", done.status, 0)
    found: list[dict[str, Any]] = json.loads(done.output)["groups"]
    return found


def base(name: str) -> str:
    """Returns the group above a process's own group. The number that distinguishes groups with the
    same path is removed.
    """
    return name.partition("#")[0].rpartition("/")[0] or "/"


def check_parts_by_process(room: Room) -> None:
    """In random traces with threads and moves, the times of each process equal those of a group
    that contains only this process.
    """
    for seed in range(TRACES):
        trace = Load(seed, 1).trace()
        with_companion(room, "a.trace", trace, companion(trace, {}, processes=THREADS))
        room.file("b.trace", with_groups_of_processes(trace))
        plain = {it["group"]: it for it in groups_in(room, "b.trace")}
        for it in groups_in(room, "a.trace"):
            wanted: Counter[tuple[str, int]] = Counter()
            for part in plain[it["group"]]["while_ran"]:
                if part["group"] is not None:
                    wanted[
                        base(part["group"]),
                        int(part["group"].partition("#")[0].rpartition("/p")[2]),
                    ] += part["ns"]
            found: Counter[tuple[str, int]] = Counter()
            for part in it["while_ran"]:
                shares = part.get("processes", [])
                must_be("the parts of a part", sum(share["ns"] for share in shares),
                        part["ns"] if part["group"] is not None else 0)
                for share in shares:
                    found[part["group"].partition("#")[0], share["pids"][0]] += share["ns"]
            must_be(f"trace {seed}, who ran while {it['group']} waited", found, wanted)


TEXT = """/batch/index waited 12.120 s for a processor between 100 s and 220 s \
(10.1 percent of the time on 1 of 2 processors)
  while there ran       s    of it
  /batch/import    12.120  100.0 %  `import` (pid 1003) 12.120 s
"""


def check_names_in_the_text(room: Room) -> None:
    """The text output lists the processes of a group after the times of the group. With --no-names
    it omits them.
    """
    with open(RUNAWAY, encoding="ascii") as file:
        trace = file.read()
    with_companion(room, "r.trace", trace,
                   companion(trace, {1: "httpd", 2: "indexer", 3: "import"}))
    words = (BLAME, "r.trace", "--group", "/batch/index", "--from", "14:01:40", "--to", "14:03:40")
    done = room.run(*words)
    must_be("the status", (done.status, done.error), (0, ""))
    must(done.output.startswith(TEXT), f"the text begins with the import: {done.output}")
    must("`" not in room.run(*words, "--no-names").output, "without names")
    threads = room.run(*words, "--threads").output
    must("`import` (thread 1003) 12.120 s" in threads, f"threads: {threads}")
