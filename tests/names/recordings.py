"""Checks of the companion files that psitrace makes from stored recordings."""
from __future__ import annotations

import re

from harness import must, must_be
from shared.rooms import Room
from shared.stored import recording

from psicli.times import SECOND
from psinames.clock import wall_text
from psinames.companion import Companion, find, lines_of, read

PSITRACE = "tools/psitrace"
FORK = re.compile(r"^(\d+) fork (\d+) ", re.MULTILINE)
START = "2026-11-28T14:00:00+01:00"


def convert(room: Room, folder: str, *words: str) -> tuple[str, Companion, str]:
    """Converts a recording, and returns its trace, its companion and its summary."""
    done = room.run(PSITRACE, folder, "-o", "x.trace", *words)
    must_be(f"the status of psitrace, which said {done.error}", done.status, 0)
    found = find(f"{room.path}/x.trace")
    assert found
    with open(f"{room.path}/x.trace", encoding="ascii") as file:
        return file.read(), found, done.error


def check_tasks_of_a_recording(room: Room) -> None:
    """Each task of the trace is in the companion, with its names before and after exec. That also
    holds for a part of a recording.
    """
    with recording("exec-2") as folder:
        trace, found, said = convert(room, folder, "--start", START)
        forks = sorted((int(label), int(now)) for now, label in FORK.findall(trace))
        must_be("the tasks", sorted((it.label, it.first) for it in found.tasks), forks)
        must_be("the start", found.start and wall_text(found.start), START)
        must(f"sha256 {found.digest}" in said, f"the summary has the sum: {said}")
        init = next(it for it in found.tasks if it.task == 1)
        must_be("process 1", init.name, "init")
        renamed = [it for it in found.tasks if len({name for _, name in it.names}) > 1]
        must(renamed != [], "some task has several names")
        _, part, _ = convert(room, folder, "--from", "5")
        names = {
            it.task: it.name_at(5 * SECOND)
            for it in found.tasks
            if it.first <= 5 * SECOND and it.name
        }
        must_be("a name before the part", next(it for it in part.tasks if it.task == 1).name,
                names[1])
        _, bare, _ = convert(room, folder, "--no-names")
        must_be("without names", (bare.tasks, bare.busy, bare.containers), ([], [], {}))


def check_a_folded_recording(room: Room) -> None:
    """Folding a recording merges tasks, but doesn't change which process ran most in each window.
    """
    with recording("exec-2") as folder:
        _, whole, _ = convert(room, folder)
        _, folded, _ = convert(room, folder, "--fold", "1", "--force")
    must_be("who ran", folded.busy, [it for it in whole.busy])
    must_be("labels", {it.label for it in folded.tasks}, {0})
    processes = {it.number for busy in folded.busy for it in busy.processes}
    must_be("the processes", {it.process for it in folded.tasks}, processes)


def check_an_anonymous_recording(room: Room) -> None:
    """An anonymous trace and its companion contain no names and no paths of the recording."""
    with recording("exec-2") as folder:
        trace, found, said = convert(room, folder)
        hidden, anonymous, _ = convert(room, folder, "--anonymize")
    paths = set(re.findall(r"^\d+ group (\S+)$", trace, re.MULTILINE))
    text = "\n".join([hidden, *lines_of(anonymous)])
    for secret in {
        *(part for path in paths for part in path.split("/") if part),
        *(it.name for it in found.tasks if len(it.name) > 2),
    }:
        must(secret not in text, f"{secret} is gone")
    must_be("the lines", len(hidden.splitlines()), len(trace.splitlines()))
    must_be("what check says", room.run("psi_oomd", "check", "x.trace").status, 0)
    must_be("the times", [line.split()[0] for line in hidden.splitlines()],
            [line.split()[0] for line in trace.splitlines()])


def check_the_clock_of_a_recording(room: Room) -> None:
    """The companion has the summary's time of day, in the requested time zone."""
    with recording("wakeups") as folder:
        _, found, said = convert(room, folder, "--from", "3", "--to", "4", "--tz", "+05:45")
    assert found.start
    shown = re.search(r"0 is (\S+) (\S+) UTC", said)
    must_be("the start", shown and wall_text(found.start._replace(ahead=0))[:23],
            shown and f"{shown[1]}T{shown[2]}")
    must_be("the zone", found.start.ahead, (5 * 3600 + 45 * 60) * SECOND)
    done = room.run(PSITRACE, "x.trace.names", "-o", "y.trace")
    must_be("a companion in place of a recording", (done.status, done.output), (2, ""))
    must_be("the length", read(f"{room.path}/x.trace.names").length, SECOND)
