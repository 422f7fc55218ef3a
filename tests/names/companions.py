"""Makes companion files (process names, container names and times of day) for traces without a
recording, from the lines of the trace.
"""
from __future__ import annotations

from shared.rooms import Room

from psicli.times import wall_time
from psinames.busy import Clocks
from psinames.companion import Companion, companion_of, digest_of, write
from psinames.lives import Life

BEGAN = "2026-11-28T14:00:00+01:00"
WINDOW = 10**9


def first_process(label: int) -> int:
    """Returns the process number of a task that isn't a thread of another process."""
    return 1000 + label


def companion(  # noqa: B006
    trace: str, names: dict[int, str], begins: str = BEGAN, processes: dict[int, int] = {}
) -> Companion:
    """Returns the companion of a trace that starts at the time of day `begins`. `names` has
    process names by task label, and `processes` the process numbers of the tasks that are threads.
    """
    size, digest = digest_of([trace.encode()])
    lives: dict[int, Life] = {}
    groups: dict[int, str] = {}
    runs: dict[int, int] = {}
    found, clocks = Companion(size, digest, 0, wall_time(begins), window=WINDOW), Clocks(WINDOW)
    for line in trace.splitlines()[1:]:
        now, verb, *fields = line.split()
        if verb == "fork":
            label = int(fields[0])
            process = processes.get(label, first_process(label))
            leader = next((it for it in reversed(found.tasks) if it.task == process), None)
            life = lives[label] = Life(label, int(now), first_process(label), process, leader)
            life.rename(int(now), names.get(label, f"task {label}"))
            found.tasks.append(life)
            groups[label] = fields[1]
        elif verb == "move":
            groups[int(fields[0])] = fields[1]
            for processor, label in runs.items():
                if label == int(fields[0]):
                    clocks.run(processor, fields[1], lives[label], int(now))
        elif verb == "switch":
            processor, label = int(fields[0]), int(fields[1])
            clocks.run(processor, groups.get(label, ""), lives.get(label), int(now))
            if fields[2] == "exit":
                gone = runs[processor]
                lives.pop(gone).last = int(now)
            runs[processor] = label
        elif verb == "end":
            found.length = int(now)
    found.busy = clocks.finish(found.length)
    return found


def with_companion(room: Room, name: str, trace: str, found: Companion) -> str:
    """Writes a trace and its companion file, and returns the name of the trace."""
    room.file(name, trace)
    write(f"{room.path}/{companion_of(name)}", found)
    return name
