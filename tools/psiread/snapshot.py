"""Reads a recording's snapshot: a list of the groups and threads at one time in the recording."""
from __future__ import annotations

import re

from psirec.layout import PREFERENCES, SNAPSHOT, SNAPSHOT_END, escaped_path

from .files import text_of
from .source import ListedTask, Snapshot

NUMBER = re.compile("[0-9]{1,18}")


def snapshot_of(folder: str) -> Snapshot:
    """Parses the snapshot. Malformed lines are ignored, since a task's name may contain any
    characters.
    """
    snapshot, text = Snapshot(), text_of(folder, SNAPSHOT)
    for words in (line.split(" ", 6) for line in text.split("\n")):
        if words == [SNAPSHOT_END]:
            snapshot.has_end = True
        elif words[0] == "at" and len(words) == 2 and NUMBER.fullmatch(words[1]):
            snapshot.time_ns = int(words[1])
        elif words[0] == "group" and len(words) == 3 and words[2] in PREFERENCES:
            snapshot.groups[path_of(words[1])] = words[2]
        elif words[0] == "type" and len(words) == 3:
            snapshot.types[path_of(words[1])] = words[2]
        elif words[0] == "unaccounted" and len(words) == 2:
            snapshot.unaccounted.append(path_of(words[1]))
        elif (
            words[0] == "task"
            and len(words) >= 6
            and all(NUMBER.fullmatch(words[place]) for place in (1, 2, 4))
        ):
            snapshot.tasks[int(words[1])] = ListedTask(
                int(words[2]), words[3], int(words[4]), path_of(words[5]), *words[6:7]
            )
    snapshot.tasks.pop(0, None)
    snapshot.is_cut = not text.endswith("\n")
    return snapshot


def path_of(text: str) -> str:
    """Converts a path in a recording's files to the notation of a trace."""
    return escaped_path(text.encode("utf-8", "surrogateescape"))
