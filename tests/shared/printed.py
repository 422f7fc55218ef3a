"""A parser of psi_oomd's output that uses no code of the tools."""
from __future__ import annotations

import collections

RESOURCES = ("io", "memory", "cpu")
LEVELS = ("some", "full")
AVERAGES = ("avg10", "avg60", "avg300")


class Printed:
    """A parsed output of psi_oomd. `shares` has pairs of time and share (percent), by group,
    resource, level and average. `events` has times by group, resource and level. `kills` has times
    and paths. Times are in ns.
    """

    def __init__(self, printed: bytes) -> None:
        self.shares: dict[tuple[str, str, str, str], list[tuple[int, float]]] = (
            collections.defaultdict(list)
        )
        self.events: dict[tuple[str, str, str], list[int]] = collections.defaultdict(list)
        self.kills: list[tuple[int, str]] = []
        head: list[str] = []
        for words in (line.split(" ") for line in printed.decode().splitlines()):
            if words[0] == "report":
                head = words[1:]
            elif words[0] in LEVELS:
                for average, share in (word.split("=") for word in words[1:4]):
                    self.shares[head[1], head[2], words[0], average].append(
                        (int(head[0]), float(share))
                    )
            elif words[0] == "event":
                self.events[words[3], words[4], words[5]].append(int(words[1]))
            elif words[0] == "kill":
                self.kills.append((int(words[1]), words[4]))
