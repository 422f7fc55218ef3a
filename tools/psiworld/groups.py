"""Keeps the control groups of a trace: which groups exist, how many tasks and children each group
has, and which groups are replaced by an ancestor because of a limit.
"""
from __future__ import annotations

from collections import Counter

# The limits of a trace: the number of groups that are ever created (without the root), the number
# of components of a path, and the bytes of a path.
MOST_GROUPS = 1023
MOST_LEVELS = 32
MOST_BYTES = 255
ROOT = "/"


def parent_of(path: str) -> str:
    """Returns the path of a group's parent. The parent of the root is the root itself."""
    return path.rpartition("/")[0] or ROOT


def prefixes_of(path: str) -> list[str]:
    """Returns the paths of a group's ancestors without the root, from the top down, followed by the
    group's own path.
    """
    ends = [place for place, letter in enumerate(path) if letter == "/" and place] + [len(path)]
    return [path[:end] for end in ends] if path != ROOT else []


class Groups:
    """All groups by path. A group that is removed while it has tasks stays in the trace until its
    last task leaves. A group with more than `deepest` components is replaced by an ancestor.
    """

    def __init__(self, deepest: int | None = None) -> None:
        self.deepest = deepest
        self.tasks: Counter[str] = Counter()
        self.children: Counter[str] = Counter()
        self.live = {ROOT}
        self.leaving: set[str] = set()
        self.made = 0
        # For each path that the trace can't have, the path of the ancestor that replaces it.
        self.folded: dict[str, str] = {}
        # The groups that are replaced by an ancestor because of a limit, keyed by a description of
        # the limit.
        self.limits: dict[str, list[str]] = {}

    def limit_of(self, path: str) -> str | None:
        """Returns a description of the limit that a new group with this path would exceed, or None
        if it exceeds none.
        """
        if path.count("/") > MOST_LEVELS:
            return f"more than {MOST_LEVELS} levels"
        if len(path) > MOST_BYTES:
            return f"more than {MOST_BYTES} bytes"
        return f"more than {MOST_GROUPS} groups" if self.made >= MOST_GROUPS else None

    def make(self, path: str) -> tuple[str, list[str]]:
        """Adds a group. Returns its path in the trace, and the paths of the groups to create,
        parents first. If the trace can't have the group, its path in the trace is the path of an
        ancestor.
        """
        if path in self.live:
            return path, []
        place = ROOT
        made: list[str] = []
        for one in prefixes_of(path):
            if one in self.live:
                place = one
                continue
            if self.is_folded(one):
                self.folded[path] = self.folded[one]
                return self.folded[one], made
            limit = self.limit_of(one)
            if limit or (self.deepest is not None and one.count("/") > self.deepest):
                self.folded[one] = self.folded[path] = place
                if limit:
                    self.limits.setdefault(limit, []).append(one)
                return place, made
            self.live.add(one)
            self.children[place] += 1
            self.made += 1
            made.append(one)
            place = one
        return place, made

    def is_folded(self, path: str) -> bool:
        """Whether this group is replaced by an existing ancestor."""
        return self.folded.get(path) in self.live

    def place_of(self, path: str) -> str | None:
        """Returns the group's path in the trace, or the path of the ancestor that replaces it.
        Returns None if the group doesn't exist.
        """
        return path if path in self.live else self.folded[path] if self.is_folded(path) else None

    def enter(self, path: str) -> None:
        """Counts a task that enters a group."""
        self.tasks[path] += 1

    def leave(self, path: str) -> list[str]:
        """Removes a task from a group. Returns the groups that the trace can remove then."""
        self.tasks[path] -= 1
        return self.swept(path)

    def remove(self, path: str) -> list[str]:
        """Marks a group for removal, because the kernel removed it. Returns the groups that the
        trace can remove at once.
        """
        self.folded.pop(path, None)
        if path not in self.live or path == ROOT:
            return []
        self.leaving.add(path)
        return self.swept(path)

    def swept(self, path: str) -> list[str]:
        """Removes the group if it is marked for removal and empty. Then removes its parent and
        further ancestors, as long as they are marked and empty too. Returns the removed groups.
        """
        removed = []
        while path in self.leaving and not self.tasks[path] and not self.children[path]:
            self.leaving.remove(path)
            self.live.remove(path)
            self.children[parent_of(path)] -= 1
            removed.append(path)
            path = parent_of(path)
        return removed

    def is_leaving(self, path: str) -> bool:
        """Whether the kernel has removed the group while the trace still has it."""
        return path in self.leaving

    def leaving_below(self, path: str) -> list[str]:
        """Returns this group and its descendants as far as they are marked for removal, the deepest
        first.
        """
        found = (it for it in self.leaving if it == path or it.startswith(path + "/"))
        return sorted(found, key=lambda it: (-it.count("/"), it))

    def keep(self, path: str) -> None:
        """Unmarks a group for removal, so that it stays in the trace."""
        self.leaving.discard(path)
