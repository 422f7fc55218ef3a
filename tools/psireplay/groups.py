"""Tracks the groups of a trace, and their last memory samples, event by event."""
from __future__ import annotations

from collections.abc import Callable, Iterator
from typing import NamedTuple

from psicli.fault import Fault
from psicli.status import Status
from psicli.wording import suggested
from psiworld.groups import ROOT, parent_of


class Sample(NamedTuple):
    """A `mem` line: a group's memory and swap in use (bytes), and the number of pages that the
    kernel has scanned since the group's creation.
    """

    memory: int
    swap: int
    scanned: int


class Host(NamedTuple):
    """A `host` line: the machine's memory, its swap, and its free swap (bytes)."""

    memory: int
    swap: int
    swap_free: int


class Group:
    """A group from its creation to its removal (`made` and `removed`, ns). Groups are numbered in
    the order of their creation, and the root is 0. `life` numbers the groups with the same path,
    from 1. `counted` contains the numbers of this group and of its ancestors, except those whose
    accounting is off. A task of this group counts in all of them.
    """

    __slots__ = (
        "path", "number", "parent", "life", "made", "removed", "is_accounted", "counted",
        "children", "tasks", "preference", "sample", "scanned_by_removed",
    )  # fmt: skip

    def __init__(self, path: str, number: int, parent: Group | None, life: int, made: int) -> None:
        self.path, self.number, self.parent = path, number, parent
        self.life, self.made = life, made
        self.removed: int | None = None
        self.is_accounted = True
        self.children: dict[str, Group] = {}
        self.tasks = 0
        self.preference = "none"
        self.sample: Sample | None = None
        # The pages scanned for removed children. They remain part of this group's count.
        self.scanned_by_removed = 0
        self.find_counted()

    def find_counted(self) -> None:
        """Updates `counted`. Requires that the parent's `counted` is up to date."""
        above: tuple[int, ...] = self.parent.counted if self.parent else ()
        self.counted: tuple[int, ...] = (self.number, *above) if self.is_accounted else above

    def line(self) -> Iterator[Group]:
        """Yields the group and its ancestors, up to the root."""
        group: Group | None = self
        while group:
            yield group
            group = group.parent

    def is_below(self, top: Group) -> bool:
        """Returns whether the group is `top` or a descendant of `top`."""
        return any(group is top for group in self.line())

    def whole_sample(self) -> Sample | None:
        """Returns the group's last sample. Without one, returns the sum of its children's samples,
        since the kernel also charges a child's memory to its parent. Returns None if neither the
        group nor a descendant has a sample.
        """
        if self.sample or self.path == ROOT:
            return self.sample
        below = [it for it in (child.whole_sample() for child in self.children.values()) if it]
        if not below:
            return None
        scanned = self.scanned_by_removed + sum(it.scanned for it in below)
        return Sample(sum(it.memory for it in below), sum(it.swap for it in below), scanned)

    def has_tasks(self) -> bool:
        """Returns whether the group or a descendant has a task."""
        return self.tasks > 0 or any(child.has_tasks() for child in self.children.values())


class Groups:
    """The groups of a trace up to the current event. `all` contains every group by number, `live`
    the existing groups by path, and `counts` the number of groups that were created with each path.
    `host` is the last sample of the host, and `samples` the number of memory samples. Events must
    be in order of time: `now` is the time (ns) of the last event. Tools override `pass_to`, `made`
    and `removed`.
    """

    def __init__(self) -> None:
        self.now = 0
        self.all = [Group(ROOT, 0, None, 1, 0)]
        self.live = {ROOT: self.all[0]}
        self.counts = {ROOT: 1}
        self.host: Host | None = None
        self.samples = 0
        self.plays: dict[str, Callable[..., None]] = {
            "group": self.play_group, "rmgroup": self.play_rmgroup, "prefer": self.play_prefer,
            "mem": self.play_mem, "host": self.play_host, "pressure": self.play_pressure,
        }  # fmt: skip

    def take(self, time_ns: int, verb: str, fields: list[str]) -> None:
        """Applies an event at `time_ns`. Ignores verbs that don't concern groups."""
        if time_ns != self.now:
            if time_ns < self.now:
                raise ValueError("time goes back")
            self.pass_to(time_ns)
            self.now = time_ns
        play = self.plays.get(verb)
        if play:
            play(*fields)

    def pass_to(self, time_ns: int) -> None:
        """Called before time advances from `now` to `time_ns`, which is the time of the next event.
        """

    def made(self, group: Group) -> None:
        """Called after `group` was created."""

    def removed(self, group: Group) -> None:
        """Called after `group` was removed."""

    # ------------------------------------------------------------ the verbs of events

    def play_group(self, path: str) -> None:
        life = self.counts[path] = self.counts.get(path, 0) + 1
        parent = self.live[parent_of(path)]
        group = Group(path, len(self.all), parent, life, self.now)
        self.all.append(group)
        self.live[path] = parent.children[path] = group
        self.made(group)

    def play_rmgroup(self, path: str) -> None:
        group = self.live.pop(path)
        group.removed = self.now
        if group.parent:
            del group.parent.children[path]
            sample = group.whole_sample()
            scanned = sample.scanned if sample else group.scanned_by_removed
            group.parent.scanned_by_removed += scanned
        self.removed(group)

    def play_prefer(self, path: str, preference: str) -> None:
        self.live[path].preference = preference

    def play_mem(self, path: str, memory: str, swap: str, scanned: str) -> None:
        self.live[path].sample = Sample(int(memory), int(swap), int(scanned))
        self.samples += 1

    def play_host(self, memory: str, swap: str, swap_free: str) -> None:
        self.host = Host(int(memory), int(swap), int(swap_free))
        self.samples += 1

    def play_pressure(self, path: str, word: str) -> None:
        group = self.live[path]
        group.is_accounted = word == "on"
        # A group's number is larger than its parent's, so each parent is updated before its
        # children.
        for other in self.all[group.number :]:
            if other.is_below(group):
                other.find_counted()

    # ------------------------------------------------------------ names of groups

    def name(self, group: Group) -> str:
        """Returns the group's path. If several groups had this path, appends `#` and the group's
        number among them. No path contains a `#`.
        """
        return group.path if self.counts[group.path] == 1 else f"{group.path}#{group.life}"

    def named(self, word: str) -> list[Group]:
        """Returns the groups with the path `word`, or the single group that `word` names in the
        form PATH#N. Raises a Fault if there never was such a group.
        """
        path, _, life = word.partition("#")
        found = [it for it in self.all if it.path == path and (not life or str(it.life) == life)]
        if not found:
            had = suggested(word, [self.name(it) for it in self.all])
            raise Fault(
                f"no group {word} ever lived in the trace, which has {had}", Status.NO_GROUP
            )
        return found
