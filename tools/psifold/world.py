"""Replays a trace, and adds up the time for which each processor was in each joint state (see
joint.py). Unlike psireplay/world.py, it rejects invalid lines, since no other program has checked
the trace.

In this module a joint state is an integer with a bit for each element that occurs in some window.
So a task changes a joint state by an exclusive or, and the integer is the key of the joint state's
time.
"""
from __future__ import annotations

import re
from collections import Counter, defaultdict
from collections.abc import Callable, Iterator, Sequence

from psiworld.groups import MOST_BYTES
from psiworld.limits import LEAST_WINDOW, MOST_INTERRUPTS, MOST_LABEL, MOST_MEMORY, MOST_WINDOW

from .joint import KINDS, LEFT_BY, STALLED, WAY, Element, JointState, Kind

# Frequently used kinds as plain integers, which are faster than members of an enum.
READY, RUNNING = int(Kind.READY), int(Kind.RUNNING)

# The largest number of characters of a line that a message shows.
SHOWN = 100
NUMBER = r"(?:0|[1-9][0-9]{0,18})"
PATH = r"(?:/|(?:/(?!\.{1,2}(?:/|$))[A-Za-z0-9_.@:\\-]+){1,32}(?= |$))"
# Patterns for a group's path, and for the lines that are copied unchanged, without their times.
# `path_of_copy` also checks the numbers in these lines.
GROUP = re.compile(PATH)
SAMPLE = re.compile(rf"mem ({PATH}) {NUMBER} {NUMBER} {NUMBER}|host {NUMBER} {NUMBER} {NUMBER}")
PREFERENCE = re.compile(rf"prefer ({PATH}) (?:prefer|avoid|none)")
TRIGGER = re.compile(
    rf"trigger ({PATH}) (?:io|memory|cpu) (?:some|full) ([1-9][0-9]{{0,7}}) ([1-9][0-9]{{0,7}})"
)


class NotATrace(Exception):
    """Raised if a line of a trace is malformed, or isn't allowed at its place."""


def shortened(line: str) -> str:
    """Returns the line, or the first SHOWN characters of a longer line."""
    return line if len(line) <= SHOWN else f"{line[:SHOWN]} .."


def path_of_copy(line: str) -> str:
    """Returns the path of the group that a line names, or `/` if the line names no group. `line` is
    a line that is copied unchanged, without its time. Raises NotATrace if it is malformed.
    """
    found = SAMPLE.fullmatch(line) or PREFERENCE.fullmatch(line)
    if found and all(int(word) <= MOST_MEMORY for word in line.split(" ") if word.isdigit()):
        return found[1] or "/"
    found = TRIGGER.fullmatch(line)
    if found and LEAST_WINDOW <= int(found[3]) <= MOST_WINDOW and int(found[2]) <= int(found[3]):
        return found[1]
    raise NotATrace("it is malformed")


class Task:
    """A task. `place` is KINDS times its group's number, so that `place + kind` is the key of its
    element of the joint state.
    """

    __slots__ = ("place", "processor", "kind")

    def __init__(self, place: int, processor: int) -> None:
        self.place, self.processor, self.kind = place, processor, int(Kind.READY)


class Interrupts:
    """The time (ns) that interrupts took from running tasks on one processor in one window, by the
    task's group. `first` is the group and the time of the window's first interrupt line, which may
    include time before the window. `others` has the sum of the other lines by group.
    """

    def __init__(self) -> None:
        self.first: tuple[int, int] | None = None
        self.others: Counter[int] = Counter()

    def add(self, slot: int, length: int) -> None:
        """Adds an interrupt of `length` ns, which interrupted a task of the group `slot`."""
        if self.first is None:
            self.first = (slot, length)
        else:
            self.others[slot] += length


class Changes:
    """Counts the tasks that entered groups that might be killed, and the tasks that moved out of
    such groups or between them. `last` is the time (ns) of the last such event.
    """

    def __init__(self) -> None:
        self.came, self.moved, self.last = 0, 0, 0

    def note(self, time_ns: int, came: bool, moved: bool) -> None:
        """Counts a task that entered, moved, or both. Lines at time 0 don't count, because they
        describe the initial state.
        """
        if time_ns and (came or moved):
            self.came, self.moved, self.last = self.came + came, self.moved + moved, time_ns


class Catalog:
    """All groups and all elements of joint states that occurred so far. A group's number is its
    index in `paths` and `parents`. The bit number of an element is the index of its key in `keys`;
    the key is KINDS times the group's number plus the kind. Nothing is ever removed.
    """

    def __init__(self) -> None:
        self.paths = ["/"]
        self.parents: list[int | None] = [None]
        self.keys: list[int] = []

    def above(self, slot: int) -> set[int]:
        """Returns the ancestors of a group."""
        found, at = set[int](), self.parents[slot]
        while at is not None:
            found.add(at)
            at = self.parents[at]
        return found

    def joint_state(self, state: int) -> JointState:
        """Returns the elements of a joint state."""
        keys = (divmod(self.keys[number], KINDS) for number in bits_of(state))
        return frozenset(Element(self.paths[slot], Kind(kind)) for slot, kind in keys)

    def size(self) -> tuple[int, int]:
        """Returns the number of groups and the number of bits in the catalog."""
        return len(self.paths), len(self.keys)

    def since(self, size: tuple[int, int]) -> tuple[list[str], list[int | None], list[int]]:
        """Returns the paths, parents and keys that were added since the catalog had the sizes
        `size`.
        """
        return self.paths[size[0] :], self.parents[size[0] :], self.keys[size[1] :]

    def add(self, paths: list[str], parents: list[int | None], keys: list[int]) -> None:
        """Appends paths, parents and keys that `since` of another catalog returned."""
        self.paths += paths
        self.parents += parents
        self.keys += keys


class FoldWorld:
    """The state of the machine after the lines so far. Groups are numbered in order of creation,
    starting with the root (0).
    """

    def __init__(self, processors: int) -> None:
        self.processors = processors
        self.tasks: dict[int, Task] = {}
        # The number of each processor, by its text in a line.
        self.places = {str(place): place for place in range(processors)}
        # The number of each processor's running task, or 0 if none runs.
        self.runs = [0] * processors
        self.catalog = Catalog()
        self.paths, self.parents = self.catalog.paths, self.catalog.parents
        self.live = {"/": 0}
        self.off: set[int] = set()
        self.members: Counter[int] = Counter()
        # For each processor: `counts` has the number of tasks of each element, by the element's
        # key. `states` has the current joint state, and `since` the time (ns) at which it began.
        # `spent` has the time (ns) of each joint state in this window, and `interrupts` the
        # interrupts in this window.
        self.counts: list[dict[int, int]] = [defaultdict(int) for _ in range(processors)]
        self.states = [0] * processors
        self.since = [0] * processors
        self.spent: list[dict[int, int]] = [{} for _ in range(processors)]
        self.interrupts = [Interrupts() for _ in range(processors)]
        # The mask of each element's bit, by the element's key.
        self.bits: dict[int, int] = {}
        # For each group, `watched` has the groups that might be killed among itself and its
        # ancestors. `changes` counts the tasks that enter groups that might be killed, or move out
        # of them or between them. A folded trace can't preserve these events.
        self.watched: dict[int, set[int]] = {}
        self.changes = Changes()
        self.verbs: dict[str, Callable[[int, list[str]], None]] = {
            "fork": self.fork, "wake": self.ready, "migrate": self.ready, "switch": self.switch,
            "stall": self.stall,
            "unstall": self.stall, "move": self.move, "irq": self.interrupt,
        }  # fmt: skip

    # ------------------------------------------------------------ changes of tasks

    def change(self, processor: int, time_ns: int, before: int, after: int) -> None:
        """Moves a task on this processor from the element with the key `before` to the one with the
        key `after`. Elements of the kind ASLEEP aren't counted.
        """
        counts, bits = self.counts[processor], 0
        if before & 7:
            counts[before] = left = counts[before] - 1
            if not left:
                bits = self.bits[before]
        if after & 7:
            count = counts[after]
            counts[after] = count + 1
            if not count:
                bits ^= self.bits.get(after) or self.new_bit(after)
        if bits:
            state, since = self.states[processor], self.since[processor]
            if time_ns != since:
                spent = self.spent[processor]
                spent[state] = spent.get(state, 0) + time_ns - since
                self.since[processor] = time_ns
            self.states[processor] = state ^ bits

    def new_bit(self, key: int) -> int:
        """Assigns a bit to the element with this key."""
        bit = self.bits[key] = 1 << len(self.catalog.keys)
        self.catalog.keys.append(key)
        return bit

    def fork(self, time_ns: int, words: list[str]) -> None:
        """Creates a task, which is ready on a processor."""
        _, _, text, path, processor = words
        number, place = int(text), self.live[path] * KINDS
        if number in self.tasks:
            raise NotATrace(f"task {number} is there already")
        if not 0 < number <= MOST_LABEL or str(number) != text:
            raise NotATrace(f"{text} can't be a task's number")
        task = self.tasks[number] = Task(place, self.places[processor])
        self.members[place // KINDS] += 1
        if self.watched:
            self.changes.note(time_ns, place // KINDS in self.watched, False)
        self.change(task.processor, time_ns, 0, place + READY)

    def ready(self, time_ns: int, words: list[str]) -> None:
        """Makes a task ready, possibly on another processor."""
        _, verb, number, processor = words
        task, target, kind = self.tasks[int(number)], self.places[processor], 0
        if (verb == "wake") == (task.kind & READY):
            raise NotATrace(f"task {number} can't be the task of a {verb}")
        before, kind = task.place + task.kind, task.kind & STALLED | READY
        task.kind = kind
        if target == task.processor:
            self.change(target, time_ns, before, task.place + kind)
        else:
            self.change(task.processor, time_ns, before, 0)
            task.processor = target
            self.change(target, time_ns, 0, task.place + kind)

    def switch(self, time_ns: int, words: list[str]) -> None:
        """Switches a processor from its running task to another task, or to idle."""
        _, _, text, following, how = words
        processor, tasks = self.places[text], self.tasks
        number = self.runs[processor]
        if number:
            task = tasks[number]
            before = task.place + task.kind
            if how == "exit":
                self.members[task.place // KINDS] -= 1
                self.change(processor, time_ns, before, 0)
                del tasks[number]
            else:
                task.kind = task.kind & STALLED | LEFT_BY[how]
                self.change(processor, time_ns, before, task.place + task.kind)
        elif how != "idle":
            raise NotATrace(f"no task runs on processor {processor}")
        number = self.runs[processor] = int(following)
        if number:
            task = tasks[number]
            if task.kind & WAY != READY or task.processor != processor:
                raise NotATrace(f"task {number} isn't ready on processor {processor}")
            before = task.place + task.kind
            task.kind |= RUNNING
            self.change(processor, time_ns, before, task.place + task.kind)

    def stall(self, time_ns: int, words: list[str]) -> None:
        """Begins or ends the memory stall of a task, which must be running."""
        _, verb, number = words
        task = self.tasks[int(number)]
        if task.kind != (RUNNING if verb == "stall" else RUNNING | STALLED):
            raise NotATrace(f"task {number} can't be the task of this {verb}")
        before = task.place + task.kind
        task.kind ^= STALLED
        self.change(task.processor, time_ns, before, task.place + task.kind)

    def move(self, time_ns: int, words: list[str]) -> None:
        """Moves a task to another group, and counts the move if one of the groups might be killed.
        """
        _, _, number, path = words
        task = self.tasks[int(number)]
        before = task.place + task.kind
        self.members[task.place // KINDS] -= 1
        if self.watched:
            self.note_move(time_ns, task.place // KINDS, self.live[path])
        task.place = self.live[path] * KINDS
        self.members[task.place // KINDS] += 1
        self.change(task.processor, time_ns, before, task.place + task.kind)

    def interrupt(self, time_ns: int, words: list[str]) -> None:
        """Adds the time of interrupts to the group of the running task. The time is ignored if no
        task runs.
        """
        processor, length = self.places[words[2]], int(words[3])
        if not 0 <= length <= MOST_INTERRUPTS or len(words) != 4:
            raise NotATrace("a line of interrupts has at most a second")
        number = self.runs[processor]
        if number and length:
            self.interrupts[processor].add(self.tasks[number].place // KINDS, length)

    # ------------------------------------------------------------ changes of groups

    def group(self, path: str) -> int:
        """Creates a group, and returns its number."""
        parent = path.rpartition("/")[0] or "/"
        if (
            path in self.live
            or parent not in self.live
            or not GROUP.fullmatch(path)
            or len(path) > MOST_BYTES
        ):
            raise NotATrace(f"{shortened(path)} can't be made")
        slot = self.live[path] = len(self.paths)
        self.paths.append(path)
        self.parents.append(self.live[parent])
        return slot

    def rmgroup(self, path: str) -> None:
        """Removes a group, which must be empty."""
        slot = self.live[path]
        if self.members[slot] or any(self.parents[it] == slot for it in self.live.values()):
            raise NotATrace(f"{path} isn't empty")
        del self.live[path]
        self.off.discard(slot)
        self.members.pop(slot, None)

    def pressure(self, path: str, switched: str) -> None:
        """Switches the accounting of a group on or off."""
        if path == "/" or switched not in ("on", "off"):
            raise NotATrace("it is malformed")
        (self.off.discard if switched == "on" else self.off.add)(self.live[path])

    def watch(self, slots: Sequence[int]) -> None:
        """Sets the groups that might be killed. From then on, tasks that enter these groups or
        their descendants are counted.
        """
        each = (
            (
                (slot, {slot, *self.catalog.above(slot)}.intersection(slots))
                for slot in self.live.values()
            )
            if slots
            else ()
        )
        self.watched = {slot: found for slot, found in each if found}

    def note_move(self, time_ns: int, source: int, target: int) -> None:
        """Counts a task that moves from group `source` to group `target`, if one of the groups
        might be killed.
        """
        before, after = self.watched.get(source, set()), self.watched.get(target, set())
        self.changes.note(time_ns, not after <= before, bool(before) and source != target)

    # ------------------------------------------------------------ ends of time windows

    def close(self, time_ns: int) -> list[dict[int, int]]:
        """Ends the window at `time_ns`, and begins the next one. Returns, for each processor, the
        time (ns) of each joint state in the ended window.
        """
        closed = self.spent
        for processor, spent in enumerate(closed):
            if time_ns != self.since[processor]:
                state = self.states[processor]
                spent[state] = spent.get(state, 0) + time_ns - self.since[processor]
        self.spent = [{} for _ in range(self.processors)]
        self.since = [time_ns] * self.processors
        return closed

    def close_interrupts(self) -> list[Interrupts]:
        """Returns the interrupts of each processor in the window that ends, and clears the sums for
        the next one.
        """
        closed, self.interrupts = self.interrupts, [Interrupts() for _ in range(self.processors)]
        return closed


def bits_of(number: int) -> Iterator[int]:
    """Yields the positions of the set bits of `number`, in ascending order."""
    while number:
        lowest = number & -number
        yield lowest.bit_length() - 1
        number ^= lowest
