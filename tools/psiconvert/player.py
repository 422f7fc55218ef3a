"""Applies a recording's events one by one, and writes the lines of the trace. An event that
contradicts the known state is accepted, and counted in `mended`. Such events are rare in a sound
recording; after losses the counts measure the damage.
"""
from __future__ import annotations

from collections import Counter, defaultdict
from collections.abc import Callable, Sequence

from psinames.text import escaped

from psiread.events import (
    CLONE_INTO_CGROUP, CLONE_THREAD, EXITED, Attach, AttachProbe, Event, Exec, FirstWakeup,
    GroupMade, GroupRemoved, Interrupts,
    Marker, Migration, Named, NewTask, StallBegins, StallEnds, Switch, Victim, Wakeup,
)  # fmt: skip
from psirec.layout import MARK, PLAIN_TYPE, escaped_path
from psiworld.groups import ROOT
from psiworld.limits import MOST_MEMORY
from psiworld.world import How, State, Task, World

from .accounts import Account

# The state letter of a task that leaves the processor and remains ready.
STAYS = "R"


class Samples:
    """The last memory samples of the machine and of each group, as the words of a trace's lines."""

    def __init__(self) -> None:
        self.host = ""
        self.groups: dict[str, str] = {}


class Player:
    """Applies events one by one. `waits` contains the indices of the switches that begin a wait for
    IO, `accounts` the changes of accounting, keyed by the event's index, and `types` the known
    types of groups, keyed by path.
    """

    def __init__(
        self,
        world: World,
        events: Sequence[Event],
        waits: set[int],
        accounts: dict[int, list[Account]],
        types: dict[str, str],
    ) -> None:
        self.world, self.waits, self.accounts, self.types = world, waits, accounts, dict(types)
        self.samples = Samples()
        self.victims: list[tuple[int, int]] = []
        # The attach probe of each move between groups that is in progress. The key is the number of
        # the task that writes to `cgroup.procs` or `cgroup.threads`.
        self.moves: dict[int, AttachProbe] = {}
        # The group that each process created last. The key is the process's number.
        self.groups_made: dict[int, str] = {}
        self.mended: Counter[str] = world.mended
        # The coming changes of a task's number by exec, keyed by the new number: the index of each
        # exec event, and the old number. A thread uses its new number already some time before the
        # exec event.
        self.changes: dict[int, list[tuple[int, int]]] = defaultdict(list)
        for place, event in enumerate(events):
            if isinstance(event, Exec) and event.task != event.old and event.task:
                self.changes[event.task].append((place, event.old))

    def play(self, place: int, event: Event) -> None:
        """Applies the event with the index `place`."""
        if isinstance(event, Switch):
            self.switch(place, event)
        elif isinstance(event, Wakeup):
            self.wake(place, event)
        elif isinstance(event, Migration):
            self.migrate(event)
        elif isinstance(event, (StallBegins, StallEnds)):
            self.stall(event)
        elif isinstance(event, Named):
            self.name(event)
        elif isinstance(event, Interrupts):
            self.world.interrupt(event.processor, event.delta)
        elif isinstance(event, Marker):
            self.mark(event)
        elif isinstance(event, NewTask):
            self.new_task(event)
        elif isinstance(event, FirstWakeup):
            self.first_wakeup(event)
        elif isinstance(event, Exec):
            self.exec(event)
        elif isinstance(event, AttachProbe):
            self.moves[event.current] = event
        elif isinstance(event, Attach):
            self.attach(event)
        elif isinstance(event, (GroupMade, GroupRemoved)):
            self.group(event)
        elif isinstance(event, Victim):
            self.victims.append((self.world.now, event.task))
        for account in self.accounts.get(place, ()):
            self.world.switch_accounting(*account)

    # ------------------------------------------------------------ the numbers of tasks

    def is_task(self, number: int) -> bool:
        """Returns whether `number` isn't 0, the idle task. In a sound recording no event wakes,
        creates or renames the idle task. Such an event is counted and ignored.
        """
        if not number:
            self.mended["event of the idle task that it can't have, left out"] += 1
        return number != 0

    def group_of(self, number: int) -> str:
        """Returns the group of a task, or the root if the task isn't known."""
        task = self.world.tasks.get(number)
        return task.group if task else ROOT

    def task_of(self, number: int, place: int, fits: Callable[[Task], bool]) -> Task | None:
        """Returns the task `number`, or None. `fits` says whether a task can cause the event with
        the index `place`. If a later exec event gives the number to another thread, that thread
        gets it now if no task has it, or if only that thread fits.
        """
        changes, tasks = self.changes.get(number), self.world.tasks
        while changes and changes[0][0] < place:
            changes.pop(0)
        if changes and changes[0][1] in tasks:
            first, thread = tasks.get(number), tasks[changes[0][1]]
            if first is None or (not fits(first) and fits(thread)):
                self.change_number(number, changes.pop(0)[1])
        return tasks.get(number)

    def change_number(self, number: int, old: int) -> None:
        """Gives the thread `old` the number of its process's first thread. If the first thread
        still exists, the two exchange their numbers, and the first thread exits under the number
        `old`.
        """
        self.world.swap_numbers(number, old)
        self.mended["number changed by exec"] += 1

    def is_swapped(self, number: int, processor: int) -> bool:
        """Returns whether a later exec event gives the number of the running task to the thread
        `number`.
        """
        changes = self.changes.get(self.world.running(processor))
        return bool(changes and changes[0][1] == number)

    # ------------------------------------------------------------ switches

    def switch(self, place: int, event: Switch) -> None:
        """Switches to the next task. If the previous task wasn't known to run, or the next task
        wasn't known to be ready, repairs that first.
        """
        world, (_, processor, _, previous, state, number) = self.world, event
        runs, comes = world.runs.get(processor, 0), world.tasks.get(number)
        if (
            runs != previous
            or number in self.changes
            or not (comes.is_on(processor, State.READY) if comes else number == 0)
        ):
            self.leaver(place, event)
            self.follower(place, event)
            runs = world.runs.get(processor, 0)
        if runs != number:
            world.leave(processor, self.how(place, state), number)

    def how(self, place: int, state: str) -> How:
        """Returns how the previous task leaves the processor. A task that remains ready doesn't
        wait for IO, even if `waits` contains the switch.
        """
        if state == STAYS:
            return How.PREEMPT
        if state in EXITED:
            return How.EXIT
        return How.WAIT if place in self.waits else How.SLEEP

    def leaver(self, place: int, event: Switch) -> None:
        """Makes the previous task of a switch run if it isn't known to run. Another task that was
        known to run on the processor is assumed to have gone to sleep.
        """
        world, number, processor = self.world, event.previous, event.processor
        running = world.running(processor)
        if running == number:
            return
        if not number:
            world.leave(processor, How.SLEEP)
            self.mended["processor was idle, though a task was known to run"] += 1
            return
        if self.is_swapped(number, processor):
            self.change_number(running, number)
            return
        if not self.task_of(number, place, lambda task: task.is_on(processor, State.RUNNING)):
            world.fork(number, ROOT, processor, number)
            self.mended["task first met when it left"] += 1
        elif world.running(processor) != number:
            self.mended["task left that wasn't known to run"] += 1
        world.run(number, processor, How.SLEEP)

    def follower(self, place: int, event: Switch) -> None:
        """Makes the next task of a switch ready if it isn't known to be ready."""
        world, number, processor = self.world, event.next, event.processor
        if not number or world.running(processor) == number:
            return
        task = self.task_of(number, place, lambda task: task.is_on(processor, State.READY))
        if task is None:
            world.fork(number, ROOT, processor, number)
            self.mended["task first met when it ran"] += 1
        elif world.running(processor) != number and not task.is_on(processor, State.READY):
            self.mended["task ran that wasn't known to be ready there"] += 1
            world.ready(number, processor)

    # ------------------------------------------------------------ new tasks, wakeups and migrations

    def wake(self, place: int, event: Wakeup) -> None:
        """Wakes a task that sleeps or waits for IO. Creates the task if it isn't known. Has no
        effect on a task that is ready or runs.
        """
        _, _, _, number, target = event
        task = self.task_of(number, place, Task.is_blocked)
        if task is None and self.is_task(number):
            self.world.fork(number, ROOT, target, number)
            self.mended["task first met when it was woken"] += 1
        elif task and task.is_blocked():
            self.world.wake(task, target)

    def migrate(self, event: Migration) -> None:
        """Moves a ready task to another processor. If the task waits for IO, the kernel ends the
        wait at the migration, and not at the wakeup that follows. In the trace the task then only
        sleeps.
        """
        task = self.world.tasks.get(event.task)
        if task and task.state is State.READY:
            self.world.ready(event.task, event.target)
        elif task and task.state is State.WAITING:
            self.world.end_wait(event.task)
            self.mended["wait for IO ended at a migration"] += 1

    def new_task(self, event: NewTask) -> None:
        """Creates a task in the group of its parent, the running task. The new task sleeps until
        its first wakeup.
        """
        if not self.is_task(event.task):
            return
        process = self.process_of(event.current) if event.flags & CLONE_THREAD else event.task
        path = self.group_of(event.current)
        if event.flags & CLONE_INTO_CGROUP:
            path = self.named_group(event.current) or path
        parent = self.world.tasks.get(event.current)
        task = self.world.fork(event.task, path, event.processor, process)
        if parent and parent.life.name:
            task.life.rename(self.world.now, parent.life.name)
        self.world.detour(event.task, How.SLEEP)

    def name(self, event: Named) -> None:
        """Stores a task's name, which applies from the current time on."""
        task, name = self.world.tasks.get(event.task), escaped(event.name)
        if task:
            task.life.rename(self.world.now, name)
        else:
            self.world.names[event.task] = name

    def process_of(self, number: int) -> int:
        """Returns the process of a thread, or `number` itself if the thread isn't known."""
        task = self.world.tasks.get(number)
        return task.process if task else number

    def named_group(self, parent: int) -> str | None:
        """Returns the likely group of a new task whose parent chose the group in clone(2). No event
        reports that group. The likely group is the last one that the parent's process created.
        Returns None if that group isn't empty, or if there is none.
        """
        path = self.groups_made.get(self.process_of(parent))
        is_likely = path in self.world.groups.live and not self.world.groups.tasks[path or ROOT]
        guess = "the group that its parent made last" if is_likely else "its parent's group"
        self.mended[f"new task whose group its parent named, put into {guess}"] += 1
        return path if is_likely else None

    def first_wakeup(self, event: FirstWakeup) -> None:
        """Makes a new task ready for the first time. If no event reported its creation, the running
        task creates it now.
        """
        if event.task in self.world.tasks:
            self.world.ready(event.task, event.target)
        elif self.is_task(event.task):
            self.world.fork(event.task, self.group_of(event.current), event.target, event.task)

    def exec(self, event: Exec) -> None:
        """Gives a thread its new number after exec, unless an earlier event already showed the
        change.
        """
        if (
            event.task == event.old
            or event.old not in self.world.tasks
            or not self.is_task(event.task)
        ):
            return
        if event.task not in self.world.tasks or self.world.running(event.processor) == event.old:
            self.change_number(event.task, event.old)

    def stall(self, event: StallBegins | StallEnds) -> None:
        """Begins or ends a memory stall of the running task. Nested stalls are ignored."""
        task = self.world.tasks.get(event.current)
        is_end = isinstance(event, StallEnds)
        if not task or task.is_stalled != is_end or (isinstance(event, StallEnds) and event.flags):
            return
        if self.world.running(event.processor) != event.current:
            self.mended["task stalled that wasn't known to run"] += 1
            self.world.run(event.current, event.processor, How.SLEEP)
        if is_end:
            self.world.unstall(task)
        else:
            self.world.stall(task)

    # ------------------------------------------------------------ groups and memory

    def attach(self, event: Attach) -> None:
        """Moves a single thread, or a process with all its threads, to another group. If the event
        names a process's first thread, only the probe shows which of the two happened. Without a
        probe all threads are moved.
        """
        probe = self.moves.pop(event.current, None)
        if event.hierarchy:
            return
        path = self.world.make_group(escaped_path(event.path))
        is_probed = probe is not None and probe.task == event.task
        first = self.world.tasks.get(event.task)
        if first and first.process != event.task:
            self.types.pop(path, None)  # a thread moved alone, so the group's type isn't plain
        others = [
            task for number, task in self.world.tasks.items()
            if task.process == event.task and number != event.task and task.group != path
        ]  # fmt: skip
        if first and first.group != path:
            self.world.move(first, path)
        if probe is not None and is_probed and not probe.whole:
            return
        if others and not is_probed and self.types.get(path) != PLAIN_TYPE:
            self.mended["first thread of a process moved, the others taken to go with it"] += 1
        for task in others:
            self.world.move(task, path)

    def group(self, event: GroupMade | GroupRemoved) -> None:
        """Creates or removes a group. Ignores the groups of cgroup 1, which are in other
        hierarchies.
        """
        if event.hierarchy:
            return
        path = escaped_path(event.path)
        if isinstance(event, GroupRemoved):
            self.samples.groups.pop(path, None)
            self.types.pop(path, None)
            self.world.remove_group(path)
            return
        self.groups_made[self.process_of(event.current)] = path
        if self.world.groups.is_leaving(path):
            self.world.make_again(path)
        else:
            self.world.make_group(path)

    def mark(self, event: Marker) -> None:
        """Writes the line for a recorder's marker that contains a memory sample."""
        if not event.text.startswith(MARK.encode()):
            return
        words = event.text.decode("utf-8", "surrogateescape")[len(MARK) :].split()
        if words[:1] == ["host"]:
            sample = sample_of(words[1:])
            if sample:
                self.samples.host = sample
                self.world.put(f"host {sample}")
        elif words[:1] == ["mem"] and len(words) == 5:
            path, sample = escaped_path(words[1].encode("utf-8", "surrogateescape")), sample_of(
                words[2:]
            )
            if sample and path in self.world.groups.live:
                self.samples.groups[path] = sample
                self.world.put(f"mem {path} {sample}")


def sample_of(words: Sequence[str]) -> str | None:
    """Returns the three numbers of a memory sample as the words of a trace's line. Returns None
    unless the words are three valid numbers.
    """
    if len(words) != 3 or not all(
        word.isascii() and word.isdecimal() and int(word) <= MOST_MEMORY for word in words
    ):
        return None
    return " ".join(str(int(word)) for word in words)
