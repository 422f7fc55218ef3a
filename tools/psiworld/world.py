"""Writes the lines of a trace, and keeps the machine's state after these lines.

Any sequence of calls gives a valid trace: a running task is preempted before another task runs on
its processor, a task leaves its memory stall before it exits, a group is created after its parent,
and is removed once it is empty.
"""
from __future__ import annotations

from collections import Counter
from enum import Enum, auto

from psinames.busy import Clocks
from psinames.lives import Life

from .groups import ROOT, Groups, parent_of
from .limits import MOST_INTERRUPTS, MOST_LABEL

# A task's number in the trace, its label, is usually the kernel's number of the task. LABEL_STEP is
# added while another task has the same label.
LABEL_STEP = 100_000_000


class State(Enum):
    """The state of a task."""

    ASLEEP = auto()
    WAITING = auto()  # for IO
    READY = auto()
    RUNNING = auto()


class How(Enum):
    """How a running task leaves its processor: the word in the line of the switch, and the task's
    state after the switch (None after an exit).
    """

    PREEMPT = "preempt", State.READY
    SLEEP = "sleep", State.ASLEEP
    WAIT = "iowait", State.WAITING
    EXIT = "exit", None

    def __init__(self, word: str, after: State | None) -> None:
        self.word, self.after = word, after


class Task:
    """A task of the trace: its label, the path of its group, its processor, its state, whether it
    is in a memory stall, the number of its process, and its `Life`, which has its names over time.
    """

    __slots__ = ("label", "group", "processor", "state", "is_stalled", "process", "life")

    def __init__(self, label: int, group: str, processor: int, life: Life) -> None:
        self.label, self.group, self.processor, self.process = label, group, processor, life.process
        self.life = life
        self.state, self.is_stalled = State.READY, False

    def is_on(self, processor: int, state: State) -> bool:
        """Whether the task is in this state on this processor."""
        return self.state is state and self.processor == processor

    def is_blocked(self) -> bool:
        """Whether the task sleeps or waits for IO."""
        return self.state in (State.ASLEEP, State.WAITING)


class World:
    """The machine's state, and the lines of the trace so far. `tasks` has the tasks by the kernel's
    numbers, `runs` has the running task of each processor, and `now` is the time (ns) of the next
    line.

    If the trace has interrupts, `interrupted` has the time (ns) of each processor's last interrupt
    line. `off` has the groups that aren't accounted, `switched` the groups whose accounting was
    ever switched, and `switches` the number of lines that switched it. `mended` counts repairs by
    kind.
    """

    def __init__(self, processors: int, groups: Groups, has_interrupts: bool = False) -> None:
        self.processors, self.groups, self.has_interrupts = processors, groups, has_interrupts
        self.now = 0
        self.interrupted: dict[int, int] = {}
        self.off: set[str] = set()
        self.switched: set[str] = set()
        self.switches = 0
        self.lines: list[str] = []
        self.tasks: dict[int, Task] = {}
        self.runs: dict[int, int] = {}
        self.labels: set[int] = set()
        # `lives` has the life of each task so far, and `names` the names of tasks that the trace
        # doesn't have yet. `clocks` measures for how long each process ran in each group, or is
        # None if that isn't needed.
        self.lives: list[Life] = []
        self.names: dict[int, str] = {}
        self.clocks: Clocks | None = None
        # Lines that are written when a group is created, by the group's path.
        self.upon: dict[str, list[str]] = {}
        self.mended: Counter[str] = Counter()

    def put(self, words: str) -> None:
        """Appends a line with the time `now`."""
        self.lines.append(f"{self.now} {words}")

    def version(self) -> int:
        """Returns the lowest version of the trace format that allows all lines of this trace."""
        return 2 if self.has_interrupts or self.switches else 1

    # ------------------------------------------------------------ changes of groups

    def make_group(self, path: str) -> str:
        """Creates the group and its ancestors, unless they exist. Returns the group's path in the
        trace, or the path of an ancestor if the trace can't have the group.
        """
        place, made = self.groups.make(path)
        for one in made:
            self.put(f"group {one}")
            for words in self.upon.pop(one, ()):
                self.put(words)
        return place

    def remove_group(self, path: str) -> None:
        """Removes the group at once, or after its last task has left it."""
        self.end_groups(self.groups.remove(path))

    def leave_group(self, path: str) -> None:
        """Removes a task from the group. Also removes the group if it is then empty and marked for
        removal.
        """
        self.end_groups(self.groups.leave(path))

    def end_groups(self, removed: list[str]) -> None:
        """Appends lines that remove these groups. A group that is created again will be accounted.
        """
        for one in removed:
            self.put(f"rmgroup {one}")
            self.off.discard(one)

    def make_again(self, path: str) -> None:
        """Creates a group whose path still belongs to a removed group with tasks. These tasks move
        to its parent, and the removed group is used again.
        """
        for below in self.groups.leaving_below(path):
            for task in [it for it in self.tasks.values() if it.group == below]:
                self.move(task, parent_of(below))
                self.mended["task of a removed group put into the one above"] += 1
        if self.groups.is_leaving(path):
            self.groups.keep(path)
            self.switch_accounting(path, True)
            self.mended["removed group kept, since it came again"] += 1
        self.make_group(path)

    def move(self, task: Task, path: str) -> None:
        """Moves the task to an existing group."""
        before, task.group = task.group, path
        if self.clocks and task.state is State.RUNNING:
            self.clocks.run(task.processor, path, task.life, self.now)
        self.groups.enter(path)
        self.put(f"move {task.label} {path}")
        self.leave_group(before)

    def switch_accounting(self, path: str, is_on: bool) -> None:
        """Switches the group's accounting on or off. Writes no line if it is in that state already,
        for the root, which is always accounted, and for groups that the trace doesn't have.
        """
        if path == ROOT or path not in self.groups.live or is_on != (path in self.off):
            return
        (self.off.discard if is_on else self.off.add)(path)
        self.switched.add(path)
        self.switches += 1
        self.put(f"pressure {path} {'on' if is_on else 'off'}")

    # ------------------------------------------------------------ interrupt lines

    def interrupt(self, processor: int, length: int) -> None:
        """Appends an interrupt line of `length` ns, if a task runs on the processor. The line
        reports at most one second, and no time before the processor's previous interrupt line.
        """
        if not self.has_interrupts or not self.running(processor):
            return
        written = min(length, self.now - self.interrupted.get(processor, 0), MOST_INTERRUPTS)
        if written < length:
            self.mended["interrupts longer than the time since the last ones, cut off"] += 1
        if written:
            self.put(f"irq {processor} {written}")
            self.interrupted[processor] = self.now

    # ------------------------------------------------------------ changes of tasks

    def fork(self, number: int, path: str, processor: int, process: int) -> Task:
        """Creates a task, which is ready on the processor. If a task with this number exists, it
        exits first.
        """
        if number in self.tasks:
            self.vanish(number)
        place = self.make_group(path)
        label, processor = self.free_label(number), self.place_of(processor)
        life = self.begun_life(label, number, process)
        task = self.tasks[number] = Task(label, place, processor, life)
        self.labels.add(label)
        self.groups.enter(place)
        self.put(f"fork {label} {place} {processor}")
        return task

    def begun_life(self, label: int, number: int, process: int) -> Life:
        """Creates the `Life` of a new task, with the task's name if it is known."""
        first = self.tasks.get(process) if process != number else None
        life = Life(label, self.now, number, process, first.life.leader if first else None)
        name = self.names.pop(number, None)
        if name is not None:
            life.rename(self.now, name)
        self.lives.append(life)
        return life

    def free_label(self, number: int) -> int:
        """Returns an unused label for a task: the kernel's number, or another number if the label
        is in use or not allowed in a trace.
        """
        if not 0 < number <= MOST_LABEL:
            self.mended["number of a task that a trace can't have, replaced"] += 1
        label = (number - 1) % MOST_LABEL + 1
        while label in self.labels:
            label = (label + LABEL_STEP - 1) % MOST_LABEL + 1
        return label

    def place_of(self, processor: int) -> int:
        """Returns this processor's number, or 0 if the machine has no such processor."""
        if 0 <= processor < self.processors:
            return processor
        self.mended["processor that the machine doesn't have, taken to be the first"] += 1
        return 0

    def running(self, processor: int) -> int:
        """Returns the number of the task that runs on a processor, or 0 if none runs."""
        return self.runs.get(processor, 0)

    def ready(self, number: int, processor: int) -> None:
        """Makes the task ready on the processor: preempts it if it runs, wakes it if it is blocked,
        or migrates it.
        """
        task, processor = self.tasks[number], self.place_of(processor)
        if task.state is State.RUNNING:
            self.leave(task.processor, How.PREEMPT)
        if task.is_blocked():
            self.wake(task, processor)
        elif task.processor != processor:
            self.put(f"migrate {task.label} {processor}")
            task.processor = processor

    def wake(self, task: Task, processor: int) -> None:
        """Wakes a blocked task. It is then ready on the processor."""
        if not 0 <= processor < self.processors:
            processor = self.place_of(processor)
        self.lines.append(f"{self.now} wake {task.label} {processor}")
        task.state, task.processor = State.READY, processor

    def run(self, number: int, processor: int, how: How = How.PREEMPT) -> None:
        """Makes the task run on the processor. The task that was running there leaves as `how`
        says.
        """
        if self.running(processor) != number:
            self.ready(number, processor)
            self.leave(processor, how, number)

    def leave(self, processor: int, how: How, following: int = 0) -> None:
        """Switches a processor from its running task, if any, to the task `following`, or to idle
        if that is 0. The running task leaves as `how` says. `following` must be ready there.
        """
        number, label = self.runs.get(processor, 0), 0
        leaves = self.tasks[number] if number else None
        if leaves and leaves.is_stalled and how is How.EXIT:
            self.unstall(leaves)
            self.mended["memory stall ended by exit"] += 1
        if following:
            comes = self.tasks[following]
            label, comes.state = comes.label, State.RUNNING
        self.lines.append(f"{self.now} switch {processor} {label} {how.word if leaves else 'idle'}")
        self.runs[processor] = following
        if self.clocks:
            runs = (comes.group, comes.life) if following else ("", None)
            self.clocks.run(processor, *runs, self.now)
        if leaves and how.after:
            leaves.state = how.after
        elif leaves:
            self.forget(number)

    def detour(self, number: int, how: How, stalls: bool = False) -> None:
        """Makes a ready task run for zero time and leave as `how` says. If `stalls`, the task
        enters a memory stall before it leaves. Then the previous task runs again.
        """
        processor = self.tasks[number].processor
        before = self.running(processor)
        self.run(number, processor)
        if stalls:
            self.stall(self.tasks[number])
        self.leave(processor, how, before)

    def forget(self, number: int) -> None:
        """Removes a task that has exited."""
        task = self.tasks.pop(number)
        task.life.last = self.now
        self.labels.discard(task.label)
        self.leave_group(task.group)

    def vanish(self, number: int) -> None:
        """Makes a task exit, although the recording has no event for the exit."""
        task = self.tasks[number]
        if task.state is State.RUNNING:
            self.leave(task.processor, How.EXIT)
        else:
            self.ready(number, task.processor)
            self.detour(number, How.EXIT)
        self.mended["task gone without a word"] += 1

    def end_wait(self, number: int) -> None:
        """Changes a task that waits for IO to a sleeping task."""
        self.ready(number, self.tasks[number].processor)
        self.detour(number, How.SLEEP)

    def stall(self, task: Task) -> None:
        """Begins a memory stall of the running task."""
        task.is_stalled = True
        self.put(f"stall {task.label}")

    def unstall(self, task: Task) -> None:
        """Ends the memory stall of the running task."""
        task.is_stalled = False
        self.put(f"unstall {task.label}")

    def swap_numbers(self, number: int, other: int) -> None:
        """Exchanges the kernel's numbers of two tasks. Their labels don't change."""
        one, two = self.tasks.pop(number, None), self.tasks.pop(other, None)
        for task, new in ((one, other), (two, number)):
            if task:
                self.tasks[new] = task
                task.life.renumber(new)
        changed = {number: other, other: number}
        self.runs = {processor: changed.get(who, who) for processor, who in self.runs.items()}
