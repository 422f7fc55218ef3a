"""Converts a recording to a trace. The trace begins with the initial state, and continues with the
events.
"""
from __future__ import annotations

from bisect import bisect_left
from collections import Counter
from collections.abc import Sequence, Sized
from dataclasses import dataclass, field
from typing import NamedTuple

from psinames.busy import Clocks
from psinames.text import escaped
from psiread.events import NAMES, NEVER, Attach, Event, GroupMade, GroupRemoved
from psiread.missing import MOST_LENGTH
from psiread.source import Snapshot, Source
from psiread.waits import Method, waits_for_io
from psiread.window import Window
from psirec.layout import escaped_path
from psiworld.groups import ROOT, Groups, parent_of
from psiworld.limits import MOST_EVENTS, MOST_PROCESSORS, MOST_SWITCHES, MOST_TASKS
from psiworld.world import How, State, World

from .accounts import Accounts, accounts_of, is_end_of
from .first import Beginning, First, beginning_of, reports_births
from .lead_in import TICK, Averages, LeadIn
from .player import Player, Samples

# The length (ns) of a window for which a companion lists the busiest processes.
WINDOW = 10**9


class Known(NamedTuple):
    """The state of a task before the trace begins: its group, its process, its state and processor,
    whether it is in a memory stall, and its escaped name.
    """

    path: str
    process: int
    first: First
    is_stalled: bool
    name: str = ""


@dataclass
class Prior:
    """The state before the trace begins: all groups, the groups that aren't accounted (`off`), the
    tasks, and the memory samples. A task's state is correct if no event names the task up to
    `settled` (ns). `is_sound` says that no event was lost before the trace begins.
    """

    groups: list[str]
    off: set[str]
    tasks: dict[int, Known]
    samples: Samples
    settled: int
    is_sound: bool = True
    mended: Counter[str] = field(default_factory=Counter)


class Converted(NamedTuple):
    """A converted trace, with figures for the report: counts of events by name, the numbers of
    waits for IO and of sleeps in state D, and the victims of the kernel's OOM killer (time in ns,
    task). `limit` is the limit of traces at which the trace ends, or None. `begins` is the trace's
    time (ns) at which the recording begins, and `without_past` the number of groups without a
    warm-up. The lines of a folded trace are in `folded` instead of `lines`.
    """

    lines: list[str]
    world: World
    counts: Counter[str]
    waits: int
    uninterruptible: int
    victims: list[tuple[int, int]]
    limit: str | None
    begins: int = 0
    without_past: int = 0
    folded: Sized | None = None


class Facts(NamedTuple):
    """Facts that require all events together: the indices of the switches that begin a wait for IO,
    and the changes of accounting.
    """

    waits: set[int]
    accounts: Accounts


# ---------------------------------------------------------------- the state before the trace


def snapshot_prior(
    snapshot: Snapshot, events: Sequence[Event], beginning: Beginning, off: set[str]
) -> Prior:
    """Returns the state at the recording's start, according to a snapshot. The snapshot was taken
    later than the start. Groups and tasks that were created in between are omitted.
    """
    first_events: dict[str, type] = {}
    for event in events:
        if isinstance(event, (GroupMade, GroupRemoved)) and not event.hierarchy:
            first_events.setdefault(escaped_path(event.path), type(event))
    groups = [path for path in sorted(snapshot.groups) if first_events.get(path) is not GroupMade]
    moved = {
        it.task
        for it in events
        if isinstance(it, Attach) and not it.hierarchy and it.time_ns < snapshot.time_ns
    }
    settled = next((it.time_ns for it in events if is_end_of(snapshot, it)), NEVER)
    prior = Prior(groups, off, {}, Samples(), settled)
    for number, task in snapshot.tasks.items():
        if number in beginning.born:
            continue
        path = task.path
        while path != ROOT and first_events.get(path) is GroupMade:
            path = parent_of(path)
        if moved & {number, task.process}:
            prior.mended["task moved before the snapshot, whose group at the start is guessed"] += 1
        state = State.RUNNING if task.state == "R" else State.ASLEEP
        name = escaped(task.name.encode("utf-8", "surrogateescape"))
        prior.tasks[number] = Known(path, task.process, First(state, task.processor), False, name)
    if snapshot.tasks:
        unlisted = set(beginning.tasks) - set(prior.tasks)
        prior.mended["task that the snapshot doesn't list, taken to be in the root"] += len(
            unlisted
        )
    return prior


def world_prior(world: World, samples: Samples, is_sound: bool) -> Prior:
    """Converts the current state of `world` to the initial state of a trace."""
    tasks = {
        number: Known(
            task.group, task.process, First(task.state, task.processor), task.is_stalled,
            task.life.name,
        )
        for number, task in world.tasks.items()
    }
    groups = sorted(world.groups.live - world.groups.leaving)
    return Prior(groups, world.off, tasks, samples, 0 if is_sound else NEVER, is_sound)


# ---------------------------------------------------------------- the start of the trace


def first_of(number: int, prior: Prior, beginning: Beginning) -> First:
    """Returns the state of a task at the start. In general, the state that the events show
    overrides the one in `prior`.
    """
    known, said = prior.tasks.get(number), beginning.tasks.get(number)
    if said is None:
        state, processor, _ = known.first if known else First(State.ASLEEP, 0)
        is_idle = state is State.RUNNING and processor in beginning.runs
        return First(
            State.ASLEEP if is_idle or (state is State.READY and not prior.is_sound) else state,
            processor,
        )
    if said.state is State.READY and said.time_ns > prior.settled:
        return First(late_state(known), said.processor)
    if said.state is State.ASLEEP and known and known.first.state is State.WAITING:
        return First(State.WAITING, said.processor)
    if said.state is State.RUNNING and beginning.runs.get(said.processor) != number:
        return First(State.ASLEEP, said.processor)
    return said


def late_state(known: Known | None) -> State:
    """Returns the initial state of a task that later runs without a wakeup. If the task wasn't
    known to run or to be ready, the kernel probably wrote no event when it was woken or created.
    Such a task is assumed to be asleep: if it were ready, it would wait from the start.
    """
    if known is None:
        return State.ASLEEP
    return State.READY if known.first.state is State.RUNNING else known.first.state


def begin_task(world: World, number: int, known: Known, first: First, is_stalled: bool) -> None:
    """Writes the lines of a task that exists at the start. A task must run before it sleeps, waits
    for IO or stalls, so such a task first runs for zero time.
    """
    processor = first.processor if 0 <= first.processor < world.processors else 0
    task = world.fork(number, known.path, processor, known.process)
    if known.name:
        task.life.rename(world.now, known.name)
    if first.state is State.RUNNING and not world.running(processor):
        world.run(number, processor)
        if is_stalled:
            world.stall(task)
    elif first.state is State.READY:
        if is_stalled:
            world.detour(number, How.PREEMPT, True)
    else:
        world.detour(number, How.WAIT if first.state is State.WAITING else How.SLEEP, is_stalled)


def begin_groups(world: World, prior: Prior) -> None:
    """Writes the lines of the groups that exist at the start."""
    for words in world.upon.pop(ROOT, ()):
        world.put(words)
    for path in prior.groups:
        world.make_group(path)
        world.switch_accounting(path, path not in prior.off)


def begin(world: World, prior: Prior, beginning: Beginning) -> None:
    """Writes the initial state: first the memory samples, then the tasks. Running tasks are last.
    """
    if prior.samples.host:
        world.put(f"host {prior.samples.host}")
    for path, sample in sorted(prior.samples.groups.items()):
        if path in world.groups.live:
            world.put(f"mem {path} {sample}")
    firsts = {
        number: first_of(number, prior, beginning) for number in {*prior.tasks, *beginning.tasks}
    }
    order = {State.ASLEEP: 0, State.WAITING: 0, State.READY: 1, State.RUNNING: 2}
    for number in sorted(
        chosen(firsts, prior, beginning), key=lambda it: (order[firsts[it].state], it)
    ):
        first = firsts[number]
        known = prior.tasks.get(number) or Known(ROOT, number, first, False)
        is_stalled = beginning.stalled.get(
            number, known.is_stalled and number not in beginning.depths
        )
        begin_task(world, number, known, first, is_stalled)


def chosen(firsts: dict[int, First], prior: Prior, beginning: Beginning) -> list[int]:
    """Returns the tasks of the initial state. If there are more than a trace may have, returns only
    the tasks that an event names, and one other task of each group, so that no group is empty.
    """
    if len(firsts) <= MOST_TASKS // 2:
        return list(firsts)
    named = [number for number in firsts if number in beginning.tasks]
    of_groups = {
        known.path: number for number, known in prior.tasks.items() if number not in beginning.tasks
    }
    return [*named, *of_groups.values()]


# ---------------------------------------------------------------- converting the events


def place_of(events: Sequence[Event], time_ns: int) -> int:
    """Returns the index of the first event at or after `time_ns`."""
    return bisect_left([event.time_ns for event in events], time_ns)


def player_of(world: World, source: Source, facts: Facts) -> Player:
    """Returns an object that applies the recording's events to `world`."""
    return Player(world, source.events, facts.waits, facts.accounts.found, source.snapshot.types)


def prior_of(
    source: Source, until: int, facts: Facts, deepest: int | None, is_sound: bool
) -> Prior:
    """Returns the state right before the event with the index `until`."""
    beginning = beginning_of(source.events, reports_births(source.events))
    prior = snapshot_prior(source.snapshot, source.events, beginning, facts.accounts.off)
    if not until:
        return prior
    world = World(source.processors, Groups(deepest))
    begin_groups(world, prior)
    begin(world, prior, beginning)
    player = player_of(world, source, facts)
    for place in range(until):
        player.play(place, source.events[place])
        world.lines.clear()
    after = world_prior(world, player.samples, is_sound)
    after.mended = prior.mended
    return after


def limit_of(world: World) -> str | None:
    """Returns the limit of traces that `world` has reached, as text, or None."""
    if len(world.lines) >= MOST_EVENTS:
        return f"{MOST_EVENTS} events"
    if len(world.tasks) > MOST_TASKS:
        return f"{MOST_TASKS} tasks"
    if world.now > MOST_LENGTH:
        return f"{MOST_LENGTH // 10**9} s"
    return f"{MOST_SWITCHES} switches of accounting" if world.switches > MOST_SWITCHES else None


def play(player: Player, source: Source, places: range, window: Window) -> str | None:
    """Applies the events with the indices `places`, and ends the trace at the window's end. Stops
    early, and returns the limit as text, at the first event that exceeds a limit of traces. Returns
    None if no limit was exceeded.
    """
    world = player.world
    for place in places:
        event = source.events[place]
        written, now = len(world.lines), world.now
        world.now = max(event.time_ns - window.start, now)
        player.play(place, event)
        limit = limit_of(world)
        if limit:
            del world.lines[written:]
            world.now = now
            return limit
    world.now = max(window.length(), world.now)
    return None


class Past(NamedTuple):
    """The warm-up before a recording: its length in ticks, and the averages of each group at its
    end, as on the machine.
    """

    ticks: int
    averages: dict[str, Averages]

    def length(self) -> int:
        """Returns the length of the warm-up (ns)."""
        return self.ticks * TICK


class Wanted(NamedTuple):
    """The options of a conversion: the window, the method by which waits for IO are recognized, and
    the largest depth of groups. `upon` contains the lines to write when a group is created, keyed
    by path. The other options are whether interrupts are included, and the warm-up.
    """

    window: Window
    method: Method
    deepest: int | None
    upon: dict[str, list[str]]
    has_interrupts: bool = False
    lead_in: Past | None = None


def convert(source: Source, wanted: Wanted) -> Converted:
    """Converts a whole recording in one step, without folding."""
    window, deepest = wanted.window, wanted.deepest
    facts = Facts(
        waits_for_io(source.events, wanted.method), accounts_of(source.events, source.snapshot)
    )
    is_sound = not any(gap.start < window.start for gap in source.gaps)
    places = range(place_of(source.events, window.start), place_of(source.events, window.end + 1))
    prior = prior_of(source, places.start, facts, deepest, is_sound)
    world = World(source.processors, Groups(deepest), wanted.has_interrupts)
    world.upon = wanted.upon
    world.mended.update(prior.mended)
    begin_groups(world, prior)
    origin, lead_in = window.start, None
    if wanted.lead_in:
        lead_in = LeadIn(world, wanted.lead_in.averages, wanted.lead_in.ticks, MOST_PROCESSORS)
        lead_in.play()
        origin -= wanted.lead_in.length()
        world.lives.clear()  # artificial tasks have no names
    world.clocks = Clocks(WINDOW)
    begin(
        world, prior,
        beginning_of(source.events[places.start : places.stop], reports_births(source.events)),
    )
    player = player_of(world, source, facts)
    limit = play(player, source, places, Window(origin, window.end))
    if world.groups.leaving:
        world.mended["removed group that a task never left"] += len(world.groups.leaving)
    kinds = Counter(map(type, source.events[places.start : places.stop]))
    counts = Counter({NAMES[kind]: count for kind, count in kinds.items() if kind in NAMES})
    lines = [
        f"psitrace {world.version()} cpus={world.processors}", *world.lines, f"{world.now} end",
    ]
    uninterruptible = waits_for_io(source.events, Method.STATE)
    wait_counts = count_in(facts.waits, places), count_in(uninterruptible, places)
    return Converted(
        lines, world, counts, *wait_counts, player.victims, limit, window.start - origin,
        lead_in.left_out if lead_in else 0,
    )


def count_in(found: set[int], places: range) -> int:
    """Counts the indices in `found` that are also in `places`."""
    return sum(it in places for it in found)
