"""Converts a recording of any length to a folded trace, one slice of events and one window of lines
at a time.

The result equals the folded result of `convert`, which reads all events at once. There are three
exceptions, none of which occurs in a short recording. The initial state of each task is derived
from the events of the first minute only, which are read twice for that. A switch that the kernel
didn't write is inserted at the time of its task's last event, but not earlier than in the previous
slice. A wait for IO that only its end shows is found only if it ends in the same slice or the next.
A slice is at least 2 s long.
"""
from __future__ import annotations

import gc
import os
import tempfile
from bisect import bisect_left
from collections import Counter
from collections.abc import Callable, Iterable, Iterator
from typing import Any, NamedTuple

from psifold.fold import Fold, Outcome, TooMany
from psifold.process import Elsewhere, Here
from psifold.words import Folding, Progress
from psinames.busy import Clocks
from psiread.events import NAMES, Event, Exec, Marker, Migration, Switch, SwitchProbe, Wakeup
from psiread.slices import WaitingSwitch
from psiread.source import Source, Unreadable
from psiread.waits import Method, by_probe, by_state, by_statistics
from psiworld.groups import Groups
from psiworld.limits import MOST_EVENTS
from psiworld.world import World

from .accounts import accounts_of
from .convert import Converted, Prior, Wanted, begin, begin_groups, snapshot_prior, world_prior
from .first import Beginning
from .player import Player
from .slices import BY_TIME, Ahead, Mender, Slice
from .unwritten import UNWRITTEN

# The number of lines that are folded at once.
LINES = 5_000
# A function that returns all events in slices. Each call starts again with the first slice.
Slices = Callable[[], Iterable[list[Event]]]


class Spool:
    """The lines of a folded trace. They are in a temporary file until the conversion has succeeded.
    """

    def __init__(self) -> None:
        # The file is unbuffered, since another process may write it.
        self.file = tempfile.TemporaryFile(buffering=0)
        self.header, self.events = "", 0

    def __len__(self) -> int:
        return 1 + self.events

    def put(self, lines: list[str]) -> None:
        """Appends lines. Raises TooMany if the trace reaches the limit MOST_EVENTS without an end
        line.
        """
        if self.events + len(lines) >= MOST_EVENTS and not lines[-1].endswith(" end"):
            raise TooMany(f"{MOST_EVENTS} events")
        self.events += len(lines)
        self.write("".join(f"{line}\n" for line in lines))

    def write(self, text: str) -> None:
        """Appends `text` to the file. Raises Unreadable if that fails."""
        rest = memoryview(text.encode("ascii"))
        try:
            while rest:
                rest = rest[self.file.write(rest) :]
        except OSError as fault:
            name = f"a temporary file in {tempfile.gettempdir()}"
            raise Unreadable(f"{name}: {fault.strerror}") from None

    def close(self, events: int, time_ns: int) -> None:
        """Completes a trace of `events` lines with an end line at `time_ns`."""
        self.file.seek(0, os.SEEK_END)
        self.write(f"{time_ns} end\n")
        self.events = events + 1

    def parts(self) -> Iterator[bytes]:
        """Yields the whole trace: the header line, and then the rest in pieces of up to 1 MiB."""
        yield f"{self.header}\n".encode("ascii")
        self.file.seek(0)
        while part := self.file.read(1 << 20):
            yield part


class Conversion:
    """Converts the events of a recording slice by slice, and passes the resulting lines to `put`.
    `window` is the length (ns) of a folded window. `accounts` contains the changes of accounting.
    """

    def __init__(
        self,
        source: Source,
        wanted: Wanted,
        ahead: Ahead,
        put: Callable[[list[str]], None],
        window: int,
    ) -> None:
        self.source, self.wanted, self.ahead, self.put = source, wanted, ahead, put
        self.window_length = window
        accounts = accounts_of(source.events, source.snapshot)
        self.off = accounts.off
        self.accounts = {source.events[place]: found for place, found in accounts.found.items()}
        self.player: Player | None = None
        self.prior: Prior | None = None
        self.is_begun = False
        self.counts: Counter[str] = Counter()
        self.waits = self.uninterruptible = 0
        # `probes` contains the probes whose switches are in the next slice. `early` counts, for
        # each task, the exec events of the next slice that the player has already applied.
        self.probes: dict[int, SwitchProbe] = {}
        self.early: Counter[int] = Counter()

    def waits_in(self, part: Slice) -> set[int]:
        """Returns the indices of the switches in a slice that begin a wait for IO."""
        if self.wanted.method is Method.STATE:
            return by_state(part.events)
        if self.wanted.method is Method.PROBE:
            known = {
                place for place, event in enumerate(part.events) if type(event) is WaitingSwitch
            }
            if self.probes or part.has(SwitchProbe):
                known |= by_probe(part.events, self.probes)
            return known
        return {place for place in by_statistics(part.both()) if place < len(part.events)}

    def prepare(self, player: Player, part: Slice, waits: set[int]) -> None:
        """Passes the facts about a slice to the player: its waits for IO, its changes of
        accounting, and its exec events that change a task's number.
        """
        player.waits = waits
        player.accounts.clear()
        player.changes.clear()
        for place, event in enumerate(part.both() if part.has(Marker, Exec) else ()):
            if type(event) is Marker and event in self.accounts and place < len(part.events):
                player.accounts[place] = self.accounts[event]
            elif type(event) is Exec and event.task != event.old and event.task:
                player.changes[event.task].append((place, event.old))
        for task, count in self.early.items():
            del player.changes[task][:count]

    def note_early(self, player: Player, part: Slice) -> None:
        """Counts the exec events of the next slice that the player has already applied in this
        slice.
        """
        following = part.following if part.has(Exec) else ()
        counts = Counter(
            event.task for event in following if type(event) is Exec and event.task != event.old
        )
        left = {
            task: sum(place >= len(part.events) for place, _ in player.changes.get(task, ()))
            for task in counts
        }
        self.early = Counter(
            {task: count - left[task] for task, count in counts.items() if count > left[task]}
        )

    def play(self, part: Slice) -> bool:
        """Converts a slice. Returns whether the next slice may contain events of the window."""
        events, window = part.events, self.wanted.window
        start = bisect_left(events, window.start, key=BY_TIME)
        end = bisect_left(events, window.end + 1, key=BY_TIME)
        waits = self.waits_in(part)
        if self.prior is None:
            beginning = self.ahead.recording
            source = self.source
            self.prior = snapshot_prior(source.snapshot, source.events, beginning, self.off)
            if start:
                world = World(source.processors, Groups(self.wanted.deepest))
                self.player = self.new_player(world, beginning)
        if start and self.player and not self.is_begun:
            self.prepare(self.player, part, waits)
            for place in range(start):
                self.player.play(place, events[place])
                self.player.world.lines.clear()
        if start < len(events):
            if not self.is_begun:
                self.begin()
            assert self.player
            self.prepare(self.player, part, waits)
            self.play_window(self.player, events, range(start, end))
            self.count(events[start:end], waits, range(start, end))
        if self.player:
            self.note_early(self.player, part)
        return end == len(events)

    def new_player(self, world: World, beginning: Beginning) -> Player:
        """Writes the initial state into `world`, and returns a player that continues from there."""
        assert self.prior
        begin_groups(world, self.prior)
        begin(world, self.prior, beginning)
        return Player(world, [], set(), {}, self.source.snapshot.types)

    def begin(self) -> None:
        """Starts the trace. Its initial state is the state after all events so far."""
        wanted, source = self.wanted, self.source
        if self.player:
            is_sound = not any(gap.start < wanted.window.start for gap in source.gaps)
            mended = self.prior.mended if self.prior else Counter[str]()
            self.prior = world_prior(self.player.world, self.player.samples, is_sound)
            self.prior.mended = mended
        assert self.prior
        world = World(source.processors, Groups(wanted.deepest), wanted.has_interrupts)
        world.upon = wanted.upon
        world.clocks = Clocks(self.window_length)
        world.mended.update(self.prior.mended)
        self.player, self.is_begun = self.new_player(world, self.ahead.window), True

    def play_window(self, player: Player, events: list[Event], places: range) -> None:
        """Applies the events with these indices, and passes the resulting lines on. Frequent kinds
        of events are handled inline, for speed.
        """
        world, start, put, play = player.world, self.wanted.window.start, self.put, player.play
        switch, wake, migrate, lines = player.switch, player.wake, player.migrate, world.lines
        pairs: Iterable[tuple[int, Any]] = zip(places, events[places.start : places.stop])
        for place, event in pairs:
            time_ns = event[0] - start
            if time_ns > world.now:
                world.now = time_ns
                if len(lines) > LINES:
                    put(lines)
                    lines.clear()
            kind = type(event)
            if kind is Switch or kind is WaitingSwitch:
                switch(place, event)
            elif kind is Wakeup:
                wake(place, event)
            elif kind is Migration:
                migrate(event)
            else:
                play(place, event)
        if lines:
            put(lines)
            lines.clear()
        world.lives.clear()  # a folded trace doesn't have these tasks

    def world(self) -> World:
        """Returns the world of the trace, which is started first if necessary."""
        if not self.is_begun:
            self.begin()
        assert self.player
        return self.player.world

    def end(self) -> World:
        """Ends the trace at the end of its window, and returns its world."""
        world = self.world()
        self.put(world.lines)
        world.lines.clear()
        world.now = max(self.wanted.window.length(), world.now)
        if world.groups.leaving:
            world.mended["removed group that a task never left"] += len(world.groups.leaving)
        return world

    def count(self, events: list[Event], waits: set[int], places: range) -> None:
        """Counts the events, the waits for IO and the sleeps in state D, for the report."""
        counts = Counter(map(type, events))
        counts[Switch] += counts.pop(WaitingSwitch, 0)
        self.counts.update({NAMES[kind]: count for kind, count in counts.items() if kind in NAMES})
        self.waits += sum(it in places for it in waits)
        self.uninterruptible += len(by_state(events))


class Folded(NamedTuple):
    """A folded trace: the figures for the report, the file that contains its lines, and the result
    of folding.
    """

    converted: Converted
    spool: Spool
    outcome: Outcome


def play_slices(conversion: Conversion, slices: Iterable[Slice], progress: Progress) -> World:
    """Converts the slices up to the end of the window, ends the trace, and returns its world."""
    start = conversion.wanted.window.start
    for part in slices:
        progress.show(part.events[0].time_ns - start if part.events else 0)
        if not conversion.play(part):
            break
    return conversion.end()


def convert_folded(
    source: Source,
    slices: Slices,
    ahead: Ahead,
    silent: set[int],
    wanted: Wanted,
    folding: Folding,
    is_large: bool,
) -> Folded:
    """Converts a recording, and folds the trace. A large recording is folded in a separate process.
    """
    # The garbage collector is off: events form no reference cycles, and the search for cycles would
    # take a tenth of the time.
    gc.disable()
    spool = Spool()
    fold = Fold(source.processors, folding.length, spool.put, folding.victims)
    folder: Elsewhere | Here = Elsewhere(fold) if is_large else Here(fold)
    conversion = Conversion(source, wanted, ahead, folder.take, folding.length)
    mender, limit, window = Mender(source, silent), None, wanted.window
    progress = Progress("psitrace", window.length())
    try:
        world = play_slices(conversion, mender.pairs(slices()), progress)
        folder.take([f"{world.now} end"])
        folder.end()
        outcome = folder.outcome()
        spool.events = outcome.counts.written
    except TooMany as many:
        limit, world, outcome = str(many), conversion.world(), folder.outcome()
        world.now = outcome.written
        spool.close(outcome.counts.written, world.now)
    except BaseException:
        folder.stop()
        raise
    progress.end()
    source.mended[UNWRITTEN] += sum(window.start <= it <= window.end for it in mender.times_ns)
    spool.header = f"psitrace {world.version()} cpus={source.processors}"
    victims = conversion.player.victims if conversion.player else []
    wait_counts = conversion.waits, conversion.uninterruptible
    converted = Converted([], world, conversion.counts, *wait_counts, victims, limit, folded=spool)
    return Folded(converted, spool, outcome)
