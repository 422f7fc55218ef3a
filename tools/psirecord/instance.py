"""An instance of the kernel's tracing with its own ring buffers, so that other users of tracing
aren't affected. Documentation/trace/ftrace.rst describes the files of an instance.

Pages are read in binary form (`trace_pipe_raw`). An event has about 40 bytes, compared to 140 as
text, and reading takes a quarter of the time. Pages also contain the number of lost events.
"""
from __future__ import annotations

import contextlib
import errno
import os
import re
from collections.abc import Callable, Iterator

from psirec.layout import LOST_STATS, MARK, MOST_MARKER_BYTES, PREFIX, Key, Probe

from .machine import SCHEDULER_STATISTICS, Machine, read_file, write_file
from .probing import NEEDED, Say, Sources, Tell, without
from .undoing import Undoing

READ_BYTES = 1 << 16
# The suffix of an instance whose recorder also switched on the sysctl kernel.sched_schedstats. If
# that recorder was killed, a later recorder knows that it must switch the sysctl off.
STATISTICS_SUFFIX = "-schedstats"
# Matches a recorder's pid and start time (clock ticks since boot) in the name of an instance.
# Earlier versions wrote no start time.
RECORDER = rf"{PREFIX}(?P<number>\d+)(?:_(?P<start>\d+))?"
INSTANCE = re.compile(rf"{RECORDER}(?P<statistics>{STATISTICS_SUFFIX})?")
PROBE = re.compile(rf"[a-z]\d*:(?P<probe>{RECORDER}/\w+) ")
# The states, in /proc/PID/stat, of a process that has ended but wasn't waited for.
ENDED = (b"Z", b"X")
# The options that are set explicitly, since a new instance inherits the values of the top-level
# instance.
OPTIONS = {"overwrite": "1", "markers": "1"}


class NotRecorded(Exception):
    """Raised if recording turns out to be impossible after the machine was already changed."""


class Instance:
    """A tracing instance that a recorder created. At first all its events are off."""

    def __init__(self, machine: Machine, name: str, undoing: Undoing) -> None:
        self.machine, self.name, self.undoing = machine, name, undoing
        self.folder = f"{machine.tracing}/instances/{name}"
        self.buffers: dict[int, int] = {}
        self.marker = -1
        undoing.note(f"the instance {self.folder}", lambda: machine.remove_instance(name))
        try:
            machine.make_instance(name)
        except OSError:
            undoing.steps.pop()
            raise

    def write(self, file: str, text: str) -> None:
        """Writes `text` to a file of the instance."""
        write_file(f"{self.folder}/{file}", text)

    def prepare(self, buffer_kb: int) -> None:
        """Configures the instance, without switching on any event. Timestamps are CLOCK_MONOTONIC,
        and each processor's buffer has `buffer_kb` KiB.
        """
        self.write("tracing_on", "0")
        self.write("trace_clock", "mono")
        self.write("buffer_size_kb", str(buffer_kb))
        for option, value in OPTIONS.items():
            if os.path.exists(f"{self.folder}/options/{option}"):
                self.write(f"options/{option}", value)

    def enable(self, event: str, wanted: str) -> None:
        """Switches `event` on. `wanted` is the filter of its events, or empty to record all of
        them.
        """
        switch = f"events/{event}/enable"
        self.undoing.note(f"the event {event}", lambda: self.write(switch, "0"))
        try:
            if wanted:
                self.write(f"events/{event}/filter", wanted)
            self.write(switch, "1")
        except OSError:
            self.undoing.steps.pop()
            raise

    def enable_all(self, sources: Sources, say: Say, tell: Tell) -> list[str]:
        """Switches on the available events, and returns their names. Reports each unavailable
        event, and what the recording lacks without it. Raises NotRecorded if the event is
        required.
        """
        events = []
        for event in sources.events:
            try:
                self.enable(event, sources.filters.get(event, ""))
            except OSError as error:
                say(Key.NO_EVENT, f"{event}: {error.strerror}")
                if event in NEEDED or event.endswith(f"/{Probe.SWITCH}"):
                    raise NotRecorded(
                        f"the event {event} can't be switched on: {error.strerror}"
                    ) from error
                tell(f"no event {event}: {without(event)}")
                continue
            say(Key.EVENT, event)
            events.append(event)
        return events

    def open_files(self) -> None:
        """Opens the buffers and the marker file. The undo steps close these files before they
        remove the instance, since an instance with an open file can't be removed.
        """
        self.undoing.note("open files", self.close_files)
        self.marker = os.open(f"{self.folder}/trace_marker", os.O_WRONLY)
        for processor in range(self.machine.processors()):
            path = f"{self.folder}/per_cpu/cpu{processor}/trace_pipe_raw"
            with contextlib.suppress(FileNotFoundError):
                self.buffers[processor] = os.open(path, os.O_RDONLY | os.O_NONBLOCK)

    def close_files(self) -> None:
        """Closes the buffers and the marker file. A second call does nothing."""
        files, self.buffers, self.marker = [*self.buffers.values(), self.marker], {}, -1
        for file in files:
            if file >= 0:
                os.close(file)

    def mark(self, words: str) -> bool:
        """Writes a marker among the events. Returns False, without writing, if the marker is so
        long that the kernel might truncate it.
        """
        line = words.encode(errors="surrogateescape")
        if len(line) > MOST_MARKER_BYTES:
            return False
        os.write(self.marker, line)
        return True

    def note_mark(self, word: str) -> None:
        """Writes a marker that consists of MARK and `word`."""
        self.mark(f"{MARK}{word}")

    def pages(self, processor: int, most_bytes: float) -> Iterator[bytes]:
        """Yields a processor's events in pieces of whole pages. Stops if the buffer is empty, or
        after about `most_bytes`.
        """
        taken = 0
        while taken < most_bytes:
            try:
                piece = os.read(self.buffers[processor], READ_BYTES)
            except BlockingIOError:
                return
            except OSError as error:
                if error.errno == errno.EINTR:
                    continue
                raise
            if not piece:
                return
            taken += len(piece)
            yield piece

    def statistics(self, processor: int) -> dict[str, str]:
        """Returns the values in a processor's `per_cpu/cpuN/stats`, keyed by name."""
        text = read_file(f"{self.folder}/per_cpu/cpu{processor}/stats").decode(errors="replace")
        return {
            key: value.strip()
            for key, _, value in (it.partition(":") for it in text.splitlines())
            if value
        }


def lost_events(statistics: dict[str, str], is_ring: bool) -> int:
    """Returns the number of events that a processor lost. For a flight recorder, overwritten events
    don't count, since it overwrites its buffer on purpose.
    """
    return sum(int(statistics.get(it, 0)) for it in LOST_STATS if not (is_ring and it == "overrun"))


def oldest_time_s(statistics: dict[str, str]) -> float:
    """Returns the time (s) of the oldest event in a processor's buffer. Returns 0 if no older event
    was overwritten.
    """
    return float(statistics.get("oldest event ts", 0)) if int(statistics.get("overrun", 0)) else 0.0


def start_time(proc: str, process: str) -> str:
    """Returns the start time of a process, in clock ticks since boot. Returns an empty string if
    the process has ended, even if it wasn't waited for. The fields are counted from the last
    bracket, since the process's name may contain blanks.
    """
    words = read_file(f"{proc}/{process}/stat").rpartition(b")")[2].split()
    return words[19].decode() if len(words) > 19 and words[0] not in ENDED else ""


def recorder_name() -> str:
    """Returns the name of this recorder's instance and probe group. The start time is included
    because a pid may be reused.
    """
    return f"{PREFIX}{os.getpid()}_{start_time('/proc', 'self')}"


def remover(remove: Callable[[str], None], name: str) -> Callable[[], None]:
    """Returns an undo step: a function that calls `remove` with `name`."""
    return lambda: remove(name)


def remove_leftovers(machine: Machine, tell: Tell) -> None:
    """Removes the tracing instances and probes that killed recorders left on the machine. Their
    names contain the pid and the start time of a process that no longer runs.
    """

    def is_left(found: re.Match[str]) -> bool:
        number, start = found["number"], found["start"]
        if start is None:
            return int(number) == os.getpid() or not os.path.exists(f"{machine.proc}/{number}")
        return start_time(machine.proc, number) != start

    undoing = Undoing()
    for found in PROBE.finditer(
        read_file(f"{machine.tracing}/kprobe_events").decode(errors="replace")
    ):
        if is_left(found):
            undoing.note(
                f"the probe {found['probe']}", remover(machine.remove_probe, found["probe"])
            )
    for instance in sorted(os.listdir(f"{machine.tracing}/instances")):
        named = INSTANCE.fullmatch(instance)
        if named and is_left(named):
            if named["statistics"]:
                undoing.note(
                    "kernel.sched_schedstats",
                    lambda: write_file(f"{machine.proc}/{SCHEDULER_STATISTICS}", "0"),
                )
            undoing.note(f"the instance {instance}", remover(machine.remove_instance, instance))
    for what, _ in undoing.steps:
        tell(f"a recorder was killed: what it left is removed, {what}")
    undoing.undo()
    for what in undoing.left:
        tell(f"can't be removed: {what}")
