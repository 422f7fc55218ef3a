"""Runs one recording: its periodic jobs until it ends, and then the last writes.

A plain recording empties the ring buffers at least four times a second. A flight recorder lets the
kernel overwrite the oldest events, waits for pressure, and writes the buffers to the disk after the
incident. So the size of the buffers determines how much of the past its recording contains.
"""
from __future__ import annotations

import collections
import contextlib
import resource
import time
from dataclasses import dataclass

from psirec import layout
from psirec.layout import Key, Reason

from .folder import DiskFull, Folder
from .instance import Instance, NotRecorded, lost_events, oldest_time_s
from .probing import Tell
from .samples import MemorySampler, Reading, Snapshot, read_pressure, take_snapshot
from .trigger import Trigger
from .waiting import Job, Signals, Waiting

DRAIN_SECONDS = 0.25
# The largest fraction of the busiest buffer that should fill between two reads. At 600,000
# switches/s a buffer of 8 MB is full after 0.1 s.
MOST_FULL = 0.25
LEAST_DRAIN_SECONDS = 0.01
SNAPSHOT_SECONDS = 60.0
# The time (s) between two checks whether the trigger's group was removed or created again.
GROUP_SECONDS = 1.0
# The recording continues for this time (s) after the requested time. The last reading of the
# pressure files is due when the requested time ends, and would otherwise be missing.
LAST_READING_SECONDS = 0.02
FOREVER = float("inf")
MEGABYTE = 10**6


@dataclass(frozen=True)
class Wanted:
    """A request for a recording, from the operator's options. Times are in s, and sizes in the unit
    at the end of the name. `is_ring` requests a flight recorder. `until` is its trigger, `RESOURCE
    some|full THRESHOLD WINDOW`, or empty, and `after_seconds` the time to record after its signal.
    `group` is the path of the trigger's group, or empty. `has_wakeups` requests the probe of
    wakeups. `has_settings` requests the settings of systemd-oomd, and `has_containers` the names of
    containers.
    """

    seconds: float
    buffer_kb: int
    memory_seconds: float
    pressure_seconds: float
    has_probes: bool
    has_settings: bool
    has_containers: bool
    most_mb: float
    is_ring: bool
    until: str
    after_seconds: float
    has_wakeups: bool = False
    group: str = ""


@dataclass
class Ending:
    """The end of a recording: its reason (`layout.Reason`), the number of lost events of each
    processor that lost any, and the recording's length in s. `is_whole` is False if anything else
    is missing.
    """

    reason: str
    lost: dict[int, int]
    seconds: float
    is_whole: bool = True


class Recorder:
    """One recording, which uses the tracing instance `instance`."""

    def __init__(
        self,
        wanted: Wanted,
        instance: Instance,
        folder: Folder,
        signals: Signals,
        trigger: Trigger | None,
        tell: Tell,
    ) -> None:
        self.machine, self.wanted, self.instance, self.folder = (
            instance.machine,
            wanted,
            instance,
            folder,
        )
        self.signals, self.waiting = signals, Waiting(signals)
        self.trigger, self.tell = trigger, tell
        self.start = self.end = self.fired = self.drained = 0.0
        self.usage = resource.getrusage(resource.RUSAGE_SELF)
        self.reading_count = 0
        self.snapshots: collections.deque[Snapshot] = collections.deque(maxlen=2)
        self.readings: collections.deque[Reading] = collections.deque()
        self.memory = MemorySampler(self.machine, instance.mark)
        self.draining = Job(self.drain, 0.0, DRAIN_SECONDS)

    def record(self) -> Ending:
        """Runs the recording that `begin` started, until it ends. After an error, the recorder
        still writes everything that was recorded before the error.
        """
        try:
            reason = self.run()
        except DiskFull:
            reason = Reason.DISK_FULL
        except OSError as error:
            reason = f"{Reason.FAILED} {error}"
        try:
            return self.finish(reason)
        except (OSError, DiskFull) as error:
            return Ending(f"{Reason.FAILED} {error}", {}, time.monotonic() - self.start)

    def begin(self) -> None:
        """Switches tracing on. Raises NotRecorded if no marker can be written, since a recording
        without markers can't be interpreted.
        """
        self.instance.write("tracing_on", "1")
        self.usage = resource.getrusage(resource.RUSAGE_SELF)
        self.start = time.monotonic()
        self.drained, self.draining.due = self.start, self.start + DRAIN_SECONDS
        self.end = self.start + self.wanted.seconds + LAST_READING_SECONDS
        try:
            self.instance.note_mark(layout.START)
        except OSError as error:
            raise NotRecorded(
                f"no marker can be written, {self.instance.folder}/trace_marker: {error.strerror}"
            ) from error

    def jobs(self) -> list[Job]:
        """Returns the periodic jobs of this recording."""
        wanted, start = self.wanted, self.start
        jobs = [
            Job(
                self.read_pressure,
                start + wanted.pressure_seconds,
                wanted.pressure_seconds,
                is_each_due=True,
            ),
            Job(self.memory.sample, start, wanted.memory_seconds),
        ]
        if self.trigger and self.trigger.group:
            jobs.append(Job(self.follow_group, start, GROUP_SECONDS))
        if wanted.is_ring:
            return [*jobs, Job(self.take_snapshot, start + SNAPSHOT_SECONDS, SNAPSHOT_SECONDS)]
        return [*jobs, self.draining]

    def run(self) -> str:
        """Runs the periodic jobs until the recording ends, and returns the reason."""
        self.read_pressure()
        self.take_snapshot()
        self.memory.unaccounted = self.snapshots[-1].unaccounted
        jobs = self.jobs()
        reason = Reason.SECONDS
        while not self.signals.came:
            now = time.monotonic()
            for job in jobs:
                job.run_until(min(now, self.end))
            if now >= self.end:
                return reason
            if not self.wanted.is_ring and self.folder.bytes >= self.wanted.most_mb * MEGABYTE:
                return Reason.SIZE
            if self.waiting.until(min([self.end, *(it.due for it in jobs)])) and self.is_signal():
                reason = Reason.TRIGGER
                self.fire(jobs)
        return Reason.SIGNAL

    def watch(self, condition: int) -> None:
        """Adds the trigger's open file to the files that `waiting` polls. `condition` is the
        poll(2) condition for the trigger's signal.
        """
        assert self.trigger
        self.waiting.watch(self.trigger.file, condition)

    def is_signal(self) -> bool:
        """Returns whether pressure was signaled. poll(2) also reports the file of a removed group
        as ready, but that isn't a signal.
        """
        if self.trigger and self.trigger.is_current():
            return True
        self.follow_group()
        return False

    def follow_group(self) -> None:
        """Opens the trigger if its group exists now. The group may be created only later, or be
        removed and created again, like the group of a service at a restart.
        """
        trigger = self.trigger
        if not trigger or trigger.is_current() or self.fired:
            return
        if trigger.file >= 0:
            self.tell(
                f"the group {trigger.group} was removed: the trigger waits until it is created"
                " again"
            )
            self.waiting.unwatch()
            trigger.close()
        with contextlib.suppress(OSError):
            condition = trigger.open()
            if condition is not None:
                self.watch(condition)
                self.tell(f"the trigger watches the group {trigger.group} now")

    def fire(self, jobs: list[Job]) -> None:
        """Responds to the trigger's signal: the recording ends `after_seconds` later. No further
        snapshots are taken, since they would replace the snapshots from before the signal.
        """
        self.waiting.unwatch()
        self.fired = time.monotonic()
        self.end = self.fired + self.wanted.after_seconds
        self.instance.note_mark(layout.TRIGGERED)
        self.folder.say(Key.FIRED, f"{self.fired:.3f}")
        jobs[:] = [it for it in jobs if it.run not in (self.take_snapshot, self.follow_group)]

    # ---------------------------------------------------------------- periodic jobs

    def read_pressure(self) -> None:
        """Reads the pressure files. A flight recorder stores its readings in memory, since at its
        end most readings are older than the events in its buffers.
        """
        reading = read_pressure(
            self.machine, self.instance.mark, self.reading_count, time.monotonic()
        )
        self.reading_count += 1
        if self.wanted.is_ring:
            self.readings.append(reading)
        else:
            self.folder.append_pressure(reading.text)

    def take_snapshot(self) -> None:
        """Takes a snapshot of all groups and tasks. The snapshot and the events after it show the
        group of each task at any time. A flight recorder stores the last two snapshots, so that at
        least one is younger than the oldest event if its buffers are large enough. It drops
        readings of the pressure files that are older than both snapshots by more than one period.
        """
        self.instance.note_mark(layout.SNAPSHOT_BEGINS)
        self.snapshots.append(take_snapshot(self.machine, time.monotonic_ns()))
        self.instance.note_mark(layout.SNAPSHOT_ENDS)
        if not self.wanted.is_ring:
            self.folder.write_whole(layout.SNAPSHOT, self.snapshots[-1].text())
        while (
            self.readings
            and self.readings[0].time_s
            < self.snapshots[0].time_ns / 1e9 - self.wanted.pressure_seconds
        ):
            self.readings.popleft()

    def drain(self) -> None:
        """Reads the buffers, and adapts the time until the next read to the busiest processor.
        Reads at most one buffer size per processor, since a busy processor may fill its buffer as
        fast as the recorder reads it.
        """
        size, before = self.wanted.buffer_kb * 1024, self.drained
        self.drained = time.monotonic()
        busiest = self.take_pages(size)
        period = MOST_FULL * size * (self.drained - before) / max(busiest, 1)
        self.draining.period = min(DRAIN_SECONDS, max(LEAST_DRAIN_SECONDS, period))

    def take_pages(self, most_bytes: float) -> int:
        """Reads at most about `most_bytes` from each processor's buffer, and appends them to the
        recording. Returns the largest number of bytes that came from one buffer.
        """
        busiest = 0
        for processor in self.instance.buffers:
            before = self.folder.bytes
            for pages in self.instance.pages(processor, most_bytes):
                self.folder.append_pages(processor, pages)
            busiest = max(busiest, self.folder.bytes - before)
        return busiest

    # ---------------------------------------------------------------- the end of a recording

    def finish(self, reason: str) -> Ending:
        """Switches tracing off. Writes the remaining events and the numbers of lost events. Returns
        how the recording ended.
        """
        with contextlib.suppress(OSError):
            if self.wanted.is_ring and not self.has_snapshot_inside():
                self.take_snapshot()
            self.instance.note_mark(layout.STOP)
        self.instance.write("tracing_on", "0")
        seconds = time.monotonic() - self.start
        is_whole = True
        try:
            if self.wanted.is_ring:
                is_whole = self.write_ring(self.buffers_begin())
            if reason != Reason.DISK_FULL:
                self.take_pages(FOREVER)
        except DiskFull:
            reason = Reason.DISK_FULL
        self.folder.release()
        lost = self.write_statistics()
        self.write_cost(seconds)
        if self.memory.too_long:
            self.tell(
                f"{self.memory.too_long} samples of groups whose paths are too long for a marker"
                " were left out"
            )
        return Ending(reason, lost, seconds, is_whole)

    def has_snapshot_inside(self) -> bool:
        """Returns whether the buffers contain all events since the last snapshot. Returns False
        without a snapshot, which happens if the first marker couldn't be written.
        """
        return bool(self.snapshots) and self.snapshots[-1].time_ns >= self.buffers_begin() * 1e9

    def buffers_begin(self) -> float:
        """Returns the earliest time (s) since which the buffers of all processors contain all
        events.
        """
        return max(
            [
                self.start,
                *(oldest_time_s(self.instance.statistics(it)) for it in self.instance.buffers),
            ]
        )

    def write_ring(self, begin: float) -> bool:
        """Writes the readings of the pressure files, and the snapshot with which a flight
        recorder's trace can begin. `begin` is the time (s) since which the buffers contain all
        events. Returns False if the events around the trigger's signal were overwritten.
        """
        self.folder.say(Key.RING_START, f"{begin:.6f}")
        inside = [it for it in self.snapshots if it.time_ns >= begin * 1e9]
        for snapshot in (inside or [*self.snapshots][-1:])[:1]:
            self.folder.write_whole(layout.SNAPSHOT, snapshot.text())
        for reading in self.readings:
            self.folder.append_pressure(reading.text)
        self.tell(f"the buffers hold the last {time.monotonic() - begin:.1f} s")
        has_signal = not self.fired or begin < self.fired
        if not has_signal:
            self.tell(
                f"the moment of the signal, {begin - self.fired:.1f} s before, was overwritten: a"
                " larger --buffer-kb helps"
            )
        return has_signal

    def write_statistics(self) -> dict[int, int]:
        """Writes the kernel's statistics of each buffer. Returns the number of lost events of each
        processor that lost any.
        """
        lost = {}
        for processor in self.instance.buffers:
            statistics = self.instance.statistics(processor)
            for key, value in statistics.items():
                self.folder.say(Key.STATS, f"cpu{processor} {key}: {value}")
            lost[processor] = lost_events(statistics, self.wanted.is_ring)
        return {processor: count for processor, count in lost.items() if count}

    def write_cost(self, seconds: float) -> None:
        """Writes to `meta` the length of the recording (s), the bytes of its pages, and the
        processor time (s) that the recorder used.
        """
        usage = resource.getrusage(resource.RUSAGE_SELF)
        user, system = usage.ru_utime - self.usage.ru_utime, usage.ru_stime - self.usage.ru_stime
        self.folder.say(Key.SECONDS, f"{seconds:.3f}")
        self.folder.say(Key.BYTES, str(self.folder.bytes))
        self.folder.say(Key.PROCESSOR_SECONDS, f"user {user:.3f} sys {system:.3f}")
