"""Implements the command tools/record, from the first check of the machine to the summary."""
from __future__ import annotations

import contextlib
import os
import resource
import sys
import time

from psirec.layout import Key, Probe, Reason, escaped_path

from .container_names import ContainerNames
from .daily import wait_for_room
from .folder import DiskFull, Folder
from .hook import run_hook
from .instance import STATISTICS_SUFFIX, Instance, NotRecorded, recorder_name, remove_leftovers
from .machine import Machine
from .options import STATUS_WORD, Service, Status, parser, service_of, status_parser, wanted_of
from .plain_machine import plain_machine
from .probing import (
    BY_PROBE,
    BY_STATE,
    BY_STATISTICS,
    EVENTS,
    NO_STALLS,
    NO_WAKEUPS,
    STATE_ALONE,
    STATISTICS_EVENT,
    Sources,
    Statistics,
    add_probes,
    statistics_of,
    switch_statistics_on,
)
from .recorder import Ending, Recorder, Wanted
from .status import lines as status_lines
from .status import write_textfile
from .stored import keep
from .systemd_settings import store as store_settings
from .trigger import Trigger
from .undoing import Undoing
from .waiting import Signals

PRIORITY = -10
# The flags MCL_CURRENT, MCL_FUTURE and MCL_ONFAULT of <sys/mman.h>.
LOCK_CURRENT, LOCK_FUTURE, LOCK_ON_FAULT = 1, 2, 4


def tell(line: str) -> None:
    """Prints a line on standard error. A failed write is ignored, so that the recording continues
    if nobody reads the line. The line is written unbuffered, since Python exits with its own status
    if it can't flush a buffer.
    """
    if sys.stderr is not None:
        with contextlib.suppress(OSError, ValueError):
            os.write(sys.stderr.fileno(), f"record: {line}\n".encode(errors="backslashreplace"))


# ---------------------------------------------------------------- one recording


def choose_sources(
    machine: Machine, wanted: Wanted, group: str, folder: Folder, undoing: Undoing
) -> tuple[Sources, bool]:
    """Chooses the best available sources of events. Returns the sources, and whether they require
    the kernel's scheduler statistics to be switched on.
    """
    if wanted.has_probes:
        sources = add_probes(machine, group, undoing, folder.say, wanted.has_wakeups)
    else:
        sources = Sources()
        folder.say(Key.NO_PROBE, "all: not wanted")
    if f"{group}/{Probe.STALL_BEGINS}" not in sources.events:
        tell(NO_STALLS)
    if wanted.has_wakeups and f"{group}/{Probe.READY}" not in sources.events:
        tell(NO_WAKEUPS)
    sources.events[:0] = EVENTS
    if sources.waits == BY_PROBE:
        return sources, False
    statistics = statistics_of(machine)
    if statistics == Statistics.ABSENT:
        folder.say(Key.NO_EVENT, f"{STATISTICS_EVENT}: there is no kernel.sched_schedstats")
        return sources, False
    sources.waits = BY_STATISTICS
    sources.events.append(STATISTICS_EVENT)
    return sources, statistics == Statistics.OFF


def prepare(
    machine: Machine, wanted: Wanted, folder: Folder, undoing: Undoing
) -> tuple[Instance, Sources]:
    """Adds the probes and creates the tracing instance. Nothing is traced yet. Returns the instance
    and the sources of events.
    """
    name = recorder_name()
    sources, needs_statistics = choose_sources(machine, wanted, name, folder, undoing)
    instance = Instance(machine, name + (STATISTICS_SUFFIX if needs_statistics else ""), undoing)
    if needs_statistics:
        try:
            switch_statistics_on(machine, undoing)
        except OSError as error:
            sources.events.remove(STATISTICS_EVENT)
            folder.say(
                Key.NO_EVENT, f"{STATISTICS_EVENT}: kernel.sched_schedstats: {error.strerror}"
            )
            sources.waits = BY_STATE
    instance.prepare(wanted.buffer_kb)
    events = instance.enable_all(sources, folder.say, tell)
    folder.write_formats(machine, events)
    folder.open_raw(machine.processors())
    instance.open_files()
    tell(STATE_ALONE if sources.waits == BY_STATE else f"waits for IO are told by {sources.waits}")
    return instance, sources


def say_machine(folder: Folder, machine: Machine, wanted: Wanted) -> None:
    """Writes the machine's name, the number of its processors, its time zone, and the time by both
    clocks: the time of day, and the clock of the events. Also writes the trigger of a flight
    recorder.
    """
    before, realtime, after = time.monotonic(), time.time(), time.monotonic()
    folder.say(Key.UNAME, " ".join(os.uname()))
    folder.say(Key.PROCESSORS, str(machine.processors()))
    zone = time.strftime("%z", time.localtime(realtime))
    folder.say(Key.ZONE, f"{zone[:3]}:{zone[3:5]}")
    folder.say(Key.MOMENT, f"realtime {realtime:.6f} monotonic {(before + after) / 2:.6f}")
    if wanted.is_ring:
        folder.say(Key.RING, wanted.until or "none")
    if wanted.group:
        folder.say(Key.RING_GROUP, escaped_path(wanted.group.encode(errors="surrogateescape")))


def record(
    machine: Machine, wanted: Wanted, service: Service, folder: Folder, signals: Signals,
    trigger: Trigger | None, condition: int | None,
) -> Status:
    """Makes one recording, and undoes all changes of the machine. Returns the exit status."""
    ending = None
    with Undoing() as undoing:
        try:
            say_machine(folder, machine, wanted)
            instance, sources = prepare(machine, wanted, folder, undoing)
            recorder = Recorder(wanted, instance, folder, signals, trigger, tell)
            if wanted.has_settings:
                store_settings(machine, folder, tell)
            names = ContainerNames(machine, tell)
            if wanted.has_containers:
                names.collect()
            recorder.begin()
        except (OSError, NotRecorded, DiskFull) as error:
            tell(f"nothing was recorded: {error}")
        else:
            if condition is not None:
                recorder.watch(condition)
            elif trigger:
                tell(
                    f"there is no group {trigger.group} yet: the trigger waits until it is created"
                )
            tell(f"recording {machine.processors()} processors into {folder.path}; Ctrl-C ends it")
            ending = recorder.record()
            if wanted.has_containers:
                names.collect()
                names.store(folder)
            check_statistics(machine, sources, folder, ending)
    if ending:
        # Old recordings are deleted before the lock on `folder` is released, so that the limit
        # always holds.
        keep(
            os.path.dirname(os.path.abspath(folder.path)), service.limits, tell,
            os.path.basename(folder.path),
        )
    return closed(folder, ending, undoing.left)


def check_statistics(machine: Machine, sources: Sources, folder: Folder, ending: Ending) -> None:
    """Prints a warning if the kernel's scheduler statistics were switched off during the recording,
    perhaps by another recorder. In this case the recording lacks some waits for IO.
    """
    if sources.waits == BY_STATISTICS and statistics_of(machine) != Statistics.ON:
        what = "kernel.sched_schedstats was switched off meanwhile, so waits for IO are missing"
        tell(what)
        ending.is_whole = False
        with contextlib.suppress(DiskFull):
            folder.say(Key.NO_EVENT, f"{STATISTICS_EVENT}: {what}")


def closed(folder: Folder, ending: Ending | None, left: list[str]) -> Status:
    """Writes the last lines of `meta`, prints the summary, and returns the exit status. `left`
    names the changes of the machine that couldn't be undone.
    """
    for what in left:
        tell(f"this couldn't be undone, and is left on the machine: {what}")
    if ending:
        with contextlib.suppress(DiskFull):
            for what in left:
                folder.say(Key.LEFT, what)
            finish_compressing(folder, ending)
            folder.say(Key.END, ending.reason)
        folder.close()
        summarize(folder, ending)
    else:
        folder.close_files()
        folder.discard()
    if left:
        return Status.LEFT_BEHIND
    if not ending or ending.reason.startswith(Reason.FAILED):
        return Status.FAILED
    is_whole = ending.is_whole and not ending.lost and ending.reason != Reason.DISK_FULL
    return Status.RECORDED if is_whole else Status.NOT_WHOLE


def finish_compressing(folder: Folder, ending: Ending) -> None:
    """Waits until all pages are compressed, and reports the processor time (s) of compressing. If
    compressing fails, the remaining pages stay in uncompressed files, so nothing is lost.
    """
    finished = folder.finish_compressing()
    if finished:
        seconds, is_done = finished
        folder.say(Key.COMPRESSING, f"{seconds:.3f}")
        share = 100 * seconds / max(ending.seconds, 1e-3)
        failed = "" if is_done else "; it failed, and the pages that are left are as they came"
        tell(f"compressing took {seconds:.1f} s of a processor, {share:.1f} percent of one{failed}")


def summarize(folder: Folder, ending: Ending) -> None:
    """Prints the size and length of the recording, and every way in which it is incomplete."""
    tell(f"{ending.seconds:.1f} s, {folder.bytes / 1e6:.1f} MB of events, ended by {ending.reason}")
    if ending.lost:
        each = ", ".join(f"cpu {processor}: {count}" for processor, count in ending.lost.items())
        tell(f"events were lost, {each}: a larger --buffer-kb helps")
    if ending.reason == Reason.DISK_FULL:
        tell("the disk is full: what was written until then is kept")


def make_ready() -> None:
    """Prepares this process so that it isn't late if the machine is overloaded. Raises its
    priority, locks its memory (mlockall(2)), and raises the limit of open files, since each
    processor needs two open files. Steps that aren't permitted are skipped.
    """
    _, most = resource.getrlimit(resource.RLIMIT_NOFILE)
    with contextlib.suppress(OSError, ValueError):
        resource.setrlimit(resource.RLIMIT_NOFILE, (most, most))
    with contextlib.suppress(OSError):
        os.setpriority(os.PRIO_PROCESS, 0, PRIORITY)
    with contextlib.suppress(ImportError, AttributeError, OSError):
        from ctypes import CDLL

        CDLL(None).mlockall(LOCK_CURRENT | LOCK_FUTURE | LOCK_ON_FAULT)


def print_status(arguments: list[str]) -> Status:
    """Runs the command `record status`, and returns the exit status."""
    options = status_parser().parse_args(arguments)
    try:
        if options.textfile:
            write_textfile(options.textfile, options.folder)
        else:
            print("\n".join(status_lines(options.folder)))
    except OSError as error:
        tell(f"{error.filename or options.folder}: {error.strerror}")
        return Status.FAILED
    return Status.RECORDED


def update_textfile(service: Service, above: str) -> None:
    """Writes the metrics of `above`, the folder of all recordings, if the options name a textfile.
    """
    if service.textfile:
        try:
            write_textfile(service.textfile, above)
        except OSError as error:
            tell(f"{service.textfile} couldn't be written: {error.strerror}")


def record_once(
    machine: Machine, out: str, wanted: Wanted, service: Service, signals: Signals,
    is_compressed: bool,
) -> Status:
    """Records into the new folder `out`, and then writes the metrics and runs the hook. Returns the
    exit status.
    """
    above = os.path.dirname(os.path.abspath(out))
    trigger = Trigger(machine, wanted.until, wanted.group) if wanted.until else None
    try:
        condition = trigger.open() if trigger else None
        folder = Folder(out, is_compressed)
    except (OSError, DiskFull) as error:
        tell(f"nothing was recorded: {error}")
        return Status.FAILED
    remove_leftovers(machine, tell)
    update_textfile(service, above)
    status = record(machine, wanted, service, folder, signals, trigger, condition)
    if service.hook and os.path.isdir(out):
        run_hook(service.hook, out, signals, tell)
    update_textfile(service, above)
    return status


def main(arguments: list[str] | None = None) -> int:
    """Parses the command line, runs the command, and returns the exit status."""
    arguments = sys.argv[1:] if arguments is None else arguments
    if arguments[:1] == [STATUS_WORD]:
        return print_status(arguments[1:])
    words = parser()
    options = words.parse_args(arguments)
    wanted, service = wanted_of(options, words), service_of(options)
    machine = plain_machine(options.root) if options.root else Machine()
    missing = list(machine.missing())
    for what in missing:
        tell(f"there must be {what}")
    if missing:
        return Status.FAILED
    make_ready()
    signals = Signals()
    keep(os.path.dirname(os.path.abspath(options.out)), service.limits, tell)
    if service.daily_limit and not wait_for_room(options.out, service.daily_limit, signals, tell):
        signals.end_by_it()
    status = record_once(machine, options.out, wanted, service, signals, options.compress)
    signals.ignore()
    return status
