"""Parses the command line of tools/record."""
from __future__ import annotations

import argparse
import enum
import re
from dataclasses import dataclass
from typing import NoReturn

from psirec.layout import RESOURCES

from .hook import why_not
from .recorder import FOREVER, Wanted
from .status import SERVICE_FOLDER
from .stored import MEGABYTE, Limits

# The argument that selects the command `record status` instead of a recording. To record into a new
# folder of this name, one writes ./status.
STATUS_WORD = "status"
# The default size limit (MB) of a recording. The longest possible trace, of 4,000,000 events, needs
# about 220 MB.
MOST_MB = 400.0
BUFFER_KB = 8192
TRIGGER = re.compile(rf"({'|'.join(RESOURCES)}) (some|full) ([1-9]\d*) ([1-9]\d*)")
EXAMPLE = '"memory full 100000 1000000"'
LEAST_WINDOW_US, MOST_WINDOW_US = 500_000, 10_000_000

DESCRIPTION = """\
Records, as root, the scheduler, the control groups and the memory of this machine, in the new \
folder OUT.
tools/psitrace converts it to a trace, from which psi_oomd computes pressure and kills.

examples:
  # a minute
  tools/record incident --seconds 60
  # a flight recorder, which writes what preceded a stall of all tasks for 100 ms within a second
  tools/record incident --ring --until "memory full 100000 1000000"
  # which recordings a folder has, and whether a recorder is at work there
  tools/record status /var/lib/psi-record

It ends after --seconds, at Ctrl-C (SIGINT, SIGTERM, SIGHUP) or at --max-mb, and leaves no \
changes on the machine. With
--ring it keeps the newest events in memory, waits for pressure, and writes them when it comes, \
or at Ctrl-C.
"""
EPILOG = """\
It needs root, tracefs at /sys/kernel/tracing, control groups of version 2 and /proc/pressure; \
what is missing is reported before
anything is changed. It records: switches, wakeups, creation, moves and exits of all tasks with \
their names, the file names
of executed programs, paths, memory and pressure of all groups. No arguments, no environment, no \
contents.

status  0 recorded
        2 nothing was recorded (a usage error, or something is missing; the machine is \
unchanged), or it
          failed during the recording; what was recorded by then was kept
        3 recorded, but incomplete: events were lost (then a larger --buffer-kb helps), or the \
disk is full
        4 something couldn't be removed from the machine: standard error says what
"""


class Status(enum.IntEnum):
    """The exit statuses, as in docs/OPERATING.md."""

    RECORDED = 0
    FAILED = 2
    NOT_WHOLE = 3
    LEFT_BEHIND = 4


class Words(argparse.ArgumentParser):
    """A parser that exits with this tool's own exit status after a usage error."""

    def error(self, message: str) -> NoReturn:
        """Prints the error `message`, and exits."""
        usage = f"usage: {self.prog} OUT [OPTION ..]; {self.prog} --help has the options"
        self.exit(Status.FAILED, f"record: {message}\n{usage}\n")


def positive(word: str) -> float:
    """Parses a number above 0."""
    try:
        number = float(word)
    except ValueError:
        raise argparse.ArgumentTypeError(f"{word} is no number") from None
    if not 0 < number < FOREVER:
        raise argparse.ArgumentTypeError(f"{word} isn't above 0, or too large")
    return number


def whole(word: str) -> int:
    """Parses a whole number above 0."""
    if not re.fullmatch("[1-9][0-9]*", word):
        raise argparse.ArgumentTypeError(f"{word} isn't a whole number above 0")
    return int(word)


def trigger(word: str) -> str:
    """Parses a trigger in the kernel's syntax (Documentation/accounting/psi.rst). Its window is 0.5
    to 10 s.
    """
    found = TRIGGER.fullmatch(" ".join(word.split()))
    if not found:
        raise argparse.ArgumentTypeError(
            f"{word!r} isn't `io|memory|cpu some|full THRESHOLD WINDOW`, with times in us: "
            f"{EXAMPLE} is 100 ms in each second"
        )
    threshold, window = int(found[3]), int(found[4])
    if not LEAST_WINDOW_US <= window <= MOST_WINDOW_US or threshold > window:
        raise argparse.ArgumentTypeError(
            f"the window is {LEAST_WINDOW_US} to {MOST_WINDOW_US} us, and the threshold at most "
            f"the window, as in {EXAMPLE}"
        )
    return found[0]


def group_path(word: str) -> str:
    """Parses the path of a control group, relative to the root. The leading slash is optional."""
    parts = [it for it in word.split("/") if it]
    if not parts or {".", ".."} & set(parts):
        raise argparse.ArgumentTypeError(
            f"{word!r} isn't the path of a group such as system.slice/db.service"
        )
    return "/" + "/".join(parts)


def hook(word: str) -> str:
    """Checks that root may run the program at this path, and returns the path."""
    fault = why_not(word)
    if fault:
        raise argparse.ArgumentTypeError(f"{word}: {fault}")
    return word


@dataclass(frozen=True)
class Service:
    """The options that don't concern a single recording: the daily limit, the limits of stored
    recordings, the hook to run afterwards, and the file for metrics. An absent option is None.
    """

    daily_limit: int | None
    limits: Limits
    hook: str | None
    textfile: str | None


def service_of(arguments: argparse.Namespace) -> Service:
    """Returns the options of the command line that don't concern a single recording."""
    most = None if arguments.keep_mb is None else int(arguments.keep_mb * MEGABYTE)
    return Service(arguments.daily_limit, Limits(arguments.keep, most), arguments.hook,
                   arguments.textfile)


def status_parser() -> argparse.ArgumentParser:
    """Returns the argument parser of `record status`."""
    about = "Prints the recordings of a folder, and whether a recorder is at work there."
    words = Words(prog=f"tools/record {STATUS_WORD}", description=about, allow_abbrev=False)
    words.add_argument("folder", nargs="?", default=SERVICE_FOLDER, metavar="FOLDER",
                       help="the folder above the recordings; %(default)s")
    words.add_argument("--textfile", metavar="FILE",
                       help="write metrics for node_exporter into FILE instead")
    return words


def parser() -> argparse.ArgumentParser:
    """Returns the argument parser of `record`."""
    form = argparse.RawDescriptionHelpFormatter
    words = Words(prog="tools/record", description=DESCRIPTION, epilog=EPILOG, formatter_class=form,
                  allow_abbrev=False)
    add = words.add_argument
    add("out", metavar="OUT", help="a folder that doesn't exist yet")
    add("--seconds", type=positive, metavar="N",
        help="the longest time in seconds; until it is stopped, if left out")
    add("--buffer-kb", type=whole, default=BUFFER_KB, metavar="N",
        help="ring buffer of each processor in KiB; %(default)s")
    add("--memory-s", type=positive, default=1.0, metavar="N",
        help="seconds between samples of memory; %(default)g")
    add("--pressure-s", type=positive, default=2.0, metavar="N",
        help="seconds between readings of pressure; %(default)g")
    add("--max-mb", type=positive, metavar="N", help=f"ends after N MB of events; {MOST_MB:g}")
    add("--compress", action="store_true",
        help="compress pages as they arrive, in a process of its own with the lowest priority")
    add("--no-probes", action="store_true",
        help="no kprobes: waits for IO by schedstats, no memory stalls")
    add("--wakeups", action="store_true",
        help="record when psi counts each wakeup, by one more probe: some 30 %% more events")
    add("--no-containers", action="store_true",
        help="doesn't ask crictl, docker or podman for the names of containers")
    add("--no-settings", action="store_true",
        help="doesn't store the settings of systemd-oomd, if systemd runs")
    add_ring(words)
    add("--root", metavar="DIR", help="for tests: a folder of plain files in place of the machine")
    return words


def add_ring(words: argparse.ArgumentParser) -> None:
    """Adds the options for a flight recorder, and for a service that records again and again."""
    add = words.add_argument
    add("--ring", action="store_true", help="a flight recorder")
    add("--until", type=trigger, metavar="TRIGGER",
        help="with --ring: `io|memory|cpu some|full THRESHOLD WINDOW`, in us")
    add("--after-s", type=positive, metavar="N",
        help="with --until: seconds that are recorded after the signal; 10")
    add("--daily-limit", type=whole, metavar="N",
        help="waits first, while there are N recordings of the last 24 hours next to OUT")
    add("--group", type=group_path, metavar="PATH",
        help="with --until: the pressure of this control group, which may be created later")
    add("--keep", type=whole, metavar="N",
        help="keep N recordings next to OUT, and delete older ones")
    add("--keep-mb", type=positive, metavar="N",
        help="keep N MB of recordings next to OUT, and delete older ones")
    add("--hook", type=hook, metavar="FILE",
        help="run this program after the recording, with the name of its folder")
    add("--textfile", metavar="FILE",
        help="write metrics of the folder above OUT for node_exporter")


def wanted_of(arguments: argparse.Namespace, words: argparse.ArgumentParser) -> Wanted:
    """Returns the parsed request for a recording. Exits with a usage error if options exclude each
    other.
    """
    if arguments.until and not arguments.ring:
        words.error("--until is for a flight recorder: --ring")
    if arguments.wakeups and arguments.no_probes:
        words.error("--wakeups takes a probe: not with --no-probes")
    if arguments.group and not arguments.until:
        words.error("--group is for the pressure that --until waits for")
    if arguments.after_s and not arguments.until:
        words.error("--after-s is for seconds after the signal of --until")
    if arguments.ring and arguments.max_mb:
        words.error("a flight recorder writes no more than its buffers: --max-mb is not for --ring")
    if arguments.ring and arguments.compress:
        words.error("a flight recorder writes once, at its end: --compress is not for --ring")
    return Wanted(
        seconds=arguments.seconds or FOREVER,
        buffer_kb=arguments.buffer_kb,
        memory_seconds=arguments.memory_s,
        pressure_seconds=arguments.pressure_s,
        has_probes=not arguments.no_probes,
        has_settings=not arguments.no_settings,
        has_containers=not arguments.no_containers,
        most_mb=arguments.max_mb or MOST_MB,
        is_ring=arguments.ring,
        until=arguments.until or "",
        after_seconds=arguments.after_s or 10.0,
        has_wakeups=arguments.wakeups,
        group=arguments.group or "",
    )
