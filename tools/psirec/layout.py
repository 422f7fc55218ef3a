"""The names in a recording: the files of its folder, their lines, the markers among its events, and
its probes.

`tools/record` writes these names and `tools/psitrace` and `tools/compare` read them, so this module
defines each once. Files may contain bytes that aren't UTF-8, which Python's error handler
`surrogateescape` preserves. Paths of control groups begin at the root of the hierarchy, `/`, and
are escaped by `escaped_path`, so no path contains a blank.

meta        lines `KEY VALUE`; a key may occur more than once. The last line is `end REASON`: if
            it is missing, the recorder was killed.
formats     for each event a line `== SYSTEM/EVENT` and the text of the kernel's own file
            `events/SYSTEM/EVENT/format`; also `== header_page`, which has the size of a page of a
            ring buffer.
cpuN.raw    the pages of the ring buffer of processor N, in the order in which they arrived. A
            compressed recording has them in parts instead, cpuN.K.raw.gz with K from 0; a part that
            isn't compressed yet is cpuN.K.raw.
containers  names of containers and pods, if any run: lines `NUMBER NAME` (`psirec.containers`).
snapshot    the groups and tasks soon after the start: lines `at NS`, `group PATH PREFERENCE`, `type
            PATH TYPE` (its `cgroup.type`), `unaccounted PATH` (its `cgroup.pressure` is 0) and
            `task TID TGID STATE CPU PATH NAME`; the last line is `end`.
pressure    for each reading `sample NUMBER PATH RESOURCE` and the two lines of that pressure file.

NS is CLOCK_MONOTONIC in ns, like the times of all events (`trace_clock` is `mono`). Sizes of memory
are in bytes.
"""
from __future__ import annotations

import re

# The version of this layout, in the first line of `meta`: `recording 2`. If that line is missing,
# an early draft of the recorder wrote the folder. The `meta` of the draft ends in a line with the
# key SKETCH_END in place of `end REASON`.
VERSION = "2"
# The versions that the tools can read. In version 1, snapshots lack the last line SNAPSHOT_END.
WITHOUT_END, VERSIONS = "1", ("1", VERSION)

# ---------------------------------------------------------------- files of a recording

META = "meta"
FORMATS = "formats"
SNAPSHOT = "snapshot"
PRESSURE = "pressure"


def raw_name(processor: int) -> str:
    """Returns the file name of a processor's pages if they are in a single uncompressed file."""
    return f"cpu{processor}.raw"


# The suffix of the file name of a compressed part.
PACKED = ".gz"


def part_name(processor: int, part: int) -> str:
    """Returns the file name of a part of a processor's pages. Parts are numbered from 0, and are
    compressed once they are complete.
    """
    return f"cpu{processor}.{part}.raw"


# ---------------------------------------------------------------- keys of the file meta


class Key:
    """The keys of the file `meta`. A key is the first word of a line. The comment after a key
    describes the rest of the line.
    """

    RECORDING = "recording"  # VERSION; this is the first line
    UNAME = "uname"  # the words of uname(2)
    PROCESSORS = "cpus"  # the number of configured processors (_NPROCESSORS_CONF)
    ZONE = "zone"  # `+HH:MM`, the offset of local time from UTC at the start
    MOMENT = (  # `realtime S monotonic S`: both clocks at the start, in s with six decimals
        "moment"
    )
    EVENT = "event"  # `SYSTEM/EVENT`, an event that was switched on
    NO_EVENT = "no-event"  # `SYSTEM/EVENT: REASON`, an event that couldn't be switched on
    NO_PROBE = "no-probe"  # `DEFINITION: REASON`, a probe that couldn't be added
    RING = "ring"  # the trigger of a flight recorder, or `none`
    RING_GROUP = "ring-group"  # the escaped path of the group that the trigger watches
    RING_START = "ring-start"  # the time (s) since which the events of all processors are complete
    FIRED = "fired"  # the time (s) at which the trigger signaled pressure
    STATS = "stats"  # `cpuN LINE`, a line of `per_cpu/cpuN/stats` at the end
    SECONDS = "seconds"  # the length of the recording (s)
    BYTES = "bytes"  # the size of all pages (bytes), before they are compressed
    PROCESSOR_SECONDS = "cpu-seconds"  # `user S sys S`, the processor time that the recorder used
    COMPRESSING = "compress-seconds"  # the processor time (s) that compressing took
    LEFT = "left"  # a change of the machine that couldn't be undone
    END = "end"  # a word of Reason; this is the last line


SKETCH_END = Key.PROCESSOR_SECONDS

# The names of lines in `stats` that count lost events.
LOST_STATS = ("overrun", "commit overrun", "dropped events")


class Reason:
    """The reasons for which a recording ended."""

    SECONDS = "seconds"  # the requested time was over
    SIGNAL = "signal"  # SIGINT, SIGTERM or SIGHUP was received
    SIZE = "max-mb"  # the largest permitted number of bytes was written
    TRIGGER = "trigger"  # the flight recorder's trigger signaled pressure
    DISK_FULL = "disk-full"  # not all pages could be written
    FAILED = "failed"  # an error, whose message follows this word
    KILLED = "killed"  # `meta` has no reason: the recorder was killed, or the machine crashed


# ---------------------------------------------------------------- names of kernel probes

# The recorder names its tracing instance and its probe group PREFIX, its pid, "_", and its start
# time in clock ticks since boot (from /proc/PID/stat).
PREFIX = "psirec"


class Probe:
    """The names of probes, and of the values that they report. A comment names the probed function
    of the kernel.
    """

    STALL_BEGINS = "ms_enter"  # psi_memstall_enter
    STALL_ENDS = "ms_leave"  # psi_memstall_leave; FLAGS is 0 at the end of the outermost stall
    # psi_task_switch: task PID leaves its processor. IO is 1 if psi counts the task as waiting for
    # IO.
    SWITCH = "psw"
    INTERRUPT = "irq"  # psi_account_irqtime: interrupts took DELTA ns
    # cgroup_attach_task: task PID moves to another group. ALL is 1 if all threads of its process
    # move.
    ATTACH = "cga"
    # psi_show: a process reads the pressure file of resource RES; GROUP is the address of the
    # group's `struct psi_group`.
    SHOW = "psh"
    # psi_avgs_work: the kernel updates the averages of the group whose `struct psi_group` contains
    # the address WORK.
    AVERAGE = "pav"
    READY = "pch"  # psi_task_change: psi counts task PID as ready if SET has the bit SET_READY
    FLAGS = "flags"
    PID = "pid"
    IO = "io"
    DELTA = "delta"
    ALL = "all"
    GROUP = "group"
    RES = "res"
    WORK = "work"
    SET = "set"


# The bit of SET with which psi counts a task as ready: TSK_RUNNING in `include/linux/psi_types.h`.
SET_READY = 4


# ---------------------------------------------------------------- markers among the events

# A marker is a line that the recorder writes to the file `trace_marker` of its tracing instance. It
# consists of MARK and one of these words, or the result of one of these functions.
MARK = "psirec "
START = "start"
STOP = "stop"
TRIGGERED = "fired"
SNAPSHOT_BEGINS = "snapshot begin"
SNAPSHOT_ENDS = "snapshot end"
# The largest length of a marker (bytes). The kernel may truncate longer markers.
MOST_MARKER_BYTES = 1000


def host_marker(memory_total: int, swap_total: int, swap_free: int) -> str:
    """Returns the marker with the machine's memory and swap (bytes)."""
    return f"{MARK}host {memory_total} {swap_total} {swap_free}"


def memory_marker(path: str, current: int, swap: int, scanned: int) -> str:
    """Returns the marker with a group's memory and swap (bytes) and its count of scanned pages
    (`pgscan`). `path` is escaped.
    """
    return f"{MARK}mem {path} {current} {swap} {scanned}"


def pressure_marker(number: int, is_end: bool) -> str:
    """Returns the marker that precedes or follows a reading of all pressure files. `number` counts
    the readings from 0.
    """
    return f"{MARK}pressure {number} {'end' if is_end else 'begin'}"


def accounting_marker(path: str, is_on: bool) -> str:
    """Returns the marker which reports that a group's `cgroup.pressure` has changed since the
    previous sample. A new group is assumed to start with 1. `path` is escaped.
    """
    return f"{MARK}accounting {path} {'on' if is_on else 'off'}"


# ---------------------------------------------------------------- lines of snapshots and readings

PREFERENCES = ("none", "prefer", "avoid", "omit")
RESOURCES = ("io", "memory", "cpu")


def at_line(time_ns: int) -> str:
    """Returns the line of a snapshot with the time at which it began (CLOCK_MONOTONIC, ns)."""
    return f"at {time_ns}"


# The last line of a snapshot. If it is missing, the file is incomplete.
SNAPSHOT_END = "end"


def group_line(path: str, preference: str) -> str:
    """Returns the line for a group in a snapshot. `preference` is one of PREFERENCES, from the
    extended attributes that oomd and systemd-oomd read.
    """
    return f"group {path} {preference}"


# The `cgroup.type` of a group that contains whole processes, with all their threads.
PLAIN_TYPE = "domain"


def type_line(path: str, kind: str) -> str:
    """Returns the line for a group's `cgroup.type`: PLAIN_TYPE, `domain-threaded`, `threaded` or
    `domain-invalid`. A blank is replaced by a dash.
    """
    return f"type {path} {'-'.join(kind.split())}"


def unaccounted_line(path: str) -> str:
    """Returns the line for a group whose pressure isn't accounted, because its `cgroup.pressure` is
    0.
    """
    return f"unaccounted {path}"


def task_line(task: int, process: int, state: str, processor: int, path: str, name: str) -> str:
    """Returns the line for a thread: its number, its process (Tgid), its state and processor from
    /proc/TID/stat, its group and its name. A newline in the name is replaced by a blank.
    """
    return f"task {task} {process} {state} {processor} {path} {' '.join(name.splitlines())}"


def sample_line(number: int, path: str, resource: str) -> str:
    """Returns the line that precedes the content of a pressure file in a reading."""
    return f"sample {number} {path} {resource}"


# ---------------------------------------------------------------- paths of control groups

_PLAIN = frozenset(b"ABCDEFGHIJKLMNOPQRSTUVWXYZabcdefghijklmnopqrstuvwxyz0123456789_.@:-\\")


def _escaped_component(component: bytes) -> str:
    if component in (b".", b".."):
        return "".join(f"\\x{byte:02x}" for byte in component)
    return "".join(chr(byte) if byte in _PLAIN else f"\\x{byte:02x}" for byte in component)


def escaped_path(path: bytes) -> str:
    """Escapes a group's path: each byte that a trace doesn't allow in a path becomes `\\xHH`, as in
    systemd's names of units. An escaped path doesn't change if it is escaped again.
    """
    return "/" + "/".join(_escaped_component(it) for it in re.split(b"/+", path) if it)
