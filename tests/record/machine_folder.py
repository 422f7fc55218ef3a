"""Makes a folder of plain files that imitates a machine, for `tools/record --root`, and lists its
contents.

The machine has two processors, a page of events on each, three threads and the groups /,
/system.slice, /system.slice/web.service and a group with a space in its name.
"""
from __future__ import annotations

import os
import struct

EVENTS = (
    "sched/sched_switch",
    "sched/sched_wakeup",
    "sched/sched_wakeup_new",
    "sched/sched_migrate_task",
    "sched/sched_process_exec",
    "sched/sched_stat_iowait",
    "task/task_newtask",
    "cgroup/cgroup_attach_task",
    "cgroup/cgroup_mkdir",
    "cgroup/cgroup_rmdir",
    "oom/mark_victim",
)
PAGE_BYTES = 4096
MANY_BYTES = 10**6
HEADER_PAGE = """\tfield: u64 timestamp;\toffset:0;\tsize:8;\tsigned:0;
\tfield: local_t commit;\toffset:8;\tsize:8;\tsigned:1;
\tfield: char data;\toffset:16;\tsize:4080;\tsigned:1;
"""
STATS = """entries: 0
overrun: {overrun}
commit overrun: 0
bytes: 0
oldest event ts: {oldest}
now ts:   100.000000
dropped events: 0
read events: 50
"""
PRESSURE = """some avg10=0.00 avg60=0.00 avg300=0.00 total={some}
full avg10=0.00 avg60=0.00 avg300=0.00 total={full}
"""
MEMORY = """MemTotal:       1000 kB
MemFree:         100 kB
MemAvailable:    300 kB
SwapTotal:       500 kB
SwapFree:        200 kB
"""
GROUPS = ("", "/system.slice", "/system.slice/web.service", "/user slice")
# Each thread's number, process number, state, processor, name and group.
THREADS = (
    (1, 1, "S", 0, "init", ""),
    (101, 101, "R", 1, "web) S 9 (x", "/system.slice/web.service"),
    (102, 101, "D", 0, "two\nlines", "/system.slice/web.service"),
)
# The offsets (bits) of the members in_iowait and pid in this machine's task_struct. A probe reads
# the members at these offsets.
WAIT_BIT, PID_BIT = 9544, 10112
FETCHED = "pid=+1264($arg1):s32 io=+1192($arg1):b1@8/32"
# The kernel functions that get probes, with the number of parameters of each. The recorder checks
# the numbers before it adds a probe.
FUNCTIONS = {"cgroup_attach_task": 3, "psi_show": 3, "psi_avgs_work": 1, "psi_task_change": 3}


def write(path: str, text: str | bytes) -> None:
    """Writes a file, and creates its parent folders."""
    os.makedirs(os.path.dirname(path), exist_ok=True)
    with open(path, "wb") as file:
        file.write(text if isinstance(text, bytes) else text.encode())


def kernel_types(wait_name: str = "in_iowait", functions: dict[str, int] = FUNCTIONS) -> bytes:
    """Returns a kernel's type information in the format of Documentation/bpf/btf.rst. It contains
    two misleading structures, the right structure, and functions with these numbers of parameters,
    each before its prototype. In one misleading structure, a member's offset equals the offset of
    the text `task_struct`. The other is named `task_struct`, but lacks the members.
    """
    names, text = {}, b"\0"
    for name in ("int", "task_struct", "other", "pid", wait_name, *functions):
        names[name] = len(text)
        text += name.encode() + b"\0"
    named = struct.Struct("<III")
    parts = [named.pack(names["int"], 1 << 24, 4) + struct.pack("<I", 32)]
    parts.append(
        named.pack(names["other"], 4 << 24 | 1, 4)
        + named.pack(names["pid"], 1, names["task_struct"])
    )
    parts.append(
        named.pack(names["task_struct"], 4 << 24 | 1, 4) + named.pack(names["other"], 1, 0)
    )
    members = (
        named.pack(names[wait_name], 1, 1 << 24 | WAIT_BIT) + named.pack(names["pid"], 1, PID_BIT)
    )
    parts.append(named.pack(names["task_struct"], 1 << 31 | 4 << 24 | 2, 2000) + members)
    for name, count in functions.items():
        parts.append(named.pack(names[name], 12 << 24, len(parts) + 2))
        parts.append(named.pack(0, 13 << 24 | count, 0) + struct.pack("<II", 0, 1) * count)
    types = b"".join(parts)
    return struct.pack(
        "<HBBIIIII", 0xEB9F, 1, 0, 24, 0, len(types), len(types), len(text)
    ) + types + text


def make_pages(top: str, processor: int, pages: bytes) -> None:
    """Writes a processor's pages. A large number of pages is written outside of the tracefs folder,
    so that a new tracing instance doesn't copy them.
    """
    buffer = f"{top}/tracing/per_cpu/cpu{processor}/trace_pipe_raw"
    if len(pages) < MANY_BYTES:
        write(buffer, pages)
    else:
        write(f"{top}.pages{processor}", pages)
        os.symlink(f"{top}.pages{processor}", buffer)


def make_tracing(top: str, overrun: int, oldest: str, pages: int) -> None:
    """Writes the tracefs files of two processors. `oldest` is the time of the oldest event (s), and
    `overrun` is the number of overwritten events.
    """
    tracing = f"{top}/tracing"
    os.makedirs(f"{tracing}/instances")
    for file, text in (
        ("kprobe_events", "p:other/probe do_exit\n"), ("tracing_on", "1\n"),
        ("trace_clock", "[local] mono\n"),
    ):
        write(f"{tracing}/{file}", text)
    write(f"{tracing}/buffer_size_kb", "1408\n")
    write(f"{tracing}/options/overwrite", "0\n")
    write(f"{tracing}/options/markers", "0\n")
    write(f"{tracing}/events/header_page", HEADER_PAGE)
    for number, event in enumerate((*EVENTS, "ftrace/print")):
        for file, text in (
            ("enable", "0\n"), ("filter", "none\n"), ("format", f"name: {event}\nID: {number}\n")
        ):
            write(f"{tracing}/events/{event}/{file}", text)
    for processor in range(2):
        write(f"{tracing}/per_cpu/cpu{processor}/stats",
              STATS.format(overrun=overrun if processor else 0, oldest=oldest))
        make_pages(top, processor, bytes([processor + 1]) * (PAGE_BYTES * pages))
    # The file of markers must still exist after the tracing instance is removed, so it is outside
    # of the tracefs folder.
    write(f"{top}.markers", "")
    os.symlink(f"{top}.markers", f"{tracing}/trace_marker")


def make_groups(top: str) -> None:
    """Writes the folders and files of the control groups."""
    for group in GROUPS:
        threads = "".join(f"{it[0]}\n" for it in THREADS if it[5] == group)
        write(f"{top}/cgroup{group}/cgroup.threads", threads)
        for resource in ("io", "memory", "cpu") if group else ():
            write(f"{top}/cgroup{group}/{resource}.pressure",
                  PRESSURE.format(some=len(group), full=len(resource)))
    write(f"{top}/cgroup/cgroup.controllers", "cpu io memory\n")
    web = f"{top}/cgroup/system.slice/web.service"
    for file, text in (
        ("memory.current", "4096\n"), ("memory.swap.current", "8192\n"), ("cgroup.pressure", "0\n")
    ):
        write(f"{web}/{file}", text)
    for group, kind in (
        ("system.slice", "domain threaded"), ("system.slice/web.service", "threaded"),
        ("user slice", "domain"),
    ):
        write(f"{top}/cgroup/{group}/cgroup.type", f"{kind}\n")
    write(f"{web}/memory.stat", "anon 1\nfile 2\npgscan_kswapd 5\npgscan 77\npgsteal 3\n")


def make_processes(top: str) -> None:
    """Writes the files of /proc for each thread."""
    for number, process, state, processor, name, _ in THREADS:
        fields = [str(it) for it in range(4, 39)]
        write(f"{top}/proc/{number}/stat",
              f"{number} ({name}) {state} {' '.join(fields)} {processor} 0 0\n")
        write(f"{top}/proc/{number}/status", f"Name:\tx\nTgid:\t{process}\nPid:\t{number}\n")
    write(f"{top}/proc/meminfo", MEMORY)
    write(f"{top}/proc/sys/kernel/sched_schedstats", "0\n")
    for resource in ("io", "memory", "cpu"):
        write(f"{top}/proc/pressure/{resource}", PRESSURE.format(some=1000, full=500))


def make_machine(top: str, overrun: int = 0, oldest: str = "1.000000", pages: int = 1) -> None:
    """Writes a whole machine into the folder `top`. Each processor has `pages` pages of events. The
    second processor has lost `overrun` events.
    """
    make_tracing(top, overrun, oldest, pages)
    make_groups(top)
    make_processes(top)
    write(f"{top}/btf", kernel_types())
    os.mkfifo(f"{top}/trigger")


def listing(top: str) -> dict[str, tuple[int, str | bytes | None]]:
    """Returns the contents of the folder by path: the mode of each file, and its bytes or the
    target of the link.
    """
    found: dict[str, tuple[int, str | bytes | None]] = {}
    for folder, folders, files in os.walk(top):
        for name in folders + files:
            path = f"{folder}/{name}"
            kind = os.lstat(path).st_mode
            if os.path.islink(path):
                found[path] = kind, os.readlink(path)
            elif os.path.isfile(path):
                with open(path, "rb") as file:
                    found[path] = kind, file.read()
            else:
                found[path] = kind, None
    return found
