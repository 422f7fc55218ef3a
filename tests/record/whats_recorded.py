"""Checks of the contents of a recording."""
from __future__ import annotations

import os
import re
import shutil
import time

from record import machine_folder as folder
from harness import must, must_be
from record.runs import Run, read, whole

WEB = "/system.slice/web.service"


def check_a_whole_machine(top: str) -> None:
    run = whole(
        top, "--seconds", "1.1", "--memory-s", "0.5", "--pressure-s", "0.5", pages=40
    ).ended(0)
    must_be("no probe is missing", run.values("no-probe") + run.values("no-event"), [])
    events = [it for it in folder.EVENTS if it != "sched/sched_stat_iowait"]
    found = [re.sub(r"^psirec\d+_\d+/", "", it) for it in run.values("event")]
    must_be("the events", found, [*events, "ms_enter", "ms_leave", "psw", "cga", "psh", "pav"])
    must_be("processors", run.values("cpus"), ["2"])
    must_be("the end", run.values("end"), ["seconds"])
    must_be("bytes", run.values("bytes"), [str(2 * 40 * folder.PAGE_BYTES)])
    for processor in range(2):
        must_be("pages", run.file(f"cpu{processor}.raw"),
                bytes([processor + 1]) * (40 * folder.PAGE_BYTES))
    must("cpu1 overrun: 0" in run.values("stats"), "the kernel's counts are there")
    must_be("files", sorted(os.listdir(run.out)),
            ["cpu0.raw", "cpu1.raw", "formats", "meta", "pressure", "snapshot"])
    seconds = float(run.values("seconds")[0])
    must(1.1 <= seconds < 3, f"it takes its time: {seconds}")


def check_the_two_clocks(top: str) -> None:
    before = time.time() - time.monotonic()
    run = whole(top).ended(0)
    found = re.fullmatch(r"realtime (\d+\.\d{6}) monotonic (\d+\.\d{6})", run.values("moment")[0])
    must(found and abs(float(found[1]) - float(found[2]) - before) < 0.01,
         f"the clocks belong together: {found}")


def check_formats(top: str) -> None:
    run = whole(top).ended(0)
    text = run.file("formats").decode()
    must(
        text.startswith(
            f"== header_page\n{folder.HEADER_PAGE}== sched/sched_switch\nname: sched/sched_switch\n"
            "ID: 0\n"
        ),
        text,
    )
    heads = re.findall("^== (.*)$", text, re.MULTILINE)
    must_be("the formats", heads, ["header_page", *run.values("event"), "ftrace/print"])
    must_be("each has its text", len(re.findall("^name: ", text, re.MULTILINE)), len(heads) - 1)


def check_snapshot(top: str) -> None:
    run = whole(top).ended(0)
    first, _, rest = run.file("snapshot").decode().partition("\n")
    must(re.fullmatch(r"at \d+", first), first)
    wanted = rf"""group / none
task 1 1 S 0 / init
group /system.slice none
type /system.slice domain-threaded
group {WEB} none
type {WEB} threaded
unaccounted {WEB}
task 101 101 R 1 {WEB} web) S 9 (x
task 102 101 D 0 {WEB} two lines
group /user\x20slice none
type /user\x20slice domain
end
"""
    must_be("the snapshot", rest, wanted)


def check_preferences(top: str) -> None:
    folder.make_machine(top)
    try:
        os.setxattr(f"{top}/cgroup{WEB}", "user.oomd_omit", b"1")
        os.setxattr(f"{top}/cgroup/system.slice", "user.oomd_prefer", b"1")
    except OSError as error:
        print(f"preferences are skipped, there are no attributes here: {error}")
        return
    run = Run(top, "--seconds", "0.3").ended(0)
    must_be("preferences",
            re.findall(r"^group (\S+ \w+)$", run.file("snapshot").decode(), re.MULTILINE)[1:3],
            ["/system.slice prefer", f"{WEB} omit"])  # fmt: skip


def check_pressure_files(top: str) -> None:
    run = whole(top, "--seconds", "0.5", "--pressure-s", "0.2").ended(0)
    wanted = ""
    for number in range(3):
        for group, path in (
            ("", "/"), ("/system.slice", "/system.slice"), (WEB, WEB),
            ("/user slice", r"/user\x20slice"),
        ):
            for kind in ("io", "memory", "cpu"):
                some, full = (1000, 500) if not group else (len(group), len(kind))
                wanted += f"sample {number} {path} {kind}\n" + folder.PRESSURE.format(
                    some=some, full=full
                )
    must_be("the readings", run.file("pressure").decode(), wanted)


def check_markers(top: str) -> None:
    run = whole(top, "--seconds", "0.25", "--pressure-s", "0.2").ended(0)
    wanted = rf"""start
pressure 0 begin
pressure 0 end
snapshot begin
snapshot end
host 1024000 512000 204800
mem / 716800 307200 0
mem {WEB} 4096 8192 77
pressure 1 begin
pressure 1 end
stop
"""
    # Each marker is written by a single write, without a newline.
    must_be("the markers", read(f"{run.top}.markers").split("psirec "), ["", *wanted.splitlines()])


def check_a_group_that_vanishes(top: str) -> None:
    folder.make_machine(top)
    os.mkdir(f"{top}/cgroup/gone")
    folder.write(f"{top}/cgroup/going/memory.current", "4096\n")
    os.symlink("nowhere", f"{top}/cgroup/going/memory.stat")
    folder.write(f"{top}/cgroup/going/cgroup.threads", "999\n101\n")
    shutil.rmtree(f"{top}/proc/101")
    run = Run(top, "--seconds", "0.3").ended(0)
    samples = re.findall(r"mem (/g\w+ \d+ \d+ \d+)", read(f"{top}.markers"))
    must_be("a group without memory has no sample", samples, ["/going 4096 0 0"])
    text = run.file("snapshot").decode()
    must(
        "group /gone none\ngroup /system" in text
        and "task 999" not in text
        and "task 101" not in text,
        text,
    )
    must("/gone" not in run.file("pressure").decode(), "no pressure of what isn't there")


def check_accounting_changes(top: str) -> None:
    folder.make_machine(top)
    run = Run(top, "--seconds", "2.5", "--memory-s", "0.1")
    run.instance()
    time.sleep(0.5)
    folder.write(f"{top}/cgroup{WEB}/cgroup.pressure", "1\n")
    time.sleep(0.5)
    folder.write(f"{top}/cgroup{WEB}/cgroup.pressure", "0\n")
    run.ended(0)
    must_be("changes of cgroup.pressure", changes_of_accounting(top), [f"{WEB} on", f"{WEB} off"])


def changes_of_accounting(top: str) -> list[str]:
    """Returns the markers about changes of `cgroup.pressure`."""
    return re.findall(r"accounting (\S+ (?:on|off))", read(f"{top}.markers"))


def check_an_unaccounted_group_that_comes_again(top: str) -> None:
    """A group that is removed and created again is accounted until its new accounting is switched
    off, even if no sample saw the removal. The check replaces the group's folder by renaming
    folders, so that each sample finds either the old folder or the new one.
    """
    folder.make_machine(top)
    run = Run(top, "--seconds", "2.5", "--memory-s", "0.1")
    run.instance()
    for number, accounting in enumerate("01"):
        time.sleep(0.5)
        folder.write(f"{top}/cgroup/new{number}/cgroup.pressure", accounting)
        os.rename(f"{top}/cgroup{WEB}", f"{top}/cgroup/old{number}")
        os.rename(f"{top}/cgroup/new{number}", f"{top}/cgroup{WEB}")
        shutil.rmtree(f"{top}/cgroup/old{number}")
    run.ended(0, is_same=False)
    found = [it for it in changes_of_accounting(top) if it.startswith(WEB)]
    must_be("what is told of the group", found, [f"{WEB} off"])


def check_accounting_without_its_file(top: str) -> None:
    """If a group disappears while its file is read, it isn't reported as accounted. On kernels
    before Linux 6.1 the file doesn't exist, and nothing is reported.
    """
    folder.make_machine(top)
    run = Run(top, "--seconds", "1", "--memory-s", "0.1")
    run.instance()
    time.sleep(0.3)
    os.remove(f"{top}/cgroup{WEB}/cgroup.pressure")
    run.ended(0, is_same=False)
    must_be("changes", changes_of_accounting(top), [])
    old = Run(top, "--seconds", "0.3", "--memory-s", "0.1", name="old").ended(0)
    must("unaccounted" not in old.file("snapshot").decode(),
         "nothing is unaccounted where there is no such file")
    must_be("changes without the file", changes_of_accounting(top), [])


def check_a_busy_processor(top: str) -> None:
    """If a read returns a large part of the buffer, the recorder reads again soon. With a buffer of
    64 KiB, it reads 8 MB in 2.5 s instead of 30 s.
    """
    folder.make_machine(top, pages=2000)
    run = Run(top, "--buffer-kb", "64")
    run.instance()
    waited = time.monotonic() + 15
    while os.path.getsize(f"{run.out}/cpu1.raw") < 2000 * folder.PAGE_BYTES:
        must(time.monotonic() < waited, "the next turn comes soon where a buffer is full")
        time.sleep(0.05)
    run.child.terminate()
    run.ended(0)
