"""Checks how a recording ends, and which files remain then."""
from __future__ import annotations

import contextlib
import os
import signal
import subprocess
import time

from record import machine_folder as folder
from harness import must, must_be
from record.runs import RECORD, Run, whole


def check_signals(top: str) -> None:
    for number in (signal.SIGTERM, signal.SIGINT, signal.SIGHUP):
        folder.make_machine(f"{top}{number}")
        run = Run(f"{top}{number}")
        run.instance()
        run.child.send_signal(number)
        sent = time.monotonic()
        run.ended(0).says("ended by signal")
        must(time.monotonic() - sent < 2, "it ends at once")
        must_be("the end", run.values("end"), ["signal"])
        must_be("the pages that came", run.file("cpu1.raw"), b"\2" * folder.PAGE_BYTES)


def check_many_signals(top: str) -> None:
    run = whole(top, "--no-probes")
    run.instance()
    with contextlib.suppress(ProcessLookupError):
        while run.child.poll() is None:
            run.child.send_signal(signal.SIGINT)
            run.child.send_signal(signal.SIGTERM)
    run.ended(0)
    must_be("the end", run.values("end"), ["signal"])


def check_hangup_under_nohup(top: str) -> None:
    folder.make_machine(top)
    run = Run(top, prefix=("nohup",))
    run.instance()
    run.child.send_signal(signal.SIGHUP)
    time.sleep(1)
    must(run.child.poll() is None, "it goes on without its terminal, as nohup asks for")
    run.child.terminate()
    run.ended(0)


def check_killed_and_started_again(top: str) -> None:
    for number, words in enumerate(((), ("--no-probes",))):
        folder.make_machine(f"{top}{number}")
        before = folder.listing(f"{top}{number}")
        run = Run(f"{top}{number}", *words)
        instance = run.instance()
        run.child.kill()
        run.child.communicate()
        must(os.path.exists(instance), "a killed recorder leaves its instance")
        must("end" not in run.file("meta").decode().splitlines()[-1].split()[0], "and no last line")
        again = Run(
            f"{top}{number}", "--seconds", "0.3", name="again"
        ).ended(0, is_same=False).says("a recorder was killed")
        must_be("what the second one leaves", folder.listing(f"{top}{number}"), before)
        must_be("it is whole itself", again.values("end"), ["seconds"])


def check_two_recorders(top: str) -> None:
    folder.make_machine(top)
    other = f"{top}/tracing/instances/psirec{os.getpid()}-schedstats"
    os.mkdir(other)
    os.mkdir(f"{top}/proc/{os.getpid()}")
    os.mkdir(f"{top}/tracing/instances/somebody")
    folder.write(f"{top}/tracing/kprobe_events",
                 f"p:other/probe do_exit\np:psirec{os.getpid()}/psw psi_task_switch\n")
    Run(top, "--seconds", "0.3").ended(0)


def check_what_cannot_be_undone(top: str) -> None:
    folder.make_machine(top)
    run = Run(top, "--no-probes")
    run.instance()
    os.unlink(f"{top}/proc/sys/kernel/sched_schedstats")
    os.mkdir(f"{top}/proc/sys/kernel/sched_schedstats")
    run.child.terminate()
    run.ended(4, is_same=False).says(
        "left on the machine: the sysctl kernel.sched_schedstats, which was 0: Is a directory"
    )
    must_be("meta tells it", run.values("left"),
            ["the sysctl kernel.sched_schedstats, which was 0: Is a directory"])
    must_be("instances", os.listdir(f"{top}/tracing/instances"), [])


def check_lost_events(top: str) -> None:
    run = whole(top, overrun=53764).ended(3).says("events were lost, cpu 1: 53764", "--buffer-kb")
    must("cpu1 overrun: 53764" in run.values("stats") and "cpu0 overrun: 0" in run.values("stats"),
         "meta has the counts")
    must_be("the end", run.values("end"), ["seconds"])


def check_size(top: str) -> None:
    run = whole(top, "--max-mb", "0.3", pages=40).ended(0)
    must_be("the end", run.values("end"), ["max-mb"])


def check_a_full_disk(top: str) -> None:
    folder.make_machine(top, pages=400)
    run = Run(top, prefix=("prlimit", "--fsize=1000001")).ended(3).says("the disk is full")
    must_be("the end", run.values("end"), ["disk-full"])
    must_be("whole pages", (len(run.file("cpu0.raw")), len(run.file("cpu1.raw"))),
            (1_000_001 // 4096 * 4096, 0))
    must(run.values("stats") and run.values("cpu-seconds"), "the last lines are there")


def check_a_full_file_system(top: str) -> None:
    folder.make_machine(top, pages=400)
    for processor in range(2):
        with open(f"{top}/tracing/per_cpu/cpu{processor}/stats", "a", encoding="ascii") as stats:
            stats.writelines(f"another count {it}: 0\n" for it in range(300))
    mount = "mkdir $0.small && mount -t tmpfs -o size=1500k small $0.small 2>/dev/null || exit 99"
    cut = "head -c 1500000 /dev/zero > $0.small/fill 2>/dev/null; truncate -s 900000 $0.small/fill"
    shell = (
        f'{mount}; {cut}; "$@"; status=$?; rm $0.small/fill; cp -r $0.small/out $0.out; exit '
        '$status'
    )
    words = ["unshare", "-m", "sh", "-c", shell, top, RECORD, "--root", top, f"{top}.small/out"]
    done = subprocess.run(
        words, capture_output=True, text=True, check=False
    ) if os.geteuid() == 0 else None
    if done is None or done.returncode in (1, 99, 127):
        print("a full file system is skipped: it takes root, unshare and a tmpfs")
        return
    must_be(f"the status, after {done.stderr}", done.returncode, 3)
    run = Run(top, "--seconds", "0.1", name="other").ended(0)
    run.out = f"{top}.out"
    must_be("the end", run.values("end"), ["disk-full"])
    must_be("the last lines are there", len([it for it in run.values("stats") if "another" in it]),
            600)
    sizes = [len(run.file(f"cpu{it}.raw")) for it in range(2)]
    must(sum(sizes) > 100_000 and all(it % 4096 == 0 for it in sizes), f"whole pages: {sizes}")
    must_be("files", sorted(os.listdir(run.out)),
            ["cpu0.raw", "cpu1.raw", "formats", "meta", "pressure", "snapshot"])


def check_nobody_reads(top: str) -> None:
    folder.make_machine(top)
    before = folder.listing(top)
    with open("/dev/full", "w", encoding="utf-8") as full:
        words = [RECORD, "--root", top, f"{top}.out", "--seconds", "0.3"]
        done = subprocess.run(words, stderr=full, check=False)
    must(done.returncode == 0, f"the status: {done.returncode}")
    must_be("what is left", folder.listing(top), before)
