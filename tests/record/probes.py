"""Checks of kernel probes, and of what the recorder does if a probe isn't available."""
from __future__ import annotations

import os
import shutil
import time

from record import machine_folder as folder
from harness import must, must_be
from record.runs import Run, read

STATE_TOLD = "state D alone"
PROBES = (
    "ms_enter psi_memstall_enter",
    "ms_leave psi_memstall_leave flags=+0($arg1):u64",
    f"psw psi_task_switch {folder.FETCHED}",
    "cga cgroup_attach_task pid=+1264($arg2):s32 all=$arg3:u8",
    "psh psi_show group=$arg2:x64 res=$arg3:u32",
    "pav psi_avgs_work work=$arg1:x64",
)
# For each function whose parameters differ from the expected ones: the probes that the message
# names, and how many probes are omitted.
BOTH = "psi_show, psi_avgs_work"
MISSING = {
    "cgroup_attach_task": ("cgroup_attach_task", 1), "psi_show": (BOTH, 2),
    "psi_avgs_work": (BOTH, 2),
}


def by_statistics(run: Run, messages: list[str], old: bytes = b"0\n") -> None:
    """Raises unless waits for IO are recorded from the kernel's delay statistics. The statistics
    must be on during the recording and off afterwards.
    """
    instance = run.instance()
    must_be("the sysctl meanwhile", read(f"{run.top}/proc/sys/kernel/sched_schedstats"), "1\n")
    must_be("the event", read(f"{instance}/events/sched/sched_stat_iowait/enable"), "1\n")
    must_be("whether the instance tells that the sysctl was changed",
            instance.endswith("-schedstats"), old == b"0\n")
    run.child.terminate()
    run.ended(0).says("waits for IO are told by sched_stat_iowait")
    must("sched/sched_stat_iowait" in run.values("event"), "the event is on")
    must_be("probes that aren't there", [it.split(":")[0] for it in run.values("no-probe")],
            messages)


def check_no_kprobes(top: str) -> None:
    folder.make_machine(top)
    os.unlink(f"{top}/tracing/kprobe_events")
    run = Run(top)
    by_statistics(run, ["p"] * len(PROBES))
    run.says("memory stalls aren't recorded")


def check_kprobes_are_refused(top: str) -> None:
    folder.make_machine(top)
    os.unlink(f"{top}/tracing/kprobe_events")
    os.mkdir(f"{top}/tracing/kprobe_events")
    run = Run(top)
    by_statistics(run, ["p"] * len(PROBES))
    must(
        "psi_task_switch pid" in run.values("no-probe")[2]
        and "directory" in run.values("no-probe")[2],
        "the reason is told",
    )


def check_no_probes_are_wanted(top: str) -> None:
    folder.make_machine(top)
    by_statistics(Run(top, "--no-probes"), ["all"])


def check_statistics_are_on_already(top: str) -> None:
    folder.make_machine(top)
    folder.write(f"{top}/proc/sys/kernel/sched_schedstats", "1\n")
    by_statistics(Run(top, "--no-probes"), ["all"], old=b"1\n")


def check_statistics_are_switched_off_meanwhile(top: str) -> None:
    folder.make_machine(top)
    run = Run(top, "--no-probes")
    run.instance()
    folder.write(f"{top}/proc/sys/kernel/sched_schedstats", "0\n")
    run.child.terminate()
    run.ended(3).says("switched off meanwhile")
    must("meanwhile" in run.values("no-event")[0], "meta tells it")


def check_no_kernel_types(top: str) -> None:
    every = ["psi_task_switch", "cgroup_attach_task", BOTH]
    kinds = (
        (None, every), (b"", every), (b"no types" * 10, every),
        (b"\0\0" + folder.kernel_types()[2:], every),
        (folder.kernel_types("in_iowaits"), ["psi_task_switch"]),
    )  # fmt: skip
    for number, (types, missing) in enumerate(kinds):
        folder.make_machine(f"{top}{number}")
        os.unlink(f"{top}{number}/btf")
        if types is not None:
            folder.write(f"{top}{number}/btf", types)
        run = Run(f"{top}{number}")
        by_statistics(run, missing)
        found = [it.partition("/")[2] for it in run.values("event") if it.startswith("psirec")]
        must_be("the other probes", found,
                [it.split()[0] for it in PROBES if it.split()[1] not in ", ".join(missing)])


def check_functions_of_another_kernel(top: str) -> None:
    for number, (function, count) in enumerate(
        it for it in folder.FUNCTIONS.items() if it[0] in MISSING
    ):
        machine = f"{top}{number}"
        folder.make_machine(machine)
        folder.write(f"{machine}/btf",
                     folder.kernel_types(functions={**folder.FUNCTIONS, function: count + 1}))
        run = Run(machine, "--seconds", "0.3").ended(0)
        what, count = MISSING[function]
        must_be("what is missing", [it.split(":")[0] for it in run.values("no-probe")], [what])
        must_be("the others", len([it for it in run.values("event") if it.startswith("psirec")]),
                len(PROBES) - count)


def check_wakeups(top: str) -> None:
    folder.make_machine(top)
    run = Run(top, "--wakeups")
    instance = run.instance()
    group = os.path.basename(instance)
    probe = f"p:{group}/pch psi_task_change pid=+1264($arg1):s32 set=$arg3:u32\n"
    must(probe in read(f"{top}/tracing/kprobe_events"), read(f"{top}/tracing/kprobe_events"))
    must_be("its filter", read(f"{instance}/events/{group}/pch/filter").rstrip(), "set & 4")
    run.child.terminate()
    run.ended(0)
    must(f"{group}/pch" in run.values("event") and "no probe of wakeups" not in run.said,
         "it is on, and nothing is missing")


def check_wakeups_of_another_kernel(top: str) -> None:
    folder.make_machine(top)
    folder.write(f"{top}/btf",
                 folder.kernel_types(functions={**folder.FUNCTIONS, "psi_task_change": 4}))
    run = Run(top, "--wakeups", "--seconds", "0.3").ended(0).says("no probe of wakeups")
    must_be("what is missing", [it.split(":")[0] for it in run.values("no-probe")],
            ["psi_task_change"])


def check_wakeups_without_probes(top: str) -> None:
    folder.make_machine(top)
    Run(top, "--wakeups", "--no-probes").ended(2).says("--wakeups takes a probe")


def by_state(run: Run, reason: str) -> None:
    """Raises unless waits for IO are derived only from the states of tasks, and a message states
    the reason.
    """
    run.ended(0).says(STATE_TOLD, "up to 3.5 times too many")
    must("sched/sched_stat_iowait" not in run.values("event"), "the event isn't on")
    must_be("the reason", run.values("no-event"), [f"sched/sched_stat_iowait: {reason}"])


def check_statistics_are_absent(top: str) -> None:
    folder.make_machine(top)
    os.unlink(f"{top}/proc/sys/kernel/sched_schedstats")
    run = Run(top, "--no-probes", "--seconds", "1")
    must("-" not in os.path.basename(run.instance()), "nothing has to be restored")
    by_state(run, "there is no kernel.sched_schedstats")


def check_statistics_are_refused(top: str) -> None:
    folder.make_machine(top)
    os.unlink(f"{top}/proc/sys/kernel/sched_schedstats")
    os.mkdir(f"{top}/proc/sys/kernel/sched_schedstats")
    by_state(Run(top, "--no-probes", "--seconds", "0.3"), "kernel.sched_schedstats: Is a directory")


def check_events_that_can_be_missed(top: str) -> None:
    folder.make_machine(top)
    shutil.rmtree(f"{top}/tracing/events/task")
    run = Run(top, "--seconds", "0.3").ended(0).says(
        "no event task/task_newtask: new tasks are taken to be in the root group"
    )
    must_be("what is missing", run.values("no-event"),
            ["task/task_newtask: No such file or directory"])
    must("task/task_newtask" not in run.values("event"), "and isn't told to be there")


def check_what_is_set_meanwhile(top: str) -> None:
    folder.make_machine(top)
    run = Run(top, "--buffer-kb", "1234")
    instance = run.instance()
    group = os.path.basename(instance)
    must_be("probes", read(f"{top}/tracing/kprobe_events").splitlines(),
            ["p:other/probe do_exit", *(f"p:{group}/{it}" for it in PROBES)])  # fmt: skip
    wanted_files = {
        "trace_clock": "mono",
        "buffer_size_kb": "1234",
        "options/overwrite": "1",
        "options/markers": "1",
        f"events/{group}/psw/filter": "io == 1",
        f"events/{group}/ms_leave/filter": "none",
        "events/sched/sched_stat_iowait/enable": "0",
    }
    for file, wanted in wanted_files.items():
        must(read(f"{instance}/{file}").startswith(wanted),
             f"{file} has {wanted}: {read(f'{instance}/{file}')}")
    waited = time.monotonic() + 10
    while os.path.getsize(f"{run.out}/cpu0.raw") == 0:
        must(time.monotonic() < waited, "the buffers are emptied while it records")
        time.sleep(0.02)
    enabled = [it for it in folder.EVENTS if read(f"{instance}/events/{it}/enable") == "1\n"]
    must_be("events that are on", enabled,
            [it for it in folder.EVENTS if it != "sched/sched_stat_iowait"])
    run.child.terminate()
    run.ended(0)
