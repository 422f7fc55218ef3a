"""Checks of cases in which nothing is recorded, because a requirement is missing or the arguments
are wrong.
"""
from __future__ import annotations

import os
import shutil

from record import machine_folder as folder
from harness import must, must_be
from record.runs import Run


def check_nothing_is_there(top: str) -> None:
    os.mkdir(top)
    run = Run(top).ended(2).says(
        "instances isn't there", "cgroup.controllers isn't there", "pressure/cpu can't be read"
    )
    must(not os.path.exists(run.out), "nothing is recorded")


def check_one_thing_is_missing(top: str) -> None:
    for number, path in enumerate(
        ("tracing/instances", "cgroup/cgroup.controllers", "proc/pressure/cpu")
    ):
        folder.make_machine(f"{top}{number}")
        (
            os.rmdir if path.endswith("s/") or path == "tracing/instances" else os.unlink
        )(f"{top}{number}/{path}")
        run = Run(f"{top}{number}").ended(2).says(path)
        must_be("what is told", run.said.count("there must be"), 1)
        must(not os.path.exists(run.out), "nothing is recorded")


def check_in_a_container(top: str) -> None:
    folder.make_machine(top)
    folder.write(f"{top}/cgroup/cgroup.events", "populated 1\n")
    Run(top).ended(2).says("isn't the root of the hierarchy")


def check_the_folder_is_there_already(top: str) -> None:
    folder.make_machine(top)
    os.mkdir(f"{top}.out")
    folder.write(f"{top}.out/kept", "kept")
    run = Run(top).ended(2).says("File exists")
    must_be("what was there", os.listdir(run.out), ["kept"])


def check_words(top: str) -> None:
    folder.make_machine(top)
    wrong = (
        ("--seconds", "0"), ("--seconds", "nan"), ("--buffer-kb", "1.5"), ("--max-mb", "-1"),
        ("--secs", "1"), ("another",),
        ("--until", "memory full 100000 1000000"), ("--after-s", "3"), ("--ring", "--max-mb", "5"),
        ("--ring", "--until", "memory full 100000"),
        ("--ring", "--until", "memory half 100000 1000000"),
        ("--ring", "--until", "memory full 100000 400000"),
        ("--ring", "--until", "memory full 2000001 2000000"),
    )  # fmt: skip
    for words in wrong:
        run = Run(top, *words).ended(2).says("usage: tools/record", "--help")
        must(run.said.startswith("record: ") and len(run.said.splitlines()) == 2,
             f"what is wrong comes first: {run.said}")
        must(not os.path.exists(run.out), f"{words}: nothing is recorded")


def check_a_trigger_that_is_no_trigger(top: str) -> None:
    folder.make_machine(top)
    for trigger in ("memory full 10% 1s", "memory full 100000 400000"):
        Run(top, "--ring", "--until", trigger).ended(2).says('"memory full 100000 1000000"')


def check_an_event_that_must_be(top: str) -> None:
    folder.make_machine(top)
    shutil.rmtree(f"{top}/tracing/events/sched/sched_wakeup")
    run = Run(top).ended(2).says("sched/sched_wakeup can't be switched on")
    must(not os.path.exists(run.out), "nothing is recorded")


def check_no_room_to_begin(top: str) -> None:
    folder.make_machine(top)
    run = Run(top, prefix=("prlimit", "--fsize=100000")).ended(2).says("nothing was recorded")
    must(not os.path.exists(run.out), "nothing is recorded")
