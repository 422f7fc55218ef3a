#!/usr/bin/env python3
"""Checks with a short time limit for the test of the harness, which runs them. All but one fail,
each in a different way.
"""
from __future__ import annotations

import subprocess
import sys
import time

sys.dont_write_bytecode = True
sys.path[0] = sys.path[0].rpartition("/")[0]

import harness  # noqa: E402


def check_waits_for_a_command() -> None:
    subprocess.run(["sleep", "1000"], check=True)


def check_waits_at_the_end_of_a_block() -> None:
    with subprocess.Popen(["sleep", "2000"]):
        pass


def check_works_without_end() -> None:
    while True:
        pass


def check_handles_exceptions() -> None:
    try:
        time.sleep(1000)
    except Exception:  # must not catch the interrupt of a check
        print("handled")


def check_differs() -> None:
    harness.must_be("a number", 1, 2)


def check_is_right() -> None:
    harness.must(True, "")


if __name__ == "__main__":
    harness.LIMIT_S, harness.AGAIN_S = 2.0, 2.0
    sys.exit(
        harness.run_checks(harness.checks_of(globals()), lambda check, _: check(), sys.argv[1:])
    )
