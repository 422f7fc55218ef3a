"""Finds the program that a test runs. `--program PATH` or the variable PSI_OOMD names it. If
neither is set, the launcher ./psi_oomd builds the program. The test runs the built program itself,
not the launcher. Each other program has a variable of its own.
"""
from __future__ import annotations

import os
import shlex
import subprocess
import sys
from typing import NoReturn

# Whether the caller named psi_oomd. If so, the test doesn't build other programs, and fails if it
# needs a program that isn't named.
IS_NAMED = bool(os.environ.get("PSI_OOMD")) or "--program" in sys.argv[1:2]
TOP = os.path.dirname(os.path.dirname(os.path.dirname(os.path.abspath(__file__))))
sys.path.append(os.path.join(TOP, "tools"))

from psicli.fault import Fault  # noqa: E402
from psireplay.program import built_program  # noqa: E402

# Arguments and expected output of each program. The output shows that a named program is the right
# one.
TRACE = os.path.join(TOP, "examples", "one-wait.trace")
PAGES = [
    os.path.join(TOP, "crates", "psi_convert_main", "data", name) for name in ("table", "cpu0.raw")
]
PRINTED = {
    "psi_oomd": (("check", TRACE), b"ok lines=5 events=4 end=2000000000\n"),
    "psi_observe": ((TRACE, "1", "/none"), b"end 2000000000 samples=0\n"),
    "psi_convert": (("events", *PAGES), b"268440468 0 sched_switch 41 41 R -1\n"),
}


# The paths of the programs that this test uses, by the environment variables that name them.
USED: dict[str, str] = {}


def fail(message: str) -> NoReturn:
    """Prints the message, and ends a test that can't run with status 2."""
    print(message, file=sys.stderr)
    sys.exit(2)


def must_be_program(path: str, name: str) -> None:
    """Ends the test unless `path` is the program `name`, which is recognized by its output for a
    small input.
    """
    words, expected = PRINTED[name]
    done = subprocess.run([path, *words], capture_output=True, check=False)
    if not done.stdout.endswith(expected):
        command = shlex.join([path, *words])
        printed = f"`{command}` prints {done.stdout[-80:]!r}"
        fail(f"{path} isn't {name}: {printed}, and {name} prints {expected!r}")


def program_of(words: list[str], name: str = "psi_oomd") -> tuple[str, list[str]]:
    """Returns the path of the program `name`, and the arguments after `--program PATH`. Builds the
    program if no path is named. Tools that the test runs use the same program. `--help` prints the
    test's own docstring, and builds nothing.
    """
    if words[:1] == ["--help"]:
        print((sys.modules["__main__"].__doc__ or "").strip())
        sys.exit(0)
    variable, launcher = name.upper(), os.path.join(TOP, name)
    if words[:1] == ["--program"] and len(words) > 1:
        os.environ[variable] = words[1]
        words = words[2:]
    program = os.path.abspath(os.environ.get(variable) or launcher)
    if IS_NAMED and program == launcher:
        advice = f"the variable {variable} names it; without both names both are built"
        fail(f"psi_oomd was named, and {name} wasn't: {advice}")
    try:
        program = built_program(launcher) if program == launcher else program
    except Fault as fault:
        fail(str(fault))
    if not os.access(program, os.X_OK):
        fail(f"no program at {program}: see --program and the variable {variable}")
    must_be_program(program, name)
    os.environ[variable] = USED[variable] = program
    return program, words
