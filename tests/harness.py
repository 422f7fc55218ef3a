"""The harness of the tests: it runs checks and reports their results.

A check is a function whose name begins with `check_`; it raises Wrong if a result differs from the
expected one. `run_checks` runs several checks at the same time, each in a process and in an empty
folder of its own. When a check ends, a line is printed: ok or FAILED, its duration in seconds and
its name. A failure is followed by the difference and by the command that repeats this check. A
check that exceeds its time limit fails too; the report has its stack and the commands that still
run. The last line lists the failed checks. Each test takes -j N (the number of checks that run at
the same time) and the names of checks.
"""
from __future__ import annotations

import contextlib
import difflib
import glob
import inspect
import multiprocessing
import os
import pathlib
import shlex
import signal
import sys
import tempfile
import time
import traceback
from collections.abc import Callable, Iterable, Iterator, Mapping, Sequence
from concurrent.futures import Future, ProcessPoolExecutor, as_completed
from types import ModuleType
from typing import IO, NamedTuple

from shared.difference import difference
from shared.program import TOP, USED, program_of

# The time limit (s) of a check, which is far longer than any check needs. If the load average is
# higher than the number of processors, the limit is multiplied by their quotient. A check that
# exceeds its limit is interrupted, and again every AGAIN_S seconds.
LIMIT_S, AGAIN_S = 300.0, 10.0
# The largest number of characters that are printed of a failure. A longer text is cut in the
# middle.
MOST_SHOWN = 20_000

# The folder of Python's standard modules. Frames of these modules are omitted when a stack is
# printed.
PYTHON = os.path.dirname(os.__file__) + os.sep

Check = Callable[..., object]
# A function that runs a check. Its argument is the path of the check's empty folder.
Call = Callable[[Check, str], object]
Source = ModuleType | Mapping[str, object]


class Wrong(Exception):
    """Raised by a check that fails. The text says how the result differs from the expected one."""


class Overdue(BaseException):
    """Raised in a check that exceeds its time limit. The text has the commands that the check
    started and that still run. It isn't an Exception, so an `except Exception` in a check doesn't
    catch it.
    """

    def __init__(self, seconds: float, commands: Sequence[str]) -> None:
        super().__init__()
        self.seconds, self.commands = seconds, commands


def must(is_right: object, what: str) -> None:
    """Raises Wrong with the text `what` unless `is_right` is true."""
    if not is_right:
        raise Wrong(what)


def must_be(what: str, actual: object, expected: object) -> None:
    """Raises Wrong with the difference between the two values unless they are equal."""
    if actual != expected:
        raise Wrong(f"{what}:\n{difference(expected, actual)}")


def must_have_none(faults: Iterable[str]) -> None:
    """Raises Wrong with the faults, one per line, if there are any."""
    found = list(faults)
    must(not found, "\n".join(found))


class Outcome(NamedTuple):
    """The result of a check: its name, its duration (s), what is wrong ("" if nothing is), and what
    it printed.
    """

    name: str
    seconds: float
    fault: str
    printed: str


def cut(text: str) -> str:
    """Returns the text, cut in the middle if it has more than MOST_SHOWN characters."""
    if len(text) <= MOST_SHOWN:
        return text
    half = MOST_SHOWN // 2
    return f"{text[:half]}\n.. {len(text) - 2 * half:,} more characters ..\n{text[-half:]}"


@contextlib.contextmanager
def captured(file: IO[bytes]) -> Iterator[None]:
    """Redirects the standard output of this process and of its children into the file."""
    sys.stdout.flush()
    output = os.dup(1)
    os.dup2(file.fileno(), 1)
    try:
        yield
    finally:
        sys.stdout.flush()
        os.dup2(output, 1)
        os.close(output)


def children() -> dict[int, str]:
    """Returns the commands of this process's running children, by process id."""
    numbers: list[str] = []
    found: dict[int, str] = {}
    for path in glob.glob("/proc/self/task/*/children"):
        with contextlib.suppress(OSError):  # a thread or a child may end meanwhile
            numbers += pathlib.Path(path).read_text(encoding="ascii").split()
    for number in numbers:
        with contextlib.suppress(OSError):
            words = pathlib.Path(f"/proc/{number}/cmdline").read_bytes().split(b"\0")[:-1]
            found[int(number)] = shlex.join(map(os.fsdecode, words))
    return {number: command for number, command in found.items() if command}


def allowed_seconds() -> float:
    """Returns the time limit (s) of a check, which depends on the machine's load."""
    return LIMIT_S * max(1.0, max(os.getloadavg()) / len(os.sched_getaffinity(0)))


@contextlib.contextmanager
def limited() -> Iterator[None]:
    """Raises Overdue in the body of the `with` statement if the body exceeds the time limit."""
    began = time.monotonic()

    def end(*_: object) -> None:
        seconds = time.monotonic() - began
        if seconds >= allowed_seconds():
            raise Overdue(seconds, list(children().values()))

    signal.signal(signal.SIGALRM, end)
    signal.setitimer(signal.ITIMER_REAL, LIMIT_S, AGAIN_S)
    try:
        yield
    finally:
        signal.setitimer(signal.ITIMER_REAL, 0)


def overdue_fault(overdue: Overdue) -> str:
    """Kills the commands of a check that exceeded its time limit. Returns a report with the check's
    stack and these commands.
    """
    for child in children():
        with contextlib.suppress(ProcessLookupError):
            os.kill(child, signal.SIGKILL)
    while isinstance(overdue.__context__, Overdue):
        overdue = overdue.__context__
    frames = [
        frame
        for frame in traceback.extract_tb(overdue.__traceback__)
        if frame.filename != __file__ and not frame.filename.startswith(PYTHON)
    ]
    stack = "".join(traceback.format_list(frames))
    running = "".join(f"still running: {it}\n" for it in overdue.commands)
    return f"didn't end within {overdue.seconds:.0f} s\n{running}{stack}"


def outcome_of(name: str, check: Check, call: Call) -> Outcome:
    """Runs a check in a new folder and returns its outcome. An unexpected exception counts as a
    failure too; then the report says at which line it was raised.
    """
    fault, began = "", time.monotonic()
    with tempfile.TemporaryDirectory() as folder, tempfile.TemporaryFile() as printed:
        with captured(printed):
            try:
                with limited():
                    call(check, os.path.realpath(folder))
            except Wrong as wrong:
                fault = str(wrong)
            except Overdue as overdue:
                fault = overdue_fault(overdue)
            except Exception:  # a check must not end the test
                fault = traceback.format_exc()
        printed.seek(0)
        text = printed.read().decode("utf-8", "replace")
    return Outcome(name, time.monotonic() - began, cut(fault), text)


# The checks of this test by name, and the function that calls them. Forked workers inherit both.
running: dict[str, Check] = {}
calling: list[Call] = []


def outcome_of_named(name: str) -> Outcome:
    """Runs the check with this name, in a worker process, and returns its outcome."""
    return outcome_of(name, running[name], calling[0])


def outcomes(checks: Mapping[str, Check], call: Call, jobs: int) -> Iterator[Outcome]:
    """Runs the checks, at most `jobs` at a time. Yields the outcome of each check as soon as it
    ends.
    """
    if jobs == 1 or len(checks) == 1:
        yield from (outcome_of(name, check, call) for name, check in checks.items())
        return
    running.update(checks)
    calling[:] = [call]
    sys.stdout.flush()
    with ProcessPoolExecutor(jobs, multiprocessing.get_context("fork")) as pool:
        started: list[Future[Outcome]] = [pool.submit(outcome_of_named, name) for name in checks]
        yield from (future.result() for future in as_completed(started))


def test_name() -> str:
    """Returns the name of the running test: the name of its folder."""
    return os.path.basename(os.path.dirname(os.path.abspath(sys.argv[0])))


def repetition(name: str) -> str:
    """Returns the command that repeats a check of this test. Variables that name programs are
    included, except for programs that the launcher built.
    """
    named = [
        f"{variable}={shlex.quote(path)}"
        for variable, path in USED.items()
        if not path.startswith(f"{TOP}/")
    ]
    return " ".join([*named, os.path.relpath(os.path.abspath(sys.argv[0]), TOP), shlex.quote(name)])


def print_outcome(outcome: Outcome) -> None:
    """Prints the outcome of a check. After a failure, prints the difference and the command that
    repeats the check.
    """
    print(
        f"{'FAILED' if outcome.fault else 'ok':6} {outcome.seconds:6.1f} s  {outcome.name}",
        flush=True,
    )
    for line in outcome.printed.splitlines():
        print(f"  {line}")
    if outcome.fault:
        print("".join(f"  {line}\n" for line in outcome.fault.splitlines()), end="")
        print(f"  repeat: {repetition(outcome.name)}", flush=True)


def options_of(words: Sequence[str]) -> tuple[int, list[str]]:
    """Parses a test's arguments; returns the number of checks to run at the same time, and the
    names of the checks.
    """
    jobs, names = len(os.sched_getaffinity(0)), list(words)
    if names[:1] == ["-j"] and len(names) > 1 and names[1].isdecimal() and int(names[1]):
        jobs, names = int(names[1]), names[2:]
    return jobs, names


def chosen_of(checks: Mapping[str, Check], names: Sequence[str]) -> dict[str, Check]:
    """Returns the named checks, or all checks if `names` is empty. A name also selects all checks
    whose names begin with it and a colon. Exits with status 2 if a name matches no check.
    """
    chosen: dict[str, Check] = {}
    for name in names:
        found = {
            it: check for it, check in checks.items() if it == name or it.startswith(f"{name}:")
        }
        if not found:
            near = difflib.get_close_matches(name, checks, 3)
            hint = f": did you mean {', '.join(map(shlex.quote, near))}?" if near else ""
            print(f"tests/{test_name()} has no check {shlex.quote(name)}{hint}", file=sys.stderr)
            sys.exit(2)
        chosen.update(found)
    return chosen if names else dict(checks)


def run_checks(checks: Mapping[str, Check], call: Call, words: Sequence[str]) -> int:
    """Runs all checks, or only the named ones. Returns the exit status: 0 if all passed, or 1 if
    one failed or no check exists.
    """
    # The background jobs of a shell ignore interrupts. Tools that a check starts would inherit
    # this.
    signal.signal(signal.SIGINT, signal.default_int_handler)
    jobs, names = options_of(words)
    chosen = chosen_of(checks, names)
    failed, began = [], time.monotonic()
    for outcome in outcomes(chosen, call, jobs):
        print_outcome(outcome)
        failed += [outcome.name] if outcome.fault else []
    passed, seconds = len(chosen) - len(failed), time.monotonic() - began
    print(f"{test_name()}: {passed} passed, {len(failed)} failed in {seconds:.1f} s")
    if failed:
        print(f"failed: {' '.join(map(shlex.quote, failed))}")
    return 1 if failed or not chosen else 0


def checks_of(*sources: Source) -> dict[str, Check]:
    """Returns all functions `check_NAME` of modules or dictionaries, by NAME."""
    found: dict[str, Check] = {}
    for source in sources:
        names = source if isinstance(source, Mapping) else vars(source)
        for name, check in names.items():
            if name.startswith("check_") and inspect.isfunction(check):
                known: object = found.setdefault(name[6:], check)
                assert known is check, f"two checks have the name {name}"
    return found


def run_on_program(*sources: Source) -> int:
    """Runs all checks in these modules or dictionaries, or only the named ones. Each check gets the
    path of psi_oomd.
    """
    program, words = program_of(sys.argv[1:])
    return run_checks(checks_of(*sources), lambda check, _: check(program), words)


def run_in_folders(*sources: Source) -> int:
    """Runs all checks in these modules or dictionaries, or only the named ones. Each check gets the
    path of an empty folder.
    """
    return run_checks(checks_of(*sources), lambda check, folder: check(folder), sys.argv[1:])
