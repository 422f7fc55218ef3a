"""Runs a program and counts what the kernel reports about the run: read calls, write calls, started
threads, and the size of the address space.
"""
from __future__ import annotations

import ctypes
import os
import signal
from dataclasses import dataclass

LIBC = ctypes.CDLL(None, use_errno=True)
LIBC.ptrace.argtypes = [ctypes.c_long, ctypes.c_long, ctypes.c_void_p, ctypes.c_void_p]
LIBC.ptrace.restype = ctypes.c_long

# Values of constants from <sys/ptrace.h> and <sys/wait.h>.
TRACEME, CONT, SETOPTIONS = 0, 7, 0x4200
TRACE_CLONE, TRACE_EXIT, EXIT_KILL = 0x8, 0x40, 0x100000
EVENT_CLONE, EVENT_EXIT = 3, 6
WAIT_ALL = 0x40000000
# The exit status of a child if tracing it isn't permitted.
NOT_TRACED = 126


class NotTold(Exception):
    """Raised, with a reason, if the kernel doesn't provide these counts."""


@dataclass
class Calls:
    """The totals of all threads of a run: read calls, write calls, started threads, and the largest
    address space (KB), which may be larger than the used memory. `status` is the exit status.
    """

    reads: int = 0
    writes: int = 0
    threads: int = 0
    addresses: int = 0
    status: int = 0


def ask(request: int, who: int, data: int = 0) -> None:
    """Makes a ptrace request for the stopped thread with the id `who`."""
    if LIBC.ptrace(request, who, None, data) < 0:
        error = ctypes.get_errno()
        # If the thread was killed in the meantime, waiting for it reports its exit.
        if error != 3:
            raise NotTold(f"ptrace {request}: {os.strerror(error)}")


def start(words: list[str]) -> int:
    """Starts a program under ptrace, which stops it as soon as it is loaded. Its input is empty,
    and its output is discarded. Returns its process id.
    """
    child = os.fork()
    if child:
        return child
    try:
        null = os.open(os.devnull, os.O_RDWR)
        for stream in range(3):
            os.dup2(null, stream)
        if LIBC.ptrace(TRACEME, 0, None, None) == 0:
            os.execv(words[0], words)
    finally:
        os._exit(NOT_TRACED)


def told_in(child: int, name: str) -> dict[str, str]:
    """Parses a file in /proc/CHILD: returns the text after each line's colon, by the text before
    the colon.
    """
    try:
        with open(f"/proc/{child}/{name}", encoding="utf-8") as file:
            return dict(line.rstrip("\n").split(":", 1) for line in file)
    except OSError as error:
        raise NotTold(f"/proc/PID/{name}: {error.strerror}") from error


def take_down(child: int, calls: Calls) -> None:
    """Stores in `calls` what the kernel has counted for all threads of the child up to now."""
    counters = told_in(child, "io")
    calls.reads, calls.writes = int(counters["syscr"]), int(counters["syscw"])
    calls.addresses = int(told_in(child, "status")["VmPeak"].split()[0])


def go_on(child: int, who: int, status: int, calls: Calls) -> None:
    """Counts the event at which the thread `who` stopped, and resumes the thread. Delivers a signal
    to the thread if the tracer didn't cause it.
    """
    event, stop = status >> 16, os.WSTOPSIG(status)
    if event == EVENT_CLONE:
        calls.threads += 1
    elif event == EVENT_EXIT and who == child:
        take_down(child, calls)
    is_own = event != 0 or stop == signal.SIGSTOP
    ask(CONT, who, 0 if is_own else stop)


def calls_of(words: list[str]) -> Calls:
    """Runs a program to its end and returns its counts. No other child of this process may end
    during the run.
    """
    calls = Calls()
    child = start(words)
    _, status = os.waitpid(child, 0)
    if not os.WIFSTOPPED(status):
        raise NotTold("a child may not be traced here")
    ask(SETOPTIONS, child, TRACE_CLONE | TRACE_EXIT | EXIT_KILL)
    ask(CONT, child)
    while True:
        who, status = os.waitpid(-1, WAIT_ALL)
        if os.WIFSTOPPED(status):
            go_on(child, who, status, calls)
        elif who == child:
            calls.status = os.waitstatus_to_exitcode(status)
            return calls
