"""Runs psi_oomd, and parses the kills that its replay prints."""
import os
import re
import shlex
import subprocess
import tempfile
from collections.abc import Callable, Iterable, Sequence
from concurrent.futures import ThreadPoolExecutor
from dataclasses import dataclass
from typing import IO, TypeVar

from psicli.fault import Fault
from psicli.status import ProgramStatus
from psireplay.kinds import folder_message, why_refused
from psireplay.program import VARIABLE, named_program

EMPTY_TRACE = b"psitrace 1 cpus=1\n0 end\n"

KILL = re.compile(r"kill ([0-9]+) ruleset=([0-9]+) action=([0-9]+) (/\S*)\n")
END = re.compile(r"end ([0-9]+) ticks=[0-9]+ events=[0-9]+ kills=([0-9]+)\n")

ADVICE: dict[int, str] = {
    ProgramStatus.WRONG_WORDS: (
        "the program doesn't take these words; docs/COMMANDS.md has those of `replay`"
    ),
    ProgramStatus.TRACE_REFUSED: (
        "that line can't stand there; docs/TRACES.md has the cause under `Causes`, and `psi_oomd"
        " check {file}` looks again"
    ),
    ProgramStatus.RULES_REFUSED: (
        "`tools/rules lint {file}` says what is wrong, and with --fix gives a corrected file"
    ),
    ProgramStatus.NO_FILE: "look for a slip in its name",
    ProgramStatus.READ_FAULT: "it can't be read: it is a folder, or it may not be opened",
    ProgramStatus.NO_MEMORY: "run fewer side by side, by --jobs 1",
    ProgramStatus.NOT_BUILT: (
        "the program isn't built, and couldn't be: run `psi_oomd --build`, and read what it says"
    ),
}
"""Advice for the user, by psi_oomd's exit status."""

Answer = TypeVar("Answer")


@dataclass(frozen=True)
class Kill:
    """A kill that a replay printed: its time (ns), the numbers of its ruleset and its action (both
    from 0), and the victim's path.
    """

    time_ns: int
    ruleset: int
    action: int
    path: str


@dataclass(frozen=True)
class Pace:
    """The length of ticks (ms) and the interval of evaluations (s). None selects the program's
    default.
    """

    tick_ms: int | None = None
    interval_s: int | None = None

    def words(self) -> list[str]:
        options = (("--tick-ms", self.tick_ms), ("--interval-s", self.interval_s))
        return [word for name, value in options if value is not None for word in (name, str(value))]


@dataclass(frozen=True)
class RulesAt:
    """A rules file: the path of a temporary copy, and the original name for messages."""

    path: str
    name: str


class Refusal(Fault):
    """Raised if psi_oomd failed. The message names the rejected file, and has the program's own
    message and advice.
    """

    def __init__(self, file: str, said: str, status: int, path: str | None = None) -> None:
        """`file` is the rejected file, `said` the program's message, and `status` its exit status.
        `path` is the file that is inspected to explain the error, if it isn't `file`.
        """
        advice = ADVICE.get(status, f"the program ended by status {status}").format(
            file=shlex.quote(file)
        )
        message = why_refused(said, file if path is None else path, file)
        name = file
        if status == ProgramStatus.NO_FILE:
            name = ""  # the program's message has the file's name
        elif status == ProgramStatus.READ_FAULT and os.path.isdir(file):
            name, message, advice = "", "", folder_message(file)
        elif message != said:
            advice = ""
        super().__init__(": ".join(filter(None, [name, message, advice])))
        self.said, self.program_status = said, status


def processors() -> int:
    """Returns the number of processors that this process may use."""
    return len(os.sched_getaffinity(0))


class Program:
    """Runs the psi_oomd next to the tools, or the program that the variable PSI_OOMD names."""

    def __init__(self) -> None:
        self.path = named_program()

    def replay(self, trace: str, rules: RulesAt, pace: Pace, threads: int) -> list[Kill]:
        """Returns the kills that a rules file makes in a trace, replayed by at most `threads`
        workers. Raises a Refusal if the program rejects the trace or the rules. The option
        `--report-s=0` suppresses all reports except the last.
        """
        words = [
            "replay",
            f"--rules={rules.path}",
            "--report-s=0",
            f"--workers={min(threads, 64)}",
            *pace.words(),
            "--",
            trace,
        ]
        with tempfile.TemporaryFile() as said:
            with self.started(words, said) as child:
                assert child.stdout is not None
                kills = read_kills(line.decode("latin-1") for line in child.stdout)
            if child.returncode:
                said.seek(0)
                files: dict[int, str] = {
                    ProgramStatus.WRONG_WORDS: self.path, ProgramStatus.RULES_REFUSED: rules.name,
                }  # fmt: skip
                file = files.get(child.returncode, trace)
                path = rules.path if file == rules.name else file
                raise Refusal(
                    file, said.read(4096).decode("utf-8", "replace").strip(), child.returncode, path
                )
        if kills is None:
            raise Fault(
                f"{self.path} printed no replay: let the variable {VARIABLE} name a psi_oomd"
            )
        return kills

    def started(self, words: list[str], said: IO[bytes] | None) -> subprocess.Popen[bytes]:
        """Starts the program. Its standard error is written to the file `said`, or is inherited if
        `said` is None.
        """
        try:
            return subprocess.Popen([self.path, *words], stdout=subprocess.PIPE, stderr=said)
        except OSError as fault:
            raise Fault(
                f"{self.path} doesn't run ({fault.strerror}): build it by `psi_oomd --build`, "
                f"or let the variable {VARIABLE} name the program"
            ) from fault

    def prepare(self) -> None:
        """Builds the program next to the tools if it isn't up to date, so that parallel processes
        don't build it at the same time. From then on the program is run directly, without the
        launcher, which checks for newer sources at each start.
        """
        if not os.environ.get(VARIABLE):
            with self.started(["--build"], None) as child:
                assert child.stdout is not None
                built = os.fsdecode(child.stdout.read()).rstrip("\n")
            if child.returncode:
                raise Refusal(self.path, "", child.returncode)
            self.path = built

    def judge(self, rules: RulesAt) -> None:
        """Raises a Refusal if the program rejects this rules file."""
        with tempfile.NamedTemporaryFile() as trace:
            trace.write(EMPTY_TRACE)
            trace.flush()
            self.replay(trace.name, rules, Pace(), 1)


def read_kills(lines: Iterable[str]) -> list[Kill] | None:
    """Parses the kills in the output of a replay. Returns None if the output is incomplete."""
    kills: list[Kill] = []
    end: re.Match[str] | None = None
    for line in lines:
        if found := KILL.fullmatch(line):
            kills.append(Kill(int(found[1]), int(found[2]), int(found[3]), found[4]))
        end = END.fullmatch(line)
    return kills if end and int(end[2]) == len(kills) else None


def side_by_side(calls: Sequence[Callable[[int], Answer]], jobs: int) -> list[Answer | Fault]:
    """Runs the calls, up to `jobs` at a time. Returns the result or the Fault of each, in order.
    Each call gets the number of threads that it may use.
    """
    lanes = max(1, min(jobs, len(calls)))
    threads = max(1, processors() // lanes)

    def answer(call: Callable[[int], Answer]) -> Answer | Fault:
        try:
            return call(threads)
        except Fault as fault:
            return fault

    with ThreadPoolExecutor(lanes) as pool:
        try:
            return list(pool.map(answer, calls))
        except KeyboardInterrupt:
            pool.shutdown(wait=False, cancel_futures=True)
            raise
