"""Replays many traces with a rules file, on one machine or on several. GNU parallel distributes the
replays. See `tools/fleet --help`.
"""
import argparse
import collections
import os
import re
import shlex
import shutil
import subprocess
import sys
import tempfile
import threading
from dataclasses import dataclass, field, replace
from typing import IO

from psicli.fault import Fault
from psicli.parser import Parser
from psicli.running import complain, run
from psicli.status import Status
from psicli.wording import counted, quoted
from psinames.known import Span, add_names, add_times, must_fit
from psinames.shown import show_containers
from psireplay.part import part_of, within
from psireplay.program import program_path
from psireplay.sampled import Whole, time_in_whole, wholes
from psirules.command import add_form, add_pace
from psirules.program import Kill, Pace, Program, read_kills
from psirules.replays import length_of
from psirules.rules_file import RulesFile, bytes_of, temporary_rules
from psirules.telling import Form, tell_json

ABOUT = """Replays each TRACE with the rules of RULES, and sums up: kills by ruleset and by path,
and traces without any. If no TRACE is given, their names are read from standard input,
one per line. Words after -- go to parallel: `-- --eta`."""
STATUS = """The status is 0 if each trace was replayed, and 2 if something couldn't be run. Each
host needs psi_oomd at the same path as here (or at the path in PSI_OOMD), and reads
traces and rules by their paths, except with --copy."""

# A line that parallel prints for a job on standard output or standard error: the job's number, a
# tab, and the job's own line up to a \n or \r.
TAGGED = re.compile(r"([0-9]+)\t([^\r\n]*)(?s:.*)")
# A line in parallel's job log: the job's number, its host, two times, two byte counts, and the exit
# status.
LOGGED = re.compile(r"^([0-9]+)\t([^\t]*)(?:\t[0-9. ]*){4}\t(-?[0-9]+)\t", re.MULTILINE)


@dataclass
class Answer:
    """The result for a trace: the lines of its replay, other output from its host, and how the job
    ended.
    """

    lines: list[str] = field(default_factory=list)
    said: list[str] = field(default_factory=list)
    end: str = "gave no answer"

    def fault(self) -> str:
        """Returns the error message for a trace that wasn't replayed."""
        message = "; ".join(filter(None, self.lines + self.said))
        return message if self.lines else ": ".join(filter(None, [f"its host {self.end}", message]))


def command(options: argparse.Namespace, parallel_options: list[str]) -> list[str]:
    """Returns the command line of parallel. It makes parallel print, for each job, lines with the
    job's number, a tab, and a kill, the end of the replay, or an error.
    """
    rules = os.path.abspath(options.rules)
    replay = [
        program_path(),
        "replay",
        f"--rules={os.path.basename(rules) if options.copy else rules}",
        "--report-s=0",
    ]
    replay += ["--workers=1", *Pace(options.tick_ms, options.interval_s).words(), "--"]
    if "{" in "".join(replay):
        raise Fault("parallel would take the { in a path for a word of its own: use another path")
    hosts = ["--sshloginfile", options.sshloginfile] if options.sshloginfile else []
    if options.copy:
        hosts += [
            "--workdir",
            "...",
            "--cleanup",
            "--transferfile",
            "{}",
            "--transferfile",
            parted(rules),
        ]
    hosts += ["--dry-run"] if options.dry_run else []
    line = (
        f"{shlex.join(replay)} {'{/}' if options.copy else '{}'} 2>&1 | grep -vE"
        " '^(report|some|full|event) '"
    )
    return ["parallel", "--null", "--tagstring", "{#}", *hosts, *parallel_options, line]


def parted(path: str) -> str:
    """Returns a path in the notation of parallel's --transferfile. The file is copied into the
    job's folder, and its name there is the last component of the path.
    """
    return os.path.join(os.path.dirname(path), ".", os.path.basename(path))


def names_of(options: argparse.Namespace, traces: list[str]) -> bytes:
    """Returns the paths of the traces, separated by NUL bytes as parallel reads them."""
    paths = [os.path.abspath(name) for name in traces]
    return b"\0".join(os.fsencode(parted(path) if options.copy else path) for path in paths)


def overhear(end: int, found: list[Answer]) -> None:
    """Reads parallel's standard error from the file descriptor `end`, and stores the lines about
    jobs. Prints all other text at once, even without a newline, since `--eta` prints no newlines.
    """
    rest = ""
    with os.fdopen(end, "rb", 0) as pipe:
        while piece := pipe.read(65536).decode("utf-8", "replace"):
            *lines, rest = (rest + piece).split("\n")
            for line in lines:
                keep_or_tell(line + "\n", found)
            if not rest[:1].isdigit():
                keep_or_tell(rest, found)
                rest = ""
    keep_or_tell(rest, found)


def keep_or_tell(text: str, found: list[Answer]) -> None:
    """Stores a line about a job. Prints any other text on standard error."""
    tagged = TAGGED.fullmatch(text)
    if tagged and 0 < int(tagged[1]) <= len(found):
        found[int(tagged[1]) - 1].said.append(tagged[2])
    else:
        print(text, end="", file=sys.stderr, flush=True)


def note_ends(log: IO[bytes], found: list[Answer]) -> None:
    """Stores, for each job in parallel's log, its host and how it ended."""
    for number, host, status in LOGGED.findall(log.read().decode("utf-8", "replace")):
        found[int(number) - 1].end = (
            f"{'' if host == ':' else host + ' '}gave no answer, status {status}"
        )


def answers(
    options: argparse.Namespace, parallel_options: list[str], traces: list[str]
) -> list[Answer]:
    """Runs parallel, and returns the result for each trace."""
    found = [Answer() for _ in traces]
    end, other = os.pipe()
    ear = threading.Thread(target=overhear, args=(end, found))
    ear.start()
    with tempfile.NamedTemporaryFile(prefix="fleet-jobs-") as log:
        words = command(options, ["--joblog", log.name, *parallel_options])
        with os.fdopen(other, "wb") as errors:
            parallel = subprocess.Popen(
                words, stdin=subprocess.PIPE, stdout=subprocess.PIPE, stderr=errors
            )
        output = parallel.communicate(names_of(options, traces))[0].decode("utf-8", "replace")
        ear.join()
        note_ends(log, found)
    for line in output.split("\n")[:-1]:
        number, _, text = line.partition("\t")
        if not number.isdigit():
            raise Fault(f"parallel didn't take its words: {shlex.join(parallel_options)}")
        found[int(number) - 1].lines.append(text)
    return found


def selected(options: argparse.Namespace, whole: Whole) -> Span | None | Fault:
    """Returns the selected part of a trace, or None for the whole trace. Returns a Fault if the
    trace doesn't contain the selected part.
    """
    try:
        return part_of(whole.name, vars(options), length_of(whole))
    except Fault as fault:
        return fault


def kills_in(whole: Whole, all_kills: dict[str, list[Kill] | None]) -> list[Kill]:
    """Returns the kills in a trace, or in all traces that were made together from the same samples.
    A kill in the overlap of two traces counts once.
    """
    return [
        replace(kill, time_ns=time)
        for name, mark in whole.parts
        for kill in all_kills[name] or ()
        if (time := time_in_whole(kill.time_ns, mark)) is not None
    ]


def summary(
    options: argparse.Namespace, traces: list[str], found: list[Answer]
) -> dict[str, object]:
    """Summarizes the results. Traces that were made together from the same samples count as one."""
    rules = RulesFile(options.rules, bytes_of(options.rules))
    rulesets: collections.Counter[str] = collections.Counter()
    paths: collections.Counter[str] = collections.Counter()
    without = []
    all_kills = {
        trace: read_kills(line + "\n" for line in answer.lines)
        for trace, answer in zip(traces, found)
    }
    faults = {
        trace: answer.fault() for trace, answer in zip(traces, found) if all_kills[trace] is None
    }
    together = wholes(traces)
    for whole in together:
        part = selected(options, whole)
        if isinstance(part, Fault):
            faults.setdefault(whole.name, str(part))
            continue
        kills = within(kills_in(whole, all_kills), part)
        if not kills and not any(name in faults for name, _ in whole.parts):
            without.append(whole.name)
        rulesets.update(
            f"{kill.ruleset} {quoted(rules.ruleset_name(kill.ruleset))}" for kill in kills
        )
        paths.update(kill.path for kill in kills)
    counts = {
        "kills_by_ruleset": dict(rulesets.most_common()),
        "kills_by_path": dict(paths.most_common()),
    }
    return {
        "rules": options.rules,
        "traces": len(together),
        **counts,
        "without_any": without,
        "not_run": faults,
    }


def tell(summed: dict[str, object]) -> None:
    """Prints the summary as text."""
    without, faults = summed["without_any"], summed["not_run"]
    assert isinstance(without, list) and isinstance(faults, dict)
    print(
        f"{counted(int(str(summed['traces'])), 'trace')}, {len(without)} without any kill,"
        f" {len(faults)} not run"
    )
    for name in ("kills_by_ruleset", "kills_by_path"):
        print(f"{name.replace('_', ' ')}:")
        counts = summed[name]
        assert isinstance(counts, dict)
        for what, count in counts.items():
            print(f"{count:>8}  {what}")
    for trace, fault in faults.items():
        complain(f"{trace}: {fault}")


def fleet() -> int:
    """Replays the traces, prints the summary, and returns the exit status."""
    at = sys.argv.index("--") if "--" in sys.argv else len(sys.argv)
    options, parallel_options = parser().parse_args(sys.argv[1:at]), sys.argv[at + 1 :]
    traces = options.traces or [
        os.fsdecode(name) for name in sys.stdin.buffer.read().split(b"\n") if name
    ]
    if (
        not shutil.which("parallel")
        or b"GNU" not in subprocess.run(["parallel", "--version"], capture_output=True).stdout
    ):
        raise Fault("GNU parallel isn't installed: its package is called parallel")
    if not traces:
        raise Fault(
            "no trace is given: name them, or write their names to standard input, one a line"
        )
    if options.dry_run:
        words = command(options, parallel_options)
        return subprocess.run(words, input=names_of(options, traces)).returncode
    program = Program()
    program.prepare()
    with temporary_rules(bytes_of(options.rules), options.rules) as rules:
        program.judge(rules)
    must_fit(vars(options))
    summed = summary(options, traces, answers(options, parallel_options, traces))
    if options.form is Form.JSON:
        tell_json(summed)
    else:
        show_containers(traces, vars(options))
        tell(summed)
    return Status.FAILED if summed["not_run"] else Status.DONE


def parser() -> Parser:
    """Returns the parser of the command line."""
    found = Parser(
        ABOUT, STATUS, usage="%(prog)s [OPTION ..] RULES [TRACE ..] [-- OPTION OF PARALLEL ..]"
    )
    found.add_argument("rules", metavar="RULES", help="the rules file")
    found.add_argument("traces", metavar="TRACE", nargs="*", help="a trace")
    found.add_argument("--sshloginfile", metavar="FILE",
                       help="the hosts, one per line, in parallel's format")  # fmt: skip
    found.add_argument("--copy", action="store_true",
                       help="copy rules and trace to the host for each job, by rsync")  # fmt: skip
    found.add_argument(
        "--dry-run",
        action="store_true",
        help="print the commands, and run nothing (`-- -vv`: with their hosts)",
    )
    add_pace(found)
    add_times(found)
    add_names(found)
    add_form(found, False)
    return found


def main() -> int:
    """Runs the command; returns the exit status."""
    return run(fleet)
