"""Checks that tools/openmetrics reports input that can't be converted, and says what to do."""
from __future__ import annotations

import functools

from harness import must, must_be
from shared.outputs import fault_of, story

from .values import OPENMETRICS, START

metrics_fault = functools.partial(fault_of, OPENMETRICS)
ADVICE = ": give all that `psi_oomd replay` prints, and see what it says on standard error"


def check_wrong_words(program: str) -> None:
    at = f"--start={START}"
    wrong: list[tuple[list[str], str]] = [
        ([], "the following arguments are required: --start"),
        (["--start"], "argument --start: expected one argument"),
        (["--start=2026-11-28"],
         "2026-11-28 isn't a time with its zone, such as 2026-11-28T13:58:12Z"),
        (["--start=1795874292"],
         "1795874292 isn't a time with its zone, such as 2026-11-28T13:58:12Z"),
        ([at, "--format=json"], "argument --format: invalid choice: 'json'"),
        ([at, "--label=job"], "'job' isn't a label such as instance=web-7:9100"),
        ([at, "--label=job="], "'job=' isn't a label"),
        ([at, "--label=__job=x"], "'__job=x' isn't a label"),
        ([at, "--label=7=x"], "'7=x' isn't a label"),
        ([at, "--label=a=b\nc"], "'a=b\\nc' isn't a label"),
        ([at, "--label=id=x"], "id is a label that metrics have of their own"),
        ([at, "x"], "unrecognized arguments: x"),
        ([at, "--form=prometheus"], "unrecognized arguments: --form=prometheus"),
    ]
    for words, said in wrong:
        message = metrics_fault(story(program), *words)
        must(message.startswith("openmetrics: ") and said in message
             and "usage: openmetrics " in message,
             f"{words}: {message}")
    message = metrics_fault(story(program), at, "--label=job=a", "--label=job=b")
    must_be("a name twice", message, "openmetrics: --label has a name twice: give each name once\n")


def check_rules_that_cannot_be_read(program: str) -> None:
    fault = functools.partial(metrics_fault, story(program), f"--start={START}")
    must_be("no rules file", fault("--rules=/nowhere"), "openmetrics: no file: /nowhere\n")
    refused = (
        "psi_oomd refuses the rules file examples/refused.trace: rules: BadJson: it is a trace, "
        "not a rules file"
    )
    must_be("no rules", fault("--rules=examples/refused.trace"), f"openmetrics: {refused}\n")
    said = fault("--rules=examples/runaway.json", PSI_OOMD="/nowhere")
    advice = "build ./psi_oomd, or let the variable PSI_OOMD name the program"
    must_be("no program", said,
            f"openmetrics: /nowhere can't be run (No such file or directory): {advice}\n")


def check_what_replay_does_not_print(program: str) -> None:
    start = f"--start={START}"
    lines = story(program).splitlines(keepends=True)
    message = metrics_fault(b"".join(lines[:-1]), start)
    stops = "the input stops before the last line of a replay, which begins with `end`"
    must_be("an input that stops", message, f"openmetrics: {stops}{ADVICE}\n")
    message = metrics_fault(b"".join(lines[:2] + lines[3:]), start)
    shown = repr(lines[3].decode().rstrip("\n"))
    must_be("a line less", message,
            f"openmetrics: line 3: replay prints no such line here: {shown}{ADVICE}\n")
    message = metrics_fault(b"end 5 ticks=0 events=0 kills=0\n", start)
    must(message.startswith("openmetrics: no report, so there is no metric: ")
         and "--tick-ms" in message,
         message)
