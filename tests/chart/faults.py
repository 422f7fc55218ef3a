"""Checks of chart's messages about input that can't be drawn: each says what to do."""
from __future__ import annotations

import functools
import gzip
import json
import os
import tempfile

from harness import must, must_be
from shared.outputs import fault_of, run, story
from shared.program import TOP

from .drawn import CHART

ADVICE = ": give all that `psi_oomd replay` prints, and see what it says on standard error"
chart_fault = functools.partial(fault_of, CHART)


def must_say(said: str, *parts: str) -> None:
    """Fails unless `said` is a message of chart and contains all of these parts."""
    must(said.startswith("chart: ") and said.endswith("\n"), f"{said!r} is told by the chart")
    for part in parts:
        must(part in said, f"{said!r} has {part!r}")


def check_unknown_lines(program: str) -> None:
    lines = story(program).splitlines(keepends=True)
    live = b"live 2000000000 cpu=0 count=3 1 2 3 4 5 6 7\n"
    head, full = b"report 2000000000 / irq\n", lines[2]
    kill = next(place for place, line in enumerate(lines) if line.startswith(b"kill"))
    event = next(place for place, line in enumerate(lines) if line.startswith(b"event"))
    edits: list[tuple[int, list[bytes]]] = [
        (0, [b"repport 2000000000 / io\n"]), (0, [b"\n"]), (0, []), (1, []), (2, []),
        (2, [lines[2]] * 2),
        (1, [lines[1].replace(b"avg60", b"avg61")]), (1, [lines[1].replace(b" total", b"  total")]),
        (3, [lines[3].replace(b"memory", b"disk")]),
        (kill, [lines[kill].replace(b"/batch", b"batch")]),
        (kill, [lines[kill].replace(b"kill 1", b"kill 01")]), (kill, [lines[kill], b"some\xff\n"]),
        (event, [lines[event].replace(b" memory ", b" irq ")]),
        (event, [lines[event].replace(b" some ", b" most ")]),
        (0, [live.replace(b" 7", b"")]), (0, [live.replace(b" 7", b" 7 8")]),
        (0, [live.replace(b"=3", b"=03")]),
        (1, [live]), (len(lines) - 1, [lines[-1], live]), (0, [full]),
        (len(lines) - 1, [lines[-1]] * 2), (len(lines) - 1, [lines[-1], b"\n"]),
        (len(lines) - 1, [lines[-1][:-1]]),
        (0, [head, lines[1]]), (0, [head, head]),
    ]  # fmt: skip
    for place, instead in edits:
        text = lines[:place] + instead + lines[place + 1 :]
        # The number (from 1) of the first wrong line. If `instead` has two lines, it is the second
        # of them. If not, it is the line at `place`.
        number = place + (2 if len(instead) == 2 else 1)
        shown = text[number - 1].decode("latin-1")
        quoted = repr(shown[:60].rstrip("\n")) + (".." if len(shown) > 60 else "")
        wanted = f"chart: line {number}: replay prints no such line here: {quoted}{ADVICE}\n"
        must_be(f"{instead} for line {place + 1}", chart_fault(b"".join(text)), wanted)


def check_too_little(program: str) -> None:
    printed = story(program)
    stops = (
        "chart: the input stops before the last line of a replay, which begins with "
        f"`end`{ADVICE}\n"
    )
    must_be("an input that stops", chart_fault(b"".join(printed.splitlines(keepends=True)[:-1])),
            stops)
    must_be("an empty input", chart_fault(b""), f"chart: the input is empty{ADVICE}\n")
    for words in (
        ["--from=298.5", "--to=299.5"], ["--resource=irq"], ["--group=/batch/import", "--from=222"]
    ):
        said = chart_fault(printed, *words)
        must(said.startswith("chart: no report of ") and "--report-s" in said, f"{words}: {said}")
    for words, status, message in (
        (["--group=/x"], 11,
         "no group /x in the replay, which has /, /batch, /batch/import, /batch/index, /web"),
        (["--group", "bacth"], 11, "no group bacth in the replay, which has /batch, .."),
        (["--group=/batch", "--group=/wbe"], 11, "no group /wbe in the replay, which has /web, .."),
        (["--from=400"], 12, "--from 400 is after the end of the replay, 300 s"),
        (["--from=300"], 12, "--from 300 isn't before --to 300: no time is left between"),
        (["--from=7", "--to=7"], 12, "--from 7 isn't before --to 7: no time is left between"),
        (["--from=100", "--to=50"], 12, "--from 100 isn't before --to 50: no time is left between"),
    ):
        must_be(f"{words}", chart_fault(printed, *words, status=status), f"chart: {message}\n")
    no_report = chart_fault(b"end 5 ticks=0 events=0 kills=0\n")
    must(no_report.startswith("chart: no report of / from 0 s to 0.000000005 s of 0.000000005 s: "),
         no_report)


def check_a_group_by_its_last_component(program: str) -> None:
    """`--group` also accepts the last component of a group's path. If several groups match, the
    message lists them.
    """
    printed = story(program)
    by_path = run([CHART, "--group=/batch"], printed)
    must(run([CHART, "--group", "batch"], printed) == by_path, "both charts are the same")
    trace = (
        b"psitrace 1 cpus=1\n0 group /a\n0 group /a/x\n0 group /b\n0 group /b/x\n5000000000 end\n"
    )
    several = run([program, "replay", "-", "--report-s", "2"], trace)
    said = chart_fault(several, "--group", "x", status=11)
    must_be("several groups", said, "chart: x is the name of 2 groups in the replay: /a/x, /b/x\n")


def check_wrong_words(program: str) -> None:
    for words in (
        ["--resource=disk"], ["--from=1e3"], ["--to=-1"], ["--grou=/batch"], ["--group"],
        ["--to=0.0000000001"],
        ["--start"], ["--rules"], ["--trace"],
    ):  # fmt: skip
        must_say(chart_fault(story(program), *words), "usage: chart ")
    for time in (
        "2026-11-28", "2026-11-28T13:58:12", "2026-11-28 13:58:12Z", "2026-11-31T13:58:12Z",
        "2026-02-29T00:00:00Z",
        "2026-11-28T24:00:00Z", "2026-11-28T13:60:12Z", "2026-11-28T13:58:60Z",
        "2026-13-28T13:58:12Z", "1969-12-31T23:59:59Z",
        "2026-11-28T13:58:12+0100", "2026-11-28T13:58:12+15:00", "2026-11-28T13:58:12.0000000001Z",
        "now", "",
    ):  # fmt: skip
        must_say(chart_fault(story(program), f"--start={time}"),
                 f"{time} isn't a time with its zone, such as 2026-11-28T13:58:12Z")
    start, before = "--start=2026-11-28T13:58:12Z", "2026-11-28T13:58:11Z"
    said = chart_fault(story(program), f"--to={before}", status=12)
    must_say(
        said,
        f"--to {before} is a time of day, and nothing says when the trace began: say by --start",
    )
    said = chart_fault(story(program), start, f"--from={before}", status=12)
    must_say(
        said,
        (
            f"--from {before} isn't in the trace, which was recorded from 13:58:12 on 28 November "
            "2026 to 14:03:12, UTC"
        ),
    )
    must_be("no file", chart_fault(story(program), "x"), "chart: no file: x\n")
    must_say(chart_fault(story(program), "examples/runaway.trace", "x"),
             "unrecognized arguments: x\nusage: chart ")


def check_rules_that_cannot_be_read(program: str) -> None:
    printed = story(program)
    must_be("no rules file", chart_fault(printed, "--rules=/nowhere"), "chart: no file: /nowhere\n")
    must_be("a folder", chart_fault(printed, "--rules=tests"), "chart: tests: Is a directory\n")
    said = chart_fault(printed, "--rules=examples/runaway.trace")
    must_be(
        "no rules", said,
        (
            "chart: psi_oomd refuses the rules file examples/runaway.trace: rules: BadJson: it is "
            "a trace, not a rules file\n"
        ),
    )
    other = '{"rulesets":[{"name":"R","detectors":[],"actions":[]}]}'
    with tempfile.NamedTemporaryFile("w", suffix=".json") as file:
        file.write(other)
        file.flush()
        said = chart_fault(printed, "--rules", file.name)
        advice = "which kills /batch/import: give the rules file of this replay"
        must_be("other rules", said, f"chart: {file.name} has no ruleset 0, action 0, {advice}\n")


def check_rules_of_another_replay(program: str) -> None:
    """If a kill in the output can't come from the rules, the message says that the replay used
    other rules.
    """
    printed = story(program)
    kill = {
        "name": "kill_by_memory_size_or_growth",
        "args": {"cgroup": "web,*", "post_action_delay": "0"},
    }
    for recursive in ("false", "true"):
        kill["args"]["recursive"] = recursive  # type: ignore[index]
        with tempfile.NamedTemporaryFile("w", suffix=".json") as file:
            json.dump(
                {
                    "rulesets": [
                        {"name": "the database", "detectors": [["always"]], "actions": [kill]}
                    ]
                },
                file,
            )
            file.flush()
            message = (
                f"{file.name}: ruleset 0, action 0 is of 'web,*', and the replay's kills "
                "/batch/import: give the rules file of this replay"
            )
            for tool, *words in (
                (CHART,),
                (os.path.join(TOP, "tools", "openmetrics"), "--start", "2026-11-28T13:58:12Z"),
            ):
                if recursive == "false":
                    said = fault_of(tool, printed, *words, "--rules", file.name)
                    must_be("other rules", said, f"{os.path.basename(tool)}: {message}\n")
                else:  # with recursive victims, `*` reaches /batch/import by way of /batch
                    must(b"the database" in run([tool, *words, "--rules", file.name], printed),
                         f"{tool}: the kill has its label")


def check_a_summary_of_another_trace(program: str) -> None:
    """A summary of a trace with a different length is rejected, since its time of day would be
    wrong.
    """
    printed = story(program)
    for length, is_same in (
        ("300.000", True), ("300.001", True), ("20.093", False), ("3000.000", False)
    ):
        with tempfile.NamedTemporaryFile("w") as file:
            file.write(
                f"psitrace: {length} s, processors 2, groups 5, lines 77151\n"
                "psitrace: 0 is 2026-11-28 13:58:12.000 UTC\n"
            )
            file.flush()
            if is_same:
                must(b"28 November 2026" in run([CHART, "--summary", file.name], printed),
                     "the time of day is there")
                continue
            said = chart_fault(printed, "--summary", file.name)
            shown = length.rstrip("0").rstrip(".")
            lengths = f"a trace of {shown} s, and the replay's has 300 s"
            must_be(
                length, said,
                f"chart: {file.name} is the summary of {lengths}: give the summary of this trace\n",
            )
    with tempfile.NamedTemporaryFile("w") as file:
        file.write("psitrace: 0 is 2026-13-45 13:58:12.000 UTC\n")
        file.flush()
        must("isn't a time with its zone" in chart_fault(printed, "--summary", file.name),
             "a date that isn't one")


def check_inputs_of_another_kind(program: str) -> None:
    """If the input isn't the output of a replay, the message says what it is and what to do with
    it.
    """
    printed = story(program)
    with open(os.path.join(TOP, "examples", "runaway.trace"), "rb") as file:
        trace = file.read()
    for data, message in (
        (
            trace,
            (
                "it is a trace, not the output of replay: `psi_oomd replay FILE` prints what this "
                "tool reads"
            ),
        ),
        (gzip.compress(printed),
         "it is compressed by gzip, not the output of replay: `gunzip -c FILE` prints its content"),
        (printed.replace(b"\n", b"\r\n"),
         "it is a text whose lines end in CR LF, not the output of replay: `tr -d '\\r' < FILE`"
         " removes each CR"),
        (b'{"rulesets":[]}', "it is JSON, like a rules file, not the output of replay"),
    ):  # fmt: skip
        for tool, *words in ((CHART,), (os.path.join(TOP, "tools", "top"),),
                             (
                                 os.path.join(TOP, "tools", "openmetrics"), "--start",
                                 "2026-11-28T13:58:12Z",
                             )):  # fmt: skip
            must_be(message, fault_of(tool, data, *words),
                    f"{os.path.basename(tool)}: the input: {message}\n")
    huge = b"report " + b"9" * 5000 + b" / io\n"
    must("replay prints no such line here" in chart_fault(huge), "a number that no replay prints")


def check_files_of_another_kind(program: str) -> None:
    """The tools chart and top expect a trace as their file argument. For another file, the message
    says what the file is.
    """
    printed, want = story(program), os.path.join(TOP, "examples", "runaway.want")
    with tempfile.NamedTemporaryFile() as file:
        file.write(printed)
        file.flush()
        for name in ("chart", "top"):
            tool = os.path.join(TOP, "tools", name)
            bad_header = "trace line 1: BadHeader"
            must_be(name, fault_of(tool, printed, want),
                    f"{name}: psi_oomd refuses {want}: {bad_header}\n")
            advice = f"give the trace that was replayed, or use `{name} < {file.name}`"
            message = f"{bad_header}: it is the output of replay, not a trace: {advice}"
            must_be(name, fault_of(tool, printed, file.name),
                    f"{name}: psi_oomd refuses {file.name}: {message}\n")


def check_traces_that_cannot_be_read(program: str) -> None:
    printed = story(program)
    must_be("no trace", chart_fault(printed, "--trace=/nowhere"), "chart: no file: /nowhere\n")
    must_be("a folder", chart_fault(printed, "--trace=tests"), "chart: tests: Is a directory\n")
    said = chart_fault(printed, "--trace=examples/refused.trace")
    must_be("no trace", said,
            "chart: psi_oomd refuses the trace examples/refused.trace: trace line 7: NotReady\n")
    said = chart_fault(printed, "--trace=examples/one-wait.trace")
    other = "examples/one-wait.trace ends at 2000000000 ns, and the replay at 300000000000 ns"
    must_be("another trace", said, f"chart: {other}: give the trace of this replay\n")
    with tempfile.NamedTemporaryFile("wb") as file:
        # The program rejects the trace at its second line, while the chart still writes lines to
        # it.
        file.write(b"psitrace 1 cpus=1\n0 mem / 1 1\n" + b"x mem / y\n0 mem\n0 rmgroup\n" * 100000)
        file.flush()
        said = chart_fault(printed, f"--trace={file.name}")
        must_be("a long trace", said,
                f"chart: psi_oomd refuses the trace {file.name}: trace line 2: BadField 4\n")


def check_no_program(program: str) -> None:
    printed = story(program)
    for words in (["--rules=examples/runaway.json"], ["--trace=examples/runaway.trace"]):
        said = chart_fault(printed, *words, PSI_OOMD="/nowhere")
        advice = "build ./psi_oomd, or let the variable PSI_OOMD name the program"
        must_be("no program", said,
                f"chart: /nowhere can't be run (No such file or directory): {advice}\n")
        said = chart_fault(printed, *words, PSI_OOMD="/bin/false")
        must_say(said, "psi_oomd failed on the ", ": its status is 1")
