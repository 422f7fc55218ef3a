"""Example commands for each tool, and the page of docs/ that describes the tool. --help and the
manual pages show both.
"""
from __future__ import annotations

import os
import sys
from typing import NamedTuple


class Example(NamedTuple):
    """An example command, and its purpose."""

    about: str
    command: str


# The examples of each tool, by the name of its file in `tools`. tests/manual checks that each tool
# has three examples, and that their options exist.
EXAMPLES = {
    "blame": (
        Example("who ran while each group waited for a processor", "tools/blame incident.trace"),
        Example(
            "one group, in the minute around a time",
            "tools/blame incident.trace --group web.service --at 14:03",
        ),
        Example(
            "how much less it would have waited without another group",
            "tools/blame incident.trace --group /web --victim /batch",
        ),
    ),
    "chart": (
        Example(
            "the three groups that stalled most", "tools/chart incident.trace --top 3 >top.svg"
        ),
        Example(
            "one group around a time, with the thresholds of the rules",
            "tools/chart incident.trace --group /batch --at 14:03 --rules rules.json >batch.svg",
        ),
        Example(
            "what was, and what would have been without the victims",
            "tools/chart --group /batch --beside replay.txt <whatif.txt >both.svg",
        ),
    ),
    "compare": (
        Example("at the kernel's own sample times", "tools/compare incident incident.trace"),
        Example("at ticks of a second", "tools/compare incident incident.trace --tick-ms 1000"),
        Example(
            "a folded trace, at its windows of 3 s",
            "tools/compare incident folded.trace --tick-ms 3000",
        ),
    ),
    "events": (
        Example("in the order of time", "tools/events incident | sort -n"),
        Example("the switches of one processor", "tools/events incident | grep ' 0 sched_switch '"),
        Example("the table that psi_convert reads", "tools/events incident --table >table"),
    ),
    "export": (
        Example("the kills by rules", "tools/export a.trace --rules rules.json --only kill"),
        Example("a table for a spreadsheet", "tools/export a.trace --group /web --csv >web.csv"),
        Example(
            "what psi_oomd printed, for jq",
            "tools/export --only report <replay.txt | jq .group",
        ),
    ),
    "fleet": (
        Example("all traces of a folder", "ls traces/*.trace | tools/fleet rules.json"),
        Example(
            "on other hosts, to which rules and traces are copied",
            "tools/fleet rules.json traces/*.trace --sshloginfile hosts --copy",
        ),
        Example("for a program", "tools/fleet rules.json traces/*.trace --json"),
    ),
    "fold": (
        Example(
            "for replays at ticks of 2 s", "tools/fold incident.trace --window 2 >folded.trace"
        ),
        Example(
            "so that whatif is exact for the groups that the rules may kill",
            "tools/fold incident.trace --window 2 --rules rules.json >folded.trace",
        ),
        Example(
            "the same, for groups named by patterns",
            "tools/fold incident.trace --window 2 --victims 'batch/*' >folded.trace",
        ),
    ),
    "ftrace-check": (
        Example("the kernel's text", "tools/ftrace-check trace.txt"),
        Example("the text of trace-cmd", "trace-cmd report -N | tools/ftrace-check -"),
        Example("a compressed text", "zcat trace.txt.gz | tools/ftrace-check -"),
    ),
    "incident": (
        Example("this machine, as root", "tools/incident --seconds 60 -o incident.html"),
        Example(
            "another one, over ssh",
            "tools/incident web1 --seconds 60 --rules rules.json -o incident.html",
        ),
        Example("an existing recording", "tools/incident open incident -o incident.html"),
    ),
    "oomd": (
        Example("with oomd's own file", "tools/oomd incident.trace --config oomd.json"),
        Example(
            "and what psi_oomd's rules would have done",
            "tools/oomd incident.trace --config oomd.json --compare rules.json",
        ),
        Example(
            "by your own oomd, which can kill nothing here",
            "tools/oomd incident.trace --config oomd.json --binary /usr/bin/oomd",
        ),
    ),
    "openmetrics": (
        Example(
            "from time 0 of the trace at a date",
            "tools/openmetrics --start 2026-11-28T13:58:12Z <replay.txt >out.om",
        ),
        Example(
            "with the names of the rules",
            "tools/openmetrics --start 2026-11-28T13:58:12Z --rules rules.json <replay.txt >out.om",
        ),
        Example(
            "with a label for the machine",
            "tools/openmetrics --start 2026-11-28T13:58:12Z --label host=web1 <replay.txt >out.om",
        ),
    ),
    "psitrace": (
        Example("a recording", "tools/psitrace incident -o incident.trace 2>incident.summary"),
        Example(
            "an hour, folded into windows of 3 s",
            "tools/psitrace incident --fold 3 -o incident.trace",
        ),
        Example("text of ftrace", "tools/psitrace trace.txt --cpus 2 -o incident.trace"),
    ),
    "report": (
        Example("a trace on one page", "tools/report incident.trace -o incident.html"),
        Example(
            "with what rules would have done",
            "tools/report incident.trace --rules rules.json -o incident.html",
        ),
        Example(
            "compared with the recording, and at its time of day",
            "tools/report incident.trace --recording incident --rules rules.json -o incident.html",
        ),
    ),
    "rules": (
        Example("does a file say what I mean?", "tools/rules lint rules.json"),
        Example(
            "are the kills those that I want?",
            "tools/rules expect wanted incident.trace --rules rules.json",
        ),
        Example(
            "what if a threshold were another?",
            "tools/rules sweep rules.json --vary 0/pressure_above.threshold=20,40,60 a.trace",
        ),
    ),
    "samples": (
        Example("pressure that tools/sample wrote", "tools/samples samples.csv -o monday.trace"),
        Example("answers of Prometheus", "tools/samples node.json groups.json -o monday.trace"),
        Example(
            "the second hour, with only the upper groups",
            "tools/samples samples.csv --from 3600 --to 7200 --groups 2 -o monday.trace",
        ),
    ),
    "systemd-oomd": (
        Example(
            "with the settings in a recording",
            "tools/systemd-oomd incident.trace --settings incident/systemd",
        ),
        Example(
            "with the files of a repository",
            "tools/systemd-oomd incident.trace --settings files --systemd 252",
        ),
        Example(
            "and what rules would have done",
            "tools/systemd-oomd incident.trace --settings incident/systemd --compare rules.json",
        ),
    ),
    "top": (
        Example("the ten groups that stalled most", "tools/top incident.trace"),
        Example("three of them, around a time", "tools/top incident.trace 3 --at 14:03"),
        Example(
            "if the kills by rules had happened",
            "psi_oomd whatif incident.trace --rules rules.json | tools/top",
        ),
    ),
}
# The page of docs/ that describes each tool. A tool that isn't listed is described in
# docs/OPERATING.md.
READ_ON = {
    "compare": "docs/RECORDING.md",
    "events": "docs/CONVERT.md",
    "fold": "docs/RECORDING.md",
    "ftrace-check": "docs/RECORDING.md",
    "oomd": "docs/OOMD.md",
    "psitrace": "docs/RECORDING.md",
    "samples": "docs/SAMPLES.md",
    "systemd-oomd": "docs/SYSTEMD.md",
}


def tool_file() -> str:
    """Returns the name of the running tool's file in `tools`. An installed tool is a link with
    another name, which is resolved.
    """
    return os.path.basename(os.path.realpath(sys.argv[0]))


def read_on_text() -> str:
    """Returns the sentence of --help that names the page of docs/ about the running tool."""
    page = READ_ON.get(tool_file(), "docs/OPERATING.md")
    return f"Read on: {page}\n"


def examples_text(prog: str) -> str:
    """Returns the examples of the running tool. If `prog` names a command, as in `rules expect`,
    returns only the examples of that command.
    """
    tool, command = tool_file(), prog.partition(" ")[2]
    shown = [it for it in EXAMPLES.get(tool, ()) if not command or f" {command} " in it.command]
    return "".join(f"  # {it.about}\n  {it.command}\n" for it in shown)
