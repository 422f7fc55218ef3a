"""Lists the tools that the package installs as commands, with the names of the commands."""
from __future__ import annotations

from dataclasses import dataclass


@dataclass(frozen=True)
class Tool:
    """A tool: its file in `tools`, the name of its installed command, and a summary for the head of
    its manual page.
    """

    file: str
    command: str
    about: str


# All installed tools. Their manual pages and their completions are generated from their --help.
TOOLS = (
    Tool(
        "record",
        "psi-record",
        "record the scheduler, the groups and the memory of a machine",
    ),
    Tool("psitrace", "psi-trace", "make a trace from a recording, or from ftrace text"),
    Tool("chart", "psi-chart", "draw a trace, or what psi_oomd printed"),
    Tool(
        "top",
        "psi-top",
        "list the groups that stalled most in a trace, or in what psi_oomd printed",
    ),
    Tool(
        "export",
        "psi-export",
        "print the reports, signals and kills of a replay as JSON lines or CSV",
    ),
    Tool(
        "openmetrics", "psi-openmetrics", "write what psi_oomd printed as metrics with timestamps"
    ),
    Tool("compare", "psi-compare", "compare a trace with the machine's own pressure files"),
    Tool("rules", "psi-rules", "test, compare, explain and correct rules files"),
    Tool("fleet", "psi-fleet", "replay many traces with one rules file, on many machines"),
    Tool("ftrace-check", "psi-ftrace-check", "find what makes a trace of an ftrace text wrong"),
    Tool("fold", "psi-fold", "make a trace with the same pressure in fewer lines"),
    Tool("blame", "psi-blame", "show who ran while a group waited"),
    Tool("incident", "psi-incident", "record a machine and write the page of the incident"),
    Tool("report", "psi-report", "write an incident on one page"),
    Tool("systemd-oomd", "psi-systemd-oomd", "show whom systemd-oomd would have killed"),
    Tool("oomd", "psi-meta-oomd", "show whom oomd would have killed with its own configuration"),
    Tool("sample", "psi-sample", "sample the pressure and the memory of all groups"),
    Tool("samples", "psi-samples", "make a trace from sampled totals of pressure"),
)
# The programs. Each has a manual page in `docs`.
PROGRAMS = ("psi_oomd", "psi_observe")
# The files in `tools` that aren't installed. `events` needs psi_convert, which isn't packed yet.
OF_CHECKOUTS = ("package", "psipack", "events", "psievents")
