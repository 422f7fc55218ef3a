"""Finds the kills that oomd 0.5.0 would make with a configuration. Commands use it in place of
psi_oomd.
"""
import functools
import json

from psicli.fault import Fault
from psicli.running import complain
from psioomd.configuration import Configuration
from psioomd.emulation import Run, emulate, read_configuration
from psirules.program import Kill, Program
from psirules.replays import Traces
from psirules.rules_file import RulesFile
from psisystemd.replayed import kept_trace

NAME = "oomd"
INTERVAL = 5


def names_of(read: Configuration) -> bytes:
    """Returns the names of a configuration's rulesets and actions as JSON, in the form of a rules
    file.
    """
    rulesets = [
        {
            "name": it.name,
            "detectors": [],
            "actions": [{"name": action.name} for action in it.actions],
        }
        for it in read.rulesets
    ]
    return json.dumps({"rulesets": rulesets}).encode()


class ByOomd(RulesFile):
    """A configuration of oomd with the interface of a rules file. It has only the names of rulesets
    and actions.
    """

    def __init__(self, name: str) -> None:
        super().__init__(name, names_of(read_configuration(name)))


def replay(program: Program, run: Run, trace: str, threads: int) -> list[Kill]:
    """Returns the kills that oomd's algorithm makes in a trace."""
    with kept_trace(trace) as file:
        found = emulate(program, Run(file, run.config, interval=run.interval), threads)
    for text in found.notes.texts:
        complain(f"{trace}: {text}")
    return [it.kill() for it in found.decisions]


def replays(
    program: Program, name: str, interval: int | None, traces: Traces
) -> list[list[Kill] | Fault]:
    """Returns, for each trace, its kills, or a Fault if it couldn't be replayed."""
    run = Run("", name, interval=interval or INTERVAL)
    return traces.each(functools.partial(replay, program, run))
