"""Finds the kills that systemd-oomd would make with a machine's settings. Commands use it in place
of psi_oomd.
"""
import functools
import json

from psicli.fault import Fault
from psicli.running import complain
from psirules.program import Kill, Program
from psirules.replays import Traces
from psirules.rules_file import RulesFile
from psisystemd.replayed import BY, kept_trace, kills_of, replayed, warnings
from psisystemd.settings import Settings

NAME = "systemd-oomd"
RULESETS = {"rulesets": [{"name": it, "actions": [{"name": NAME}]} for it in BY]}


class BySystemd(RulesFile):
    """The rules of systemd-oomd with the interface of a rules file: one ruleset for memory
    pressure, and one for swap.
    """

    def __init__(self, folder: str) -> None:
        super().__init__(folder, json.dumps(RULESETS).encode())

    def killer(self, kill: Kill) -> str:
        return f"{NAME} for {self.ruleset_name(kill.ruleset)}"


def replay(
    program: Program, folder: str, version: int | None, trace: str, threads: int
) -> list[Kill]:
    """Returns the kills in a trace according to the settings in `folder`."""
    settings = Settings(folder, version)
    with kept_trace(trace) as file:
        engine = replayed(program, file, settings, threads)
    for text in warnings(engine, settings):
        complain(f"{trace}: {text}")
    return kills_of(engine.decisions)


def replays(
    program: Program, folder: str, version: int | None, traces: Traces
) -> list[list[Kill] | Fault]:
    """Returns, for each trace, its kills, or a Fault if it couldn't be replayed. Raises a Fault if
    a setting is malformed.
    """
    for note in Settings(folder, version).notes:
        complain(note)
    return traces.each(functools.partial(replay, program, folder, version))
