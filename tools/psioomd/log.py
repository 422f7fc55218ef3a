"""Parses oomd's log. Finds its kills, and the ruleset and action of each kill."""
from __future__ import annotations

import re
from dataclasses import dataclass

from psirules.program import Kill

PLACE = re.compile(r"^(?:\(inl\) )?\[[A-Za-z]+\.(?:cpp|h):\d+\] ?")
KILL = re.compile(
    r"\] \S+ \S+ \S+ (\S*) -?\d+ ruleset:\[(?:#(\d+) .*)?\] detectorgroup:\[.*\]"
    r" killer:(\(dry\))?(\S+) v2"
)
RESTART = re.compile(r"\] restarted systemd service=(\S+)")
FIRED = re.compile(r"\] DetectorGroup=.* has fired for Ruleset=#(\d+) ")
RUNS, RETURNED = "] Running Action=", re.compile(r"\] Action=.* returned (CONTINUE|STOP|ASYNC)")
UNKNOWN = -1


@dataclass(frozen=True)
class Restart:
    """A service that oomd would have restarted, and the time (ns) of the restart."""

    time_ns: int
    service: str


class LogReader:
    """Parses oomd's log, one evaluation at a time. `actions` contains the number of actions of each
    ruleset. `waiting` contains, for each ruleset with a paused action, the action's number.
    """

    def __init__(self, actions: list[int]) -> None:
        self.actions = actions
        self.waiting: dict[int, int] = {}
        self.kills: list[Kill] = []
        self.restarts: list[Restart] = []
        self.plugins: list[str] = []

    def take(self, time_ns: int, text: str) -> None:
        """Parses the lines of the log from the evaluation at `time_ns`."""
        waiting, self.waiting = self.waiting, {}
        following: tuple[int, int] | None = None
        running: tuple[int, int] | None = None
        for line in text.splitlines():
            fired, kill, returned = FIRED.search(line), KILL.search(line), RETURNED.search(line)
            if fired:
                following = (int(fired[1]), 0)
            elif RUNS in line:
                if following is None and waiting:
                    ruleset = min(waiting)
                    following = (ruleset, waiting.pop(ruleset))
                running = following
            elif returned and running:
                following = self.after(running, returned[1])
                running = None
            elif kill:
                self.add(time_ns, kill, running)
            elif restart := RESTART.search(line):
                self.restarts.append(Restart(time_ns, restart[1]))

    def after(self, running: tuple[int, int], returned: str) -> tuple[int, int] | None:
        """Returns the next action of the chain, or None if the chain has ended. The action
        `running` has returned the word `returned`.
        """
        ruleset, action = running
        if returned == "ASYNC":
            self.waiting[ruleset] = action
        is_more = action + 1 < self.actions[ruleset] if ruleset < len(self.actions) else False
        return (ruleset, action + 1) if returned == "CONTINUE" and is_more else None

    def add(self, time_ns: int, kill: re.Match[str], running: tuple[int, int] | None) -> None:
        ruleset = UNKNOWN if kill[2] is None else int(kill[2])
        self.kills.append(Kill(time_ns, ruleset, running[1] if running else UNKNOWN, f"/{kill[1]}"))
        self.plugins.append(kill[4])


def reason(log: str) -> str:
    """Returns oomd's last messages, without source locations and without the rules that oomd prints
    at its start.
    """
    said = [PLACE.sub("", it).strip() for it in log.splitlines()]
    messages = [
        line
        for line, raw in zip(said, log.splitlines())
        if line and "ConfigTypes.cpp" not in raw and "stats module" not in raw
    ]
    return "; ".join(messages[-3:])
