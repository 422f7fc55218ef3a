"""Builds small traces and configurations for the checks of tools/oomd."""
from __future__ import annotations

import json
from typing import Any

SECOND = 10**9
MIB = 1 << 20
GIB = 1 << 30
GROWTH = "kill_by_memory_size_or_growth"
SWAP = "kill_by_swap_usage"
Config = dict[str, Any]


class Story:
    """A trace whose lines may be added in any order. Each task has its own processor."""

    def __init__(self, *groups: str, host: str = "0 0 0") -> None:
        self.lines: list[tuple[int, int, str]] = []
        self.tasks = 0
        self.put(0, f"host {host}")
        for group in groups:
            self.put(0, f"group {group}")

    def put(self, at: float, text: str) -> Story:
        """Adds a trace line at time `at` (s)."""
        self.lines.append((int(at * SECOND), len(self.lines), text))
        return self

    def task(self, group: str, at: float = 0) -> Story:
        """Adds a sleeping task to the group at time `at` (s)."""
        processor, self.tasks = self.tasks, self.tasks + 1
        self.put(at, f"fork {self.tasks} {group} {processor}")
        self.put(at, f"switch {processor} {self.tasks} idle")
        return self.put(at, f"switch {processor} 0 sleep")

    def stalls(self, group: str, begin: float, end: float, share: float = 1.0) -> Story:
        """Adds a task that stalls for memory from `begin` to `end` (s), for this share of each 2 s.
        """
        self.task(group)
        task, processor, at = self.tasks, self.tasks - 1, begin
        while at < end:
            stop = min(end, at + 2.0 * share)
            self.put(at, f"wake {task} {processor}").put(at, f"switch {processor} {task} idle")
            self.put(at, f"stall {task}").put(stop, f"unstall {task}")
            self.put(stop, f"switch {processor} 0 sleep")
            at += 2.0
        return self

    def mem(self, at: float, group: str, memory: int, swap: int = 0, scanned: int = 0) -> Story:
        return self.put(at, f"mem {group} {memory} {swap} {scanned}")

    def text(self, end: float) -> str:
        lines = sorted(it for it in self.lines if it[0] <= end * SECOND)
        body = "".join(f"{at} {text}\n" for at, _, text in lines)
        return f"psitrace 1 cpus={max(1, self.tasks)}\n{body}{int(end * SECOND)} end\n"


def plugin(name: str, cgroup: str | None = None, **args: object) -> Config:
    """Returns a plugin, with its arguments as strings."""
    found = {} if cgroup is None else {"cgroup": cgroup}
    return {"name": name, "args": {**found, **{key: str(it) for key, it in args.items()}}}


def ruleset(detectors: list[Config], *actions: Config, **more: object) -> Config:
    return {"name": "r", "detectors": [["g", *detectors]], "actions": list(actions), **more}


def rules(detectors: list[Config], *actions: Config, **more: object) -> Config:
    """Returns a configuration with one ruleset."""
    return {"rulesets": [ruleset(detectors, *actions, **more)]}


def written(config: Config) -> str:
    return json.dumps(config)


ALWAYS = [plugin("exists", "/")]
