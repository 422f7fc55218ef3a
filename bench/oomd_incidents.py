"""Generates traces of memory and IO incidents on machines with systemd, and typical rules files,
for bench/oomd_differences.py. A seed always gives the same incident.
"""
from __future__ import annotations

import json
import random
from dataclasses import dataclass, field

MS, SECOND = 10**6, 10**9
MIB, GIB = 1 << 20, 1 << 30
SERVICES = (
    "/system.slice/web.service", "/system.slice/db.service", "/system.slice/cache.service",
    "/system.slice/log.service", "/user.slice/user-1000.slice/session-1.scope",
    "/user.slice/user-1000.slice/user@1000.service/app.slice", "/batch.slice/import.service",
    "/batch.slice/index.service",
)  # fmt: skip
KINDS = {"leak": 1, "burst": 3, "swap": 1, "io": 1, "quiet": 0, "two": 2}
"""The number of misbehaving services in each kind of incident."""
KILLED = (
    "system.slice/*,user.slice/user-*.slice/session-*.scope,user.slice/user-*.slice/user@*.service/"
    "*,batch.slice/*"
)
PLACES = (KILLED, "system.slice/*", "batch.slice/*,system.slice/*",
          "system.slice/*,user.slice,batch.slice")
WATCHED = ("system.slice", "user.slice", "batch.slice", "system.slice/*",
           "system.slice,batch.slice,user.slice", "/")
Rules = dict[str, object]


def parents(service: str) -> list[str]:
    parts = service[1:].split("/")
    return ["/" + "/".join(parts[:count]) for count in range(1, len(parts) + 1)]


@dataclass
class Incident:
    """A machine on which some services misbehave after a while. Each task has its own processor."""

    draw: random.Random
    kind: str
    length: int
    lines: list[tuple[int, int, str]] = field(default_factory=list)
    states: dict[int, str] = field(default_factory=dict)
    homes: dict[int, str] = field(default_factory=dict)

    def put(self, at: int, text: str) -> None:
        """Adds the line `text` at the time `at` (ns)."""
        self.lines.append((at, len(self.lines), text))

    def start(self) -> None:
        """Chooses the sizes of the machine and the services that will misbehave, and writes the
        lines that create groups and tasks.
        """
        draw = self.draw
        self.memory = draw.choice((2, 4, 8)) * GIB
        self.swap = draw.choice((0, self.memory // 2, self.memory))
        self.services = draw.sample(SERVICES, draw.randint(4, len(SERVICES)))
        self.hogs = draw.sample(self.services, KINDS[self.kind])
        self.groups = list(
            dict.fromkeys(it for service in self.services for it in parents(service))
        )
        self.size = {
            it: int(draw.lognormvariate(0, 0.8) * self.memory / 14) for it in self.services
        }
        self.swapped = dict.fromkeys(self.services, 0)
        self.scanned = {it: draw.randint(0, 50000) for it in self.services}
        self.rate = {it: self.memory * draw.uniform(0.005, 0.03) for it in self.hogs}
        self.begin = draw.randint(15, 40)
        self.stop = self.length - draw.randint(0, 30)
        self.put(0, f"host {self.memory} {self.swap} {self.swap}")
        for group in self.groups:
            self.put(0, f"group {group}")
        tasks = [it for it in self.services for _ in range(draw.choice((1, 1, 2, 3)))]
        for task, service in enumerate(tasks, 1):
            self.homes[task], self.states[task] = service, "sleep"
            self.put(0, f"fork {task} {service} {task - 1}")
            self.put(0, f"switch {task - 1} {task} idle")
            self.put(0, f"switch {task - 1} 0 sleep")

    def grow(self, second: int) -> float:
        """Advances the memory use of all services by one second. Returns the shortage of memory,
        from 0 (none) to 1.
        """
        draw = self.draw
        for it in self.services:
            self.size[it] = max(4 * MIB, int(self.size[it] * draw.uniform(0.99, 1.01)))
        if self.kind not in ("io", "quiet") and self.begin <= second < self.stop:
            for it in self.hogs:
                self.size[it] += int(self.rate[it] * draw.uniform(0.5, 1.5))
        used = sum(self.size.values())
        excess = max(0, used - int(self.memory * 0.9))
        for it in self.services if excess else ():
            part = int(excess * self.size[it] / used)
            out = min(part // 2, self.swap - sum(self.swapped.values()))
            self.size[it] -= part if self.swap else part // 2
            self.swapped[it] += max(0, out)
            self.scanned[it] += part // 4096 * draw.randint(1, 4)
        return min(1.0, excess / (self.memory * 0.03))

    def sample(self, second: int) -> None:
        """Writes the memory samples at the start of the second number `second`. A group's size
        includes the sizes of its descendants.
        """
        at = second * SECOND
        for group in ("/", *self.groups):
            inside = [
                it for it in self.services if group == "/" or f"{it}/".startswith(f"{group}/")
            ]
            sums = (
                sum(it[name] for name in inside) for it in (self.size, self.swapped, self.scanned)
            )
            self.put(at, f"mem {group} {' '.join(map(str, sums))}")
        self.put(at, f"host {self.memory} {self.swap} {self.swap - sum(self.swapped.values())}")

    def turn(self, at: int, task: int, state: str) -> None:
        """Changes the state of a task."""
        before, processor = self.states[task], task - 1
        if before == state:
            return
        if before in ("sleep", "iowait"):
            self.put(at, f"wake {task} {processor}")
            self.put(at, f"switch {processor} {task} idle")
        if before == "stall":
            self.put(at, f"unstall {task}")
        if state == "stall":
            self.put(at, f"stall {task}")
        if state in ("sleep", "iowait"):
            self.put(at, f"switch {processor} 0 {state}")
        self.states[task] = state

    def advance(self, second: int, shortage: float) -> None:
        """Changes the states of tasks during the second number `second`, in five steps of 200 ms.
        `shortage` is the shortage of memory, from 0 (none) to 1.
        """
        draw, is_storm = self.draw, self.kind == "io" and self.begin <= second < self.stop
        for step in range(5):
            at = second * SECOND + step * 200 * MS
            for task, home in self.homes.items():
                if draw.random() < 0.35:
                    continue
                is_hog = home in self.hogs
                waits = (0.8 if is_hog else 0.3) if is_storm else 0.05
                chance = draw.random()
                if draw.random() < shortage * (1.2 if is_hog else 0.6):
                    state = "stall"
                else:
                    state = (
                        "iowait" if chance < waits else "run" if chance < waits + 0.3 else "sleep"
                    )
                self.turn(at + draw.randint(0, 100) * MS + task, task, state)

    def text(self) -> str:
        self.start()
        for second in range(self.length):
            shortage = self.grow(second)
            self.sample(second)
            self.advance(second, shortage)
        last = max(self.length * SECOND, max(self.lines)[0])
        body = "".join(f"{at} {text}\n" for at, _, text in sorted(self.lines))
        return f"psitrace 1 cpus={len(self.homes)}\n{body}{last} end\n"


def incident(seed: int) -> str:
    """Returns the trace of the incident with this seed."""
    draw = random.Random(f"incident {seed}")
    return Incident(draw, draw.choice((*KINDS, "leak")), draw.choice((90, 150))).text()


def plugin(name: str, **args: object) -> Rules:
    return {"name": name, "args": {key: str(it) for key, it in args.items()}}


def debian(draw: random.Random) -> list[Rules]:
    """Returns the rulesets of Debian's rules file, except the first, with random thresholds."""
    share = draw.choice((1, 0.5, 0.25))
    groups = [
        [name,
         plugin(
             "pressure_above", cgroup=slice_, resource="memory", threshold=int(limit * share),
             duration=int(length * share),
         ),
         plugin("memory_reclaim", cgroup=slice_, duration=10)]
        for name, slice_, limit, length in (
            ("user", "user.slice", 60, 30), ("system", "system.slice", 80, 60)
        )
    ]  # fmt: skip
    swap = [["swap", plugin("swap_free", threshold_pct=10)]]
    return [
        {
            "name": "pressure", "detectors": groups,
            "actions": [plugin("kill_by_memory_size_or_growth", cgroup=KILLED)],
        },
        {
            "name": "swap", "detectors": swap,
            "actions": [plugin("kill_by_swap_usage", cgroup=KILLED)],
        },
    ]


def own(draw: random.Random) -> list[Rules]:
    """Returns a random ruleset that resembles those in common use."""
    resource, watched = draw.choice(("io", "memory", "memory", "memory")), draw.choice(WATCHED)
    pressure = {
        "cgroup": watched, "resource": resource, "threshold": draw.choice((5, 10, 20, 40, 60)),
        "duration": draw.choice((5, 10, 20)),
    }
    detectors = [
        draw.choice((
            plugin("pressure_above", **pressure), plugin("pressure_above", **pressure),
            plugin("pressure_rising_beyond", **pressure),
            plugin(
                "memory_above", cgroup=watched, threshold=draw.choice(("30%", "50%", "80%", "1G")),
                duration=draw.choice((5, 15)),
            ),
            plugin("swap_free", threshold_pct=draw.choice((10, 20, 50))),
        ))
    ]  # fmt: skip
    if draw.random() < 0.4:
        detectors.append(plugin("memory_reclaim", cgroup=watched, duration=10))
    growth = "kill_by_memory_size_or_growth"
    name = draw.choice(
        (growth, growth, growth, "kill_by_swap_usage", "kill_by_pressure", "kill_by_pg_scan")
    )
    more: dict[str, object] = {"resource": resource} if name == "kill_by_pressure" else {}
    if draw.random() < 0.2:
        more["recursive"] = "true"
    if draw.random() < 0.5:
        more["post_action_delay"] = draw.choice((5, 30, 60))
    action = plugin(name, cgroup=draw.choice(PLACES), **more)
    return [{"name": "own", "detectors": [["own", *detectors]], "actions": [action]}]


def usual_rules(seed: int) -> str:
    """Returns the random rules file with this seed. The file has the same meaning for psi_oomd and
    for oomd, as far as the file format allows.
    """
    draw = random.Random(f"rules {seed}")
    return json.dumps({"rulesets": draw.choice((debian, own, own, own))(draw)})
