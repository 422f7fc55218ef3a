"""Makes random traces and random configurations of oomd."""
from __future__ import annotations

import random

from oomd.stories import GROWTH, MIB, SWAP, Config, plugin

SECOND = 10**9
HALF = SECOND // 2
NAMES = ("a", "b", "c", "web.service", ".h")
KINDS = ("sleep", "run", "stall", "iowait")


class Load:
    """Makes the trace of a machine whose state changes each 0.5 s. Each task has its own processor.
    """

    def __init__(self, draw: random.Random, length: int) -> None:
        self.draw, self.length, self.now = draw, length, 0
        self.lines: list[str] = []
        self.groups: list[str] = []
        self.homes: dict[int, str] = {}
        self.states: dict[int, str] = {}
        self.sizes: dict[str, list[int]] = {}
        self.swap = draw.choice((0, 64, 512, 3000)) * MIB
        self.put(f"host {draw.choice((256, 1024, 8192)) * MIB} {self.swap} {self.swap // 2}")
        for _ in range(draw.randint(2, 7)):
            self.make()
        self.processors = draw.randint(2, 6)
        for task in range(1, self.processors + 1):
            self.enter(task)

    def put(self, text: str) -> None:
        self.lines.append(f"{self.now} {text}")

    def make(self) -> None:
        """Creates a group, below the root or another group."""
        above = self.draw.choice(["", "", *(it for it in self.groups if it.count("/") < 3)])
        path = f"{above}/{self.draw.choice(NAMES)}"
        if path not in self.groups:
            self.groups.append(path)
            self.sizes[path] = [0, 0, 0]
            self.put(f"group {path}")

    def remove(self) -> None:
        """Removes a group without tasks and children, if one exists."""
        used = {*self.homes.values(), *(it.rpartition("/")[0] for it in self.groups)}
        free = [it for it in self.groups if it not in used]
        if free:
            path = self.draw.choice(free)
            self.groups.remove(path)
            self.put(f"rmgroup {path}")

    def enter(self, task: int) -> None:
        self.homes[task] = self.draw.choice(self.groups)
        self.states[task] = "sleep"
        self.put(f"fork {task} {self.homes[task]} {task - 1}")
        self.put(f"switch {task - 1} {task} idle")
        self.put(f"switch {task - 1} 0 sleep")

    def turn(self, task: int, state: str) -> None:
        """Changes the state of a task to `state`."""
        before, processor = self.states[task], task - 1
        if before == state:
            return
        if before in ("sleep", "iowait"):
            self.put(f"wake {task} {processor}")
            self.put(f"switch {processor} {task} idle")
        if before == "stall":
            self.put(f"unstall {task}")
        if state == "stall":
            self.put(f"stall {task}")
        if state in ("sleep", "iowait"):
            self.put(f"switch {processor} 0 {state}")
        self.states[task] = state

    def sample(self, path: str) -> None:
        """Writes a memory sample of a group. Its memory may grow or shrink, and its swap and its
        scanned pages may change.
        """
        size = self.sizes[path]
        factor = self.draw.choice((0.5, 0.9, 1.0, 1.0, 1.05, 1.3, 2.0))
        size[0] = int(size[0] * factor) + self.draw.choice((0, 0, 4096, MIB, 20 * MIB))
        size[0] = min(size[0], 300 * MIB)
        size[1] = self.draw.choice((size[1], size[1], 0, 5 * MIB, 40 * MIB, 4096))
        size[2] += self.draw.choice((0, 0, 0, 10, 500))
        self.put(f"mem {path} {' '.join(map(str, size))}")

    def step(self) -> None:
        for task in self.homes:
            if self.draw.random() < 0.4:
                weights = (3, 1, 5, 3) if self.draw.random() < 0.8 else (9, 1, 1, 1)
                self.turn(task, self.draw.choices(KINDS, weights)[0])
        for path in self.groups:
            if self.draw.random() < 0.3:
                self.sample(path)
        chance = self.draw.random()
        if chance < 0.03:
            self.make()
        elif chance < 0.06:
            self.remove()
        elif chance < 0.1:
            path, wish = self.draw.choice(self.groups), self.draw.choice(
                ("prefer", "avoid", "none")
            )
            self.put(f"prefer {path} {wish}")
        elif chance < 0.13:
            self.put(
                f"pressure {self.draw.choice(self.groups)} {self.draw.choice(('off', 'on', 'on'))}"
            )
        elif chance < 0.16:
            task = self.draw.choice(list(self.homes))
            self.homes[task] = self.draw.choice(self.groups)
            self.put(f"move {task} {self.homes[task]}")
        elif chance < 0.2:
            free = self.draw.randint(0, self.swap // 4096) * 4096
            memory = self.draw.choice((256, 1024, 8192)) * MIB
            self.put(f"host {memory} {self.swap} {free}")
            self.put(f"mem / {self.draw.randint(0, 400) * MIB} 0 {self.draw.randint(0, 9)}")

    def text(self) -> str:
        while self.now < self.length * SECOND:
            self.now += self.draw.choice((HALF, HALF, HALF // 3))
            self.step()
        return "\n".join([f"psitrace 2 cpus={self.processors}", *self.lines, f"{self.now} end\n"])


def some_patterns(draw: random.Random) -> str:
    one = ("*", "*/*", "a", "a/*", "*/b", "/", "nope", "a,b,*", "[ab]", "?", "w*.service/", "b/*,*",
           "{a}")
    return ",".join(draw.choices(one, k=draw.choice((1, 1, 2))))


def some_size(draw: random.Random) -> str:
    return draw.choice(("1", "0K 4096", "5M", "20M", "10%", "3%", "0.5G", "2M 512K", "0"))


def some_detector(draw: random.Random) -> Config:
    where, duration = some_patterns(draw), draw.choice((0, 0, 1, 3, 10))
    kind = draw.randrange(9)
    pressure = {
        "resource": draw.choice(("io", "memory")), "threshold": draw.choice((0, 1, 5, 20, 40))
    }
    if kind < 3:
        return plugin("pressure_above", where, **pressure, duration=duration)
    if kind < 4:
        ratio = {} if draw.random() < 0.5 else {"fast_fall_ratio": draw.choice(("0.5", "1", ".95"))}
        return plugin("pressure_rising_beyond", where, **pressure, duration=duration, **ratio)
    if kind < 5:
        return plugin("memory_above", where, threshold=some_size(draw), duration=duration)
    if kind < 6:
        return plugin("memory_reclaim", where, duration=duration)
    if kind < 7:
        return plugin("swap_free", threshold_pct=draw.choice((5, 30, 60)))
    if kind < 8:
        return plugin("exists", where, negate=draw.choice(("true", "false", "0")))
    return draw.choice(
        (plugin("continue"), plugin("nr_dying_descendants", where, count=draw.randrange(2)))
    )


def some_action(draw: random.Random) -> Config:
    name = draw.choice((GROWTH, GROWTH, SWAP, "kill_by_pressure", "kill_by_pg_scan"))
    args: dict[str, object] = {}
    if name == GROWTH and draw.random() < 0.7:
        args["size_threshold"] = draw.choice((10, 50, 70, 100))
        args["growing_size_percentile"] = draw.choice((0, 30, 80, 99))
        args["min_growth_ratio"] = draw.choice(("1", "1.25", "2"))
    if name == SWAP and draw.random() < 0.7:
        args["threshold"] = some_size(draw)
    if name == "kill_by_pressure":
        args["resource"] = draw.choice(("io", "memory"))
    for key, value, chance in (
        ("recursive", "true", 0.3),
        ("always_continue", "1", 0.15),
        ("post_action_delay", draw.choice((0, 1, 2, 5)), 0.7),
    ):
        if draw.random() < chance:
            args[key] = value
    return plugin(name, some_patterns(draw), **args)


def some_config(draw: random.Random) -> Config:
    """Returns a configuration with one to three random rulesets."""
    found = []
    for number in range(draw.choice((1, 1, 2, 3))):
        groups = [
            [f"g{at}", *(some_detector(draw) for _ in range(draw.choice((1, 1, 2))))]
            for at in range(draw.choice((1, 1, 2)))
        ]
        actions = [some_action(draw) for _ in range(draw.choice((1, 1, 2, 3)))]
        if draw.random() < 0.1:
            actions.insert(draw.randrange(len(actions) + 1),
                           plugin(draw.choice(("stop", "continue"))))
        more = {"post_action_delay": str(draw.choice((0, 3, 8)))} if draw.random() < 0.5 else {}
        found.append({"name": f"r{number}", "detectors": groups, "actions": actions, **more})
    return {"rulesets": found}
