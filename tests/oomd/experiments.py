"""Defines 58 small experiments, each about one property of oomd's rules. The expected kills are
those of Debian's oomd 0.5.0, and those of psi_oomd for the same file with ticks of 1 s.
"""
from __future__ import annotations

from dataclasses import dataclass
from typing import Any

from oomd.stories import (
    ALWAYS,
    GIB,
    GROWTH,
    MIB,
    SWAP,
    Config,
    Story,
    plugin,
    rules,
    ruleset,
)

CRASH = "crash"


@dataclass(frozen=True)
class Experiment:
    """A short trace and a configuration. `oomd` and `rules` are the kills of oomd and of psi_oomd.
    A kill is a time and a path, such as `4s:/a`. The numbers of its ruleset and action follow, such
    as `(r1a0)`, unless both are 0. `refused` means that psi_oomd rejects the configuration.
    """

    name: str
    story: Story
    end: float
    config: Config
    oomd: str
    rules: str
    interval: int = 1
    given: tuple[str, ...] = ()
    warm: int = 0
    uptime: int | None = None


FOUND: list[Experiment] = []


def add(name: str, story: Story, end: float, config: Config, oomd: str, rules: str | None = None,
        **more: Any) -> None:
    """Adds an experiment that lasts `end` s. If `rules` is omitted, psi_oomd must have the same
    kills as oomd.
    """
    wanted = oomd if rules is None else rules
    FOUND.append(Experiment(name, story, end, config, oomd, wanted, **more))


def grow(cgroup: str, delay: int = 600, **more: object) -> Config:
    return plugin(GROWTH, cgroup, **more, post_action_delay=delay)


def above(cgroup: str, threshold: object, duration: object = 0) -> list[Config]:
    """Returns a detector group that holds if memory pressure is above `threshold` percent for
    `duration` s.
    """
    return [
        plugin("pressure_above", cgroup, resource="memory", threshold=threshold, duration=duration)
    ]


def uses(cgroup: str, threshold: str, duration: object = 0, **more: object) -> list[Config]:
    return [plugin("memory_above", cgroup, threshold=threshold, duration=duration, **more)]


def scans(cgroup: str, duration: int) -> list[Config]:
    return [plugin("memory_reclaim", cgroup, duration=duration)]


def one(group: str = "/a", host: str = "0 0 0") -> Story:
    """Returns a trace with one group, which has one task."""
    return Story(group, host=host).task(group)


def several(*sizes: tuple[str, int, int], host: str = "0 0 0") -> Story:
    """Returns a trace of groups with one task each, with their memory and swap (bytes)."""
    story = Story(*(path for path, _, _ in sizes), host=host)
    for path, memory, swap in sizes:
        story.task(path).mem(0, path, memory, swap)
    return story


def detectors() -> None:
    young = Story("/a", "/b").stalls("/a", 92, 100).stalls("/b", 0, 100, 0.5)
    add("one weighted group counts, not the greatest avg10", young, 100,
        rules(above("*", 52), grow("*")), "none", "100s:/a")
    half = one().put(0, "fork 2 /a 0").put(1, "wake 1 0").put(1, "switch 0 1 idle")
    half.put(1, "stall 1").put(1, "switch 0 2 iowait")
    add("the line full counts", half, 20, rules(above("a", 1), grow("a")), "none")
    add("two digits of avg10", Story("/a").stalls("/a", 0, 20, 0.2), 12,
        rules(above("a", 11), grow("a")), "10s:/a", "8s:/a")
    add("a duration's end is in it", Story("/a").stalls("/a", 0, 30), 12,
        rules(above("a", 10, 3), grow("a")), "5s:/a")
    rising = plugin("pressure_rising_beyond", "a", resource="memory", threshold=5, duration=0)
    add("rising pressure at the first look", Story("/a").stalls("/a", 0, 30), 30,
        rules([rising], grow("a")), "20s:/a", "10s:/a", interval=10)
    add("scans of the past at the first look", one().mem(0, "/a", 100, 0, 5000), 20,
        rules(scans("a", 3), grow("a")), "1s:/a", "none")
    new = Story("/s").put(5.05, "group /s/n").task("/s/n", 5.06).mem(5.1, "/s/n", 100, 0, 5000)
    add("scans of a new group", new, 20, rules(scans("s/*", 0), grow("s/*")), "6s:/s/n", "none")


def memory_detectors() -> None:
    gone = Story("/s", "/s/a", "/s/b").task("/s/a").mem(0, "/s/b", 1, 0, 9000)
    gone.mem(0, "/s/a", 1, 0, 10).put(8.5, "rmgroup /s/b").mem(8.6, "/s/a", 1, 0, 500)
    add("a group that goes hides scans", gone, 20,
        rules(scans("s/*", 0), grow("s/*", 1)), "1s:/s/a", "9s:/s/a")
    add("the duration of scans", one().mem(0, "/a", 1).mem(4.5, "/a", 1, 0, 10), 20,
        rules(scans("a", 2), grow("a", 1)), "5s:/a 6s:/a 7s:/a")
    limit = one(host=f"{4 * GIB} 0 0").mem(0, "/a", 2 * GIB).mem(9.5, "/a", 2 * GIB + 1)
    add("memory at its limit isn't above it", limit, 20,
        rules(uses("a", "50%"), grow("a")), "10s:/a")
    swap = one(host=f"0 {GIB} {GIB // 4}").mem(0, "/a", 1, 5)
    swap.put(9.5, f"host 0 {GIB} {GIB // 4 - 4096}")
    add("free swap at its limit isn't below it", swap, 20,
        rules([plugin("swap_free", threshold_pct=25)], plugin(SWAP, "a", post_action_delay=600)),
        "10s:/a")
    there = [
        ruleset([it], grow("a", 4))
        for it in (plugin("exists", "n"), plugin("exists", "n", negate="true"))
    ]
    come = one().put(4.5, "group /n").put(9.5, "rmgroup /n")
    add("a group that comes and goes", come, 14, {"rulesets": there},
        "1s:/a(r1a0) 5s:/a 9s:/a 10s:/a(r1a0) 14s:/a(r1a0)")
    larger = one(host=f"{GIB} 0 0").put(5, f"host {8 * GIB} 0 0").mem(7.5, "/a", 2 * GIB)
    add("totals are read at the start", larger, 14, rules(uses("a", "50%"), grow("a")), "8s:/a",
        "none")
    add("scans at boot", one(), 20, rules(scans("a", 10), grow("a", 2)), "1s:/a 3s:/a 5s:/a",
        "none",
        uptime=5)


def victims() -> None:
    asked = several(("/a", 900 * MIB, 0), ("/b", 10 * MIB, 0), ("/c", MIB, 0))
    asked.put(0, "prefer /a avoid").put(4.5, "prefer /c prefer")
    add("preferences", asked, 10, rules(ALWAYS, grow("*", 4)), "1s:/b 5s:/c 9s:/c")
    equal = Story("/c", "/b", "/a")
    for path in ("/a", "/b", "/c"):
        equal.task(path).mem(0, path, 1, 50)
    add("equal ranks", equal, 1, rules(ALWAYS, plugin(SWAP, "*", post_action_delay=600)), "1s:/c",
        "1s:/a")
    empty = Story("/a", "/b", "/e").task("/a").task("/b").mem(0, "/a", 40 * MIB)
    empty.mem(0, "/b", 15 * MIB).mem(0, "/e", 70 * MIB).mem(29.5, "/b", 30 * MIB)
    add("empty groups count in the sum", empty, 31,
        rules(ALWAYS, grow("*", 29, growing_size_percentile=1)), "1s:/a 30s:/b", "1s:/a 30s:/a")
    add("nothing to kill: the next action", Story("/a", "/e").task("/a").mem(0, "/a", 1, 9), 2,
        rules(ALWAYS, plugin(GROWTH, "e"), plugin(SWAP, "*", post_action_delay=60)), "1s:/a(r0a1)")
    pressure = plugin("kill_by_pressure", "*", resource="memory", post_action_delay=60)
    add("no pressure at all", one(), 2, rules(ALWAYS, pressure), "1s:/a", "none")
    near = (
        Story("/a", "/b").stalls("/a", 0, 30, 0.5).stalls("/b", 0, 2, 0.6).stalls("/b", 2, 30, 0.5)
    )
    add("whole percents of pressure", near, 30, rules(ALWAYS, pressure), "30s:/a", "30s:/b",
        interval=30)
    scanning = one().mem(0, "/a", 1).mem(4.5, "/a", 1, 0, 100)
    scan = plugin("kill_by_pg_scan", "a", post_action_delay=60)
    add("scans wait for a second look", scanning.mem(5.5, "/a", 1, 0, 200), 9,
        rules(scans("a", 0), scan), "6s:/a", "5s:/a")
    add("no scan at all", one(), 4, rules(ALWAYS, scan), "2s:/a", "none")
    lapsed = one().mem(0, "/a", 1).mem(4.5, "/a", 1, 0, 100).mem(9.5, "/a", 1, 0, 300)
    add("a second look after the detectors lapsed", lapsed.mem(14.5, "/a", 1, 0, 500), 20,
        rules(scans("a", 0), scan, post_action_delay=3), "6s:/a 11s:/a 16s:/a", "5s:/a")


def victims_that_are_made_again() -> None:
    remade = Story("/s", "/s/a").task("/s").mem(0, "/s/a", 1, 0, 500).put(4.5, "rmgroup /s/a")
    remade.put(4.6, "group /s/a").task("/s/a", 4.7).mem(4.8, "/s/a", 1, 0, 100)
    remade.mem(7.5, "/s/a", 1, 0, 700)
    add("a group that is made again is new", remade, 12,
        rules(
            [plugin("exists", "s/a"), *scans("s/a", 0)],
            plugin("kill_by_pg_scan", "s/a", post_action_delay=1),
        ),
        "9s:/s/a", "8s:/s/a")
    root = Story("/a", host=f"{1000 * MIB} 0 0").task("/").task("/a").mem(0, "/a", 100 * MIB)
    add("the root by size", root.mem(0, "/", 800 * MIB), 1, rules(ALWAYS, grow("/,a", 60)), "1s:/a",
        "1s:/")
    swapped = Story("/a").task("/").task("/a").mem(0, "/", 1, 80 * MIB).mem(0, "/a", 1, 10 * MIB)
    add("the root by swap", swapped, 1,
        rules(ALWAYS, plugin(SWAP, "/,a", post_action_delay=60)), "1s:/a", "1s:/")


def growth() -> None:
    add("protected memory", several(("/a", 900 * MIB, 0), ("/b", 300 * MIB, 0)), 2,
        rules(ALWAYS, grow("*", 60, size_threshold=10)), "1s:/b", "1s:/a",
        given=(f"/a/memory.low={850 * MIB}",))
    shares = several(("/a", 50 * MIB, 0), ("/b", 25 * MIB, 0), ("/c", 25 * MIB, 0))
    add("half of the sum is enough", shares, 1, rules(ALWAYS, grow("*")), "1s:/a")
    steady = (("/a", 40 * MIB, 0), ("/b", 31 * MIB, 0), ("/c", 28 * MIB, 0))
    any_growth = grow("*", 0, growing_size_percentile=0)
    late = " ".join(f"{at}s:/a" for at in range(1, 9))
    add("growth at the first looks", several(*steady).mem(2.5, "/b", 32 * MIB), 8,
        rules(ALWAYS, any_growth), "1s:/a 2s:/a 3s:/b 4s:/b 5s:/b 6s:/a 7s:/a 8s:/a", late)
    add("growth after looks before the start", several(*steady).mem(2.5, "/b", 32 * MIB), 8,
        rules(uses("b", "31.5M"), any_growth), late[late.index("3s") :], warm=20)
    leap = several(("/a", 40 * MIB, 0), ("/b", 20 * MIB, 0), ("/c", 35 * MIB, 0))
    add("a decaying average", leap.mem(29.5, "/b", 30 * MIB), 36,
        rules(uses("b", "29M"), any_growth),
        "30s:/b 31s:/a 32s:/a 33s:/a 34s:/a 35s:/a 36s:/a",
        "30s:/b 31s:/b 32s:/a 33s:/a 34s:/a 35s:/a 36s:/a")
    add("percentile 100", several(("/a", 4 * MIB, 0), ("/b", 5 * MIB, 0)), 3,
        rules(ALWAYS, grow("*", 60, growing_size_percentile=100, size_threshold=99)), CRASH,
        "1s:/b")
    small = several(("/a", 40 * MIB, 0), ("/b", 20 * MIB, 0), ("/c", 35 * MIB, 0))
    add("a ratio is read as a whole number", small.mem(29.5, "/b", 22 * MIB), 31,
        rules(uses("b", "21M"), grow("*", 60, growing_size_percentile=0, min_growth_ratio="1.25")),
        "30s:/b", "30s:/a")
    twice = several(("/a", 55 * MIB, 0), ("/b", 45 * MIB, 0))
    add("a group in two patterns counts once", twice, 1,
        rules(ALWAYS, grow("a,a,*", 60, size_threshold=60)), "1s:/a")


def below() -> None:
    deep = Story("/s", "/s/a", "/s/a/e", "/s/b").task("/s/a").task("/s/b").mem(0, "/s/a", 90 * MIB)
    down = grow("s", 60, recursive="true")
    add("a group with children isn't killed", deep.mem(0, "/s/b", 5 * MIB).mem(0, "/s", 95 * MIB),
        1,
        rules(ALWAYS, down), "1s:/s/b", "1s:/s/a")
    whole = Story("/s", "/s/a", "/s/a/x").task("/s/a/x")
    for path in ("/s", "/s/a", "/s/a/x"):
        whole.mem(0, path, 9 * MIB)
    add("a group that ends as a whole", whole, 1, rules(ALWAYS, down), "1s:/s/a", "1s:/s/a/x",
        given=("/s/a/memory.oom.group=1",))
    parts = Story("/s", "/s/a", "/s/b").task("/s/a").task("/s/b").mem(0, "/s", 1, 100 * MIB)
    action = plugin(SWAP, "s", threshold="80M", recursive="true", post_action_delay=60)
    add("a threshold holds at each level",
        parts.mem(0, "/s/a", 1, 40 * MIB).mem(0, "/s/b", 1, 60 * MIB), 1,
        rules(ALWAYS, action), "none", "1s:/s")


def pauses() -> None:
    go_on = {"always_continue": "true"}
    both = rules(ALWAYS, plugin(GROWTH, "a", **go_on), plugin(SWAP, "*", **go_on))
    add("actions that always continue", several(("/a", 5, 1), ("/b", 4, 9)), 2, both,
        "1s:/a 1s:/b(r0a1) 2s:/a 2s:/b(r0a1)")
    add("a pause's end isn't in it", one(), 10, rules(ALWAYS, grow("a", 3)),
        "1s:/a 4s:/a 7s:/a 10s:/a")
    plain = plugin(GROWTH, "a")
    two = {"rulesets": [ruleset(ALWAYS, plain, post_action_delay="7"), ruleset(ALWAYS, plain)]}
    add("the ruleset's pause, and 15 s", one(), 32, two,
        "1s:/a 1s:/a(r1a0) 8s:/a 15s:/a 16s:/a(r1a0) 22s:/a 29s:/a 31s:/a(r1a0)")
    add("detectors look during a pause", Story("/a").stalls("/a", 0, 40), 20,
        rules(above("a", 10, 4), grow("a", 3)), "6s:/a 9s:/a 12s:/a 15s:/a 18s:/a")
    add("two rulesets at one look", several(("/a", 5, 5)), 1,
        {"rulesets": [ruleset(ALWAYS, plain), ruleset(ALWAYS, plugin(SWAP, "a"))]},
        "1s:/a 1s:/a(r1a0)")


def spellings() -> None:
    fifty = several(("/a", 50 * MIB, 0))
    add("a size without a letter", fifty, 2, rules(uses("a", "100"), grow("a", 60)), "none",
        "1s:/a")
    add("a swap threshold of 1", several(("/a", 1, 4096)), 2,
        rules(ALWAYS, plugin(SWAP, "a", threshold="1", post_action_delay=60)), "none", "1s:/a")
    add("threshold_anon comes first", fifty, 2,
        rules(uses("a", "1M", threshold_anon="100M"), grow("a", 60)), "none", "1s:/a")
    add("a duration with a letter", fifty, 6, rules(uses("a", "1M", "3s"), grow("a", 60)), "4s:/a",
        "refused")
    inner = several(("/s", 0, 0), ("/s/a", 50 * MIB, 0))
    add("a slash at the end", inner, 2, rules(ALWAYS, grow("s/", 60, recursive="true")), "1s:/s/a",
        "refused")
    add("a negative threshold and no group", one(), 2,
        rules(above("nope", "-1"), grow("a", 60)), "1s:/a", "refused")
    hidden = several(("/s", 0, 0), ("/s/.h", 50 * MIB, 0), ("/s/b", MIB, 0))
    add("a name that begins with a point", hidden, 1, rules(ALWAYS, grow("s/*", 60)), "1s:/s/b",
        "1s:/s/.h")
    escaped = Story("/m", r"/m/qemu\x2d1.scope").task(r"/m/qemu\x2d1.scope")
    add("an escaped name", escaped, 1, rules(ALWAYS, grow(r"m/qemu\x2d1.scope", 60)), "none",
        r"1s:/m/qemu\x2d1.scope")
    add("an escaped name by a pattern", escaped, 1, rules(ALWAYS, grow("m/qemu*", 60)),
        r"1s:/m/qemu\x2d1.scope")


def swap_totals() -> None:
    action = plugin(SWAP, "a", threshold="5%", post_action_delay=60)
    six = several(("/a", 1, 200 * MIB), host=f"{8 * GIB} {6 * GIB} 0")
    add("5 % of 6 GiB of swap, of which 200 MiB are used", six, 2, rules(ALWAYS, action), "1s:/a",
        "none")
    for gib in (1, 2, 3, 4, 5, 8):
        story = several(("/a", 1, 0), host=f"{8 * GIB} {gib * GIB} 0")
        wanted = "none" if gib in (1, 5) else "1s:/a"
        add(f"5 % of {gib} GiB of swap, of which nothing is used", story, 1, rules(ALWAYS, action),
            wanted, "none")


for part in (
    detectors, memory_detectors, victims, victims_that_are_made_again, growth, below, pauses,
    spellings, swap_totals,
):
    part()
