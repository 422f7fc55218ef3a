"""Checks the rule of systemd-oomd about memory pressure."""
from __future__ import annotations

from harness import must, must_be
from shared.rooms import Room
from systemd.slices import (
    OOMD, SECOND, SLICE, A, B, C, UNITS, WATCHED, NO_OWNER, Leaf, Trace, put, decisions, stalled,
)


def check_defaults(room: Room) -> None:
    """By default, systemd-oomd kills after 30 s above 60 percent. The victim is the group that
    reclaims most, even if another group waits.
    """
    must_be("the kill", decisions(room, stalled(), WATCHED), [(40, B)])
    note = (
        "no group of the trace is watched: no unit of the settings with `kill` is one of its groups"
    )
    auto = {f"{UNITS}/s.slice": "[Slice]\nManagedOOMMemoryPressure=auto\n"}
    must_be("nobody is watched by auto", decisions(room, stalled(), auto, said=note), [])


def check_limits(room: Room) -> None:
    """The limits come from oomd.conf, and a unit's own settings have priority."""
    conf = {
        "etc/systemd/oomd.conf": (
            "[OOM]\nDefaultMemoryPressureLimit=40%\nDefaultMemoryPressureDurationSec=10s\n"
        )
    }
    must_be("by oomd.conf", decisions(room, stalled(20), {**WATCHED, **conf}), [(16, B)])
    unit = WATCHED[f"{UNITS}/s.slice"] + "ManagedOOMMemoryPressureLimit=80%\n"
    must_be("the unit's limit", decisions(room, stalled(30), {**conf, f"{UNITS}/s.slice": unit}),
            [(28, B)])
    unit += "ManagedOOMMemoryPressureDurationSec=1min\n"
    must_be("the unit's duration", decisions(room, stalled(80), {**conf, f"{UNITS}/s.slice": unit}),
            [(78, B)])
    note = (
        "settings/etc/systemd/system/s.slice line 4: ManagedOOMMemoryPressureDurationSec means "
        "nothing before systemd 257"
    )
    must_be("in 252 a unit has none", decisions(room, stalled(30), {}, 252, note), [(28, B)])
    unit = WATCHED[f"{UNITS}/s.slice"] + "ManagedOOMMemoryPressureLimit=0%\n"
    must_be("0% is the default", decisions(room, stalled(20), {f"{UNITS}/s.slice": unit}),
            [(16, B)])
    zero = {
        "etc/systemd/oomd.conf": (
            "[OOM]\nDefaultMemoryPressureLimit=40%\nDefaultMemoryPressureDurationSec=0\n"
        )
    }
    must_be("0 s is 30 s", decisions(room, stalled(40), zero), [(36, B)])


def check_memory_decides_after_scans(room: Room) -> None:
    trace = stalled(45, a=Leaf(3000, 0, 20, ((0, 45),)), b=Leaf(4000, 0, 20), c=Leaf(9000, 0, 5))
    must_be("of equal scans the larger", decisions(room, trace, WATCHED), [(40, B)])


def check_a_duration_without_break(room: Room) -> None:
    """Only uninterrupted time above the limit counts. The group waits until 30 s, its avg10 falls
    below 60 percent soon after, and it waits again from 40 s on.
    """
    trace = stalled(90, a=Leaf(3000, 0, 10, ((0, 30), (40, 90))))
    (time_s, victim), = decisions(room, trace, WATCHED)
    must(75 < time_s < 80 and victim == B, f"30 s after the second time above: {time_s}, {victim}")


def check_reclaim(room: Room) -> None:
    """If no memory was reclaimed for 30 s, systemd-oomd kills nothing."""
    quiet = stalled(90, a=Leaf(3000, 0, 0, ((0, 90),)), b=Leaf(), c=Leaf())
    must_be("nothing was scanned", decisions(room, quiet, WATCHED), [(40, None)])
    quiet.extra = [(20, f"mem {C} 1000 0 7"), *((at, f"mem {C} 1000 0 7") for at in range(21, 90))]
    must_be("it was at 20 s", decisions(room, quiet, WATCHED)[:1], [(40, A)])
    quiet.extra = [(at, f"mem {C} 1000 0 7") for at in range(50, 90)]
    must_be("it is at 50 s", decisions(room, quiet, WATCHED)[:2], [(40, None), (50, C)])


def check_the_pause(room: Room) -> None:
    """After a kill for memory pressure, systemd-oomd kills nothing for 15 s, in all groups."""
    leaves = {A: Leaf(1000, 0, 10, ((0, 80),)), "/t.slice/d.service": Leaf(1000, 0, 10, ((2, 80),))}
    watched = {f"{UNITS}/{it}.slice": WATCHED[f"{UNITS}/s.slice"] for it in "st"}
    found = decisions(room, Trace(69, leaves), watched)
    must_be("the second group waits for 15 s", [it[0] for it in found], [40, 55])
    must(found[0][1] == A, f"the first above its limit comes first: {found}")


def check_wishes(room: Room) -> None:
    """A group with the preference `avoid` is killed only if no other candidate exists. A group with
    `omit` is never killed.
    """
    wish = "[Service]\nManagedOOMPreference={}\n"
    avoid = {f"{UNITS}/b.service.d/x.conf": wish.format("avoid")}
    must_be("b is avoided", decisions(room, stalled(), {**WATCHED, **avoid}), [(40, A)])
    all_avoided = {f"{UNITS}/{it}.service.d/x.conf": wish.format("avoid") for it in "abc"}
    must_be("all are avoided", decisions(room, stalled(), all_avoided), [(40, B)])
    omitted = {f"{UNITS}/{it}.service.d/x.conf": wish.format("omit") for it in "ab"}
    must_be("a and b are omitted, c is avoided", decisions(room, stalled(), omitted), [(40, C)])
    must_be("all are omitted",
            decisions(room, stalled(), {f"{UNITS}/c.service.d/x.conf": wish.format("omit")}),
            [(40, None)])
    trace = stalled()
    trace.extra = [(0, f"prefer {B} avoid")]
    put(room, {f"{UNITS}/{it}.service.d/x.conf": "" for it in "abc"})
    must_be("the trace says avoid", decisions(room, trace, {}), [(40, A)])


def check_whose_wishes_count(room: Room) -> None:
    """For memory pressure, a group's preference counts only if root or the owner of the watched
    group owns the group. For swap, it counts only if root owns the group.
    """
    for watched, of_group, victim in (
        (0, 1000, B), (1000, 1000, A), (0, 0, A), (1000, 0, A), (1000, 1001, B)
    ):
        lines = [
            f"{SLICE} uid={watched} oom_group=0 avoid=0 omit=0",
            f"{B} uid={of_group} oom_group=0 avoid=1 omit=0",
        ]
        groups = "\n".join([*lines, f"{A} {NO_OWNER}", f"{C} {NO_OWNER}", ""])
        found = decisions(room, stalled(), {**WATCHED, "groups": groups})
        must_be(f"watched is {watched}'s, avoided {of_group}'s", found, [(40, victim)])
    swap = Trace(4, {A: Leaf(900, 400), B: Leaf(50, 500)},
                 [(1, "host 1000 1000 50"), (1, "mem / 950 950 0")])
    for owner, victim in ((0, A), (1000, B)):
        groups = f"{B} uid={owner} oom_group=0 avoid=1 omit=0\n{A} {NO_OWNER}\n"
        found = decisions(room, swap,
                          {f"{UNITS}/s.slice": "[Slice]\nManagedOOMSwap=kill\n", "groups": groups})
        must(found and found[0][1] == victim,
             f"of swap root's wishes alone count: {owner}, {found}")


def check_who_is_a_candidate(room: Room) -> None:
    """Candidates are groups without children and groups that are killed as a whole."""
    inner = f"{SLICE}/pod.service"
    leaves = {
        A: Leaf(1000, 0, 9, ((0, 45),)), f"{inner}/x": Leaf(1000, 0, 6),
        f"{inner}/y": Leaf(1000, 0, 6),
    }
    trace = Trace(45, leaves)
    must_be("the leaf", decisions(room, trace, WATCHED), [(40, A)])
    whole = {f"{UNITS}/pod.service": "[Service]\nOOMPolicy=kill\n"}
    must_be("12 pages as a whole", decisions(room, trace, {**WATCHED, **whole}), [(40, inner)])
    recorded = {"groups": f"{inner} uid=0 oom_group=0 avoid=0 omit=0\n"}
    must_be("the group's own file counts", decisions(room, trace, {**WATCHED, **whole, **recorded}),
            [(40, A)])
    service = Trace(45, {A: Leaf(1000, 0, 9, ((0, 45),)), B: Leaf(1000, 0, 99)})
    put(
        room,
        {
            f"{UNITS}/s.slice": "",
            f"{UNITS}/a.service": "[Service]\nManagedOOMMemoryPressure=kill\n",
        },
    )
    must_be("a watched leaf is its own candidate, and nobody else", decisions(room, service, {}),
            [(40, A)])


def check_a_group_that_becomes_a_leaf(room: Room) -> None:
    """B loses its last child between the evaluations at 5 and 6 s. At 6 s all of B's scanned pages
    since its creation count, and from 7 s on only their increase. Both groups stall from 0 s, so
    the average exceeds the limit at 2 s, and the kill is 4 s later.
    """
    files = {
        f"{UNITS}/s.slice": (
            f"{WATCHED[f'{UNITS}/s.slice']}ManagedOOMMemoryPressureLimit=0.1%\n"
            "ManagedOOMMemoryPressureDurationSec=4s\n"
        )
    }
    for gone, scans, victim in ((5.5, 9, B), (4.5, 9, A), (4.5, 20, B)):
        trace = Trace(8, {A: Leaf(1000, 0, 10, ((0, 8),)), B: Leaf(1000, 0, scans, ((0, 8),))})
        inner = f"{B}/sub"
        trace.extra = [
            (0, f"group {inner}"), (0, f"fork 9 {inner} 0"), (gone, f"move 9 {B}"),
            (gone, f"rmgroup {inner}"),
        ]
        must_be(f"gone at {gone} s, with {scans} pages a second", decisions(room, trace, files),
                [(6, victim)])


def check_where_nothing_runs(room: Room) -> None:
    """A group without a task may be chosen like other groups. Then nothing is killed, but the time
    of 15 s without kills begins.
    """
    trace = stalled(69)
    trace.extra = [
        (0, f"group {SLICE}/d.service"),
        *((at, f"mem {SLICE}/d.service 5000 0 {99 * at}") for at in range(69)),
    ]
    must_be("nobody", decisions(room, trace, WATCHED), [(40, None), (55, None)])


def check_accounts(room: Room) -> None:
    """If a group's pressure accounting is off, it has no pressure file. So it is neither watched
    nor killed.
    """
    off = stalled()
    off.extra = [(1, f"pressure {B} off")]
    must_be("b can't be read", decisions(room, off, WATCHED), [(40, A)])
    off.extra = [(5, f"pressure {SLICE} off"), (6, f"pressure {SLICE} on")]
    must_be("the slice isn't watched any more", decisions(room, off, WATCHED)[:1], [])


def check_the_root(room: Room) -> None:
    """systemd-oomd doesn't read the number of pages that the root scanned, so memory pressure of
    -.slice causes no kill.
    """
    note = (
        "/ is watched for memory pressure, by which systemd-oomd never kills: it doesn't look at "
        "the root's scans"
    )
    files = {f"{UNITS}/-.slice": "[Slice]\nManagedOOMMemoryPressure=kill\n"}
    must_be("nobody", decisions(room, stalled(), files, said=note), [(40, None)])


def check_samples_that_are_far_apart(room: Room) -> None:
    """In a second without a new sample, the number of scanned pages in the previous sample counts.
    """
    trace = Trace(45, {A: Leaf(stalls=((0, 45),)), B: Leaf(9000)})
    apart = [line for line in trace.text().splitlines() if " mem " not in line]
    groups = ((A, 1, 9), (B, 9, 3))
    samples = [
        (at * SECOND, f"mem {path} {memory} 0 {scans * at}")
        for at in range(0, 45, 15)
        for path, memory, scans in groups
    ]
    parts = [(int(line.split()[0]), line.partition(" ")[2]) for line in apart[1:-1]]
    lines = [f"{at} {line}" for at, line in sorted([*parts, *samples], key=lambda it: it[0])]
    put(room, WATCHED)
    room.file("t.trace", "\n".join([apart[0], *lines, apart[-1], ""]))
    done = room.run(OOMD, "t.trace", "--settings", "settings")
    must("40 s  would kill /s.slice/a.service\n" in done.output, f"the one that scans more: {done}")
    must("chosen: scanned 135 pages in 15 s" in done.output,
         f"between the samples at 15 and 30 s: {done.output}")
