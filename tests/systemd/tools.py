"""Checks the output of tools/systemd-oomd, and the commands of tools/rules that read its settings.
"""
from __future__ import annotations

import json

from harness import must, must_be
from shared.rooms import REFUSED, RUNAWAY, RUNAWAY_RULES, Done, Room
from systemd.slices import (
    EACH_SECOND,
    OOMD,
    RULES,
    STORY,
    SECOND,
    SLICE,
    A,
    B,
    C,
    UNITS,
    WATCHED,
    SWAPPED,
    Leaf,
    put,
    run_emulation,
    stalled,
    swap_trace,
)


def check_what_is_told(room: Room) -> None:
    wishes = {
        f"{UNITS}/{it}.service": f"[Service]\nManagedOOMPreference={wish}\n"
        for it, wish in (("c", "avoid"), ("d", "omit"))
    }
    put(room, {**WATCHED, **wishes})
    trace = stalled(41, d=Leaf(700, 0, 99))
    lines = run_emulation(room, trace).output.splitlines()
    must_be("the victim", lines[0], f"40 s  would kill {B}")
    must(
        lines[1].startswith("      memory pressure of /s.slice 98.")
        and lines[1].endswith(" % > 60 % for 30 s"),
        lines[1],
    )
    must_be("the others", lines[2:6], [
        "      chosen: scanned 20 pages in 1 s, memory 1000",
        f"      not {A}: scanned 10 pages in 1 s, memory 2.9K",
        f"      not {C}: scanned 5 pages in 1 s, memory 8.8K, avoid",
        f"      not {SLICE}/d.service: scanned 99 pages in 1 s, memory 700, omit",
    ])  # fmt: skip
    must(lines[6].startswith("watched for memory pressure: /s.slice: at most 98."), lines[6])
    must(lines[6].endswith(" %, at 40 s; limit 60 % for 30 s, above it for 31 s at most"), lines[6])


def check_many_others(room: Room) -> None:
    put(room, WATCHED)
    trace = stalled(41, **{f"x{number}": Leaf(100, 0, 0) for number in range(5)})
    must("      not 3 more, which --all shows\n" in run_emulation(room, trace).output,
         "the rest is counted")
    must_be("--all has each",
            run_emulation(room, trace, "--all").output.count("      not /s.slice/"), 7)


def check_the_story(room: Room) -> None:
    """With a limit of 50 percent for 20 s, systemd-oomd and equivalent rules of psi_oomd kill at
    the same times.
    """
    kills = [
        time_ns for time_ns, _, _, _ in room.kills(
            RUNAWAY, "--rules", room.file("r.json", story_rules()), *EACH_SECOND
        )
    ]
    found = json.loads(room.run(OOMD, RUNAWAY, "--settings", STORY, "--json").output)
    must_be("the moments", [it["moment_ns"] for it in found["decisions"]], kills)
    must_be("the victims", {it["victim"] for it in found["decisions"]}, {"/batch/import"})
    must(kills and kills[0] == 154 * SECOND, f"the first is at 154 s: {kills}")


def story_rules() -> str:
    """Returns rules that kill the largest of the watched groups in the example. The delay between
    kills is 15 s.
    """
    detectors = [
        {
            "name": "pressure_above",
            "args": {"cgroup": "batch", "resource": "memory", "threshold": "50", "duration": "20"},
        },
        {"name": "memory_reclaim", "args": {"cgroup": "batch/*", "duration": "30"}},
    ]
    action = {
        "name": "kill_by_memory_size_or_growth",
        "args": {"cgroup": "batch/*", "size_threshold": "0"},
    }
    return json.dumps(
        {"rulesets": [{"name": "batch", "detectors": [["short", *detectors]], "actions": [action]}]}
    )


def check_comparing(room: Room) -> None:
    done = room.run(OOMD, RUNAWAY, "--settings", STORY, "--compare", RUNAWAY_RULES)
    first, second = done.output.splitlines()[:2]
    killer = "ruleset 0 'batch work is short of memory', action 0 'kill_by_memory_size_or_growth'"
    must_be("oomd's rules", first, f"146 s  by {RUNAWAY_RULES}: would kill /batch/import, {killer}")
    must_be("systemd-oomd", second, "154 s  would kill /batch/import")
    must(f"first kill: the same victim, 8 s earlier by {RUNAWAY_RULES}\n" in done.output,
         done.output)
    record = json.loads(
        room.run(OOMD, RUNAWAY, "--settings", STORY, "--compare", RUNAWAY_RULES, "--json").output
    )["compared"]
    must_be("as JSON", [(it["moment_ns"], it["path"]) for it in record["kills"]],
            [(146 * SECOND, "/batch/import")])
    put(room, {**WATCHED})
    other = run_emulation(room, stalled(), "--compare", RUNAWAY_RULES)
    must("first kill: by systemd-oomd alone\n" in other.output, other.output)


def check_expectations(room: Room) -> None:
    want = (
        "first /batch/import from 150 to 160\nkill /batch/import by memory pressure\n"
        "no kill of /web\nno kill before 154\n"
    )
    room.file("want.txt", want)
    words = ("expect", "want.txt", RUNAWAY, "--by", "systemd-oomd", "--settings", STORY)
    done = room.run(RULES, *words)
    must_be("all holds", (done.status, done.output.count("ok    "), done.error), (0, 4, ""))
    must("killed at 154 s by systemd-oomd for memory pressure" in done.output, done.output)
    room.file("want.txt", "kill /batch/import by swap\nat most 1 kill\n")
    must_be("not by swap, and more than one", room.run(RULES, *words).output.count("FAIL  "), 2)
    with open(RUNAWAY, "rb") as trace:
        printed = room.run(RULES, *words[:2], "-", *words[3:], "--json", stdin=trace.read())
    record = json.loads(printed.output)
    must_be("who it was, as JSON", record["traces"][0]["kills"][0]["ruleset_name"],
            "memory pressure")
    for more, wrong in (
        (("--by", "systemd-oomd"),
         "--by systemd-oomd wants the settings of a machine: give --settings FOLDER"),
        (("--by", "systemd-oomd", "--settings", STORY, "--rules", "r"),
         "--rules, --tick-ms and --interval-s aren't for --by systemd-oomd"),
        (("--rules", "r", "--settings", STORY),
         "--settings and --systemd are for --by systemd-oomd"),
        ((), "the following arguments are required: --rules"),
    ):
        done = room.run(RULES, "expect", "want.txt", RUNAWAY, *more)
        must((done.status, done.output) == (2, "") and wrong in done.error, f"{more}: {done}")
    room.file("want.txt", "kill /a by reclaim\n")
    done = room.run(RULES, *words)
    must_be("there is no such cause", (done.status, "has no ruleset 'reclaim'" in done.error),
            (2, True))


def check_rules_of_settings(room: Room) -> None:
    """psi_oomd accepts the rules that from-systemd makes. They kill the groups that systemd-oomd
    would have killed.
    """
    done = room.run(RULES, "from-systemd", STORY)
    must_be("nothing is lost", (done.status, done.error), (0, ""))
    kills = room.kills(RUNAWAY, "--rules", room.file("r.json", done.output), *EACH_SECOND)
    must_be("the first", kills[0][::3], (154 * SECOND, "/batch/import"))
    must_be("lint finds nothing", room.run(RULES, "lint", "r.json").without_notes(),
            Done(0, "", ""))
    put(room, {**WATCHED, **SWAPPED})
    done = room.run(RULES, "from-systemd", "settings")
    words = ("--rules", room.file("r.json", done.output), *EACH_SECOND, "-")
    kills = room.kills(*words, stdin=stalled().text())
    must_be("of files", [(time_ns // SECOND, path) for time_ns, _, _, path in kills], [(40, B)])
    kills = room.kills(*words, stdin=swap_trace(999, 0, (A, 300), (B, 500)).text())
    must_be("of swap", [(time_ns // SECOND, path) for time_ns, _, _, path in kills], [(3, B)])


# The last words of each message about a setting that psi_oomd's rules can't express.
LOST = (
    "etc/systemd/oomd.conf line 2: a limit of 89.5 %: thresholds are whole, so it is "
    "written 90 % (LOST)",
    "etc/systemd/oomd.conf line 3: a duration with a part of a second: it is written 2 s "
    "(LOST)",
    f"{UNITS}/t.slice line 3: a limit of 12.5 %: thresholds are whole, so it is written 13 "
    "% (LOST)",
    "line 2: of several groups of user@.service the greatest pressure counts for all of "
    "them (LOST)",
    f"{UNITS}/x.scope line 2: x.scope is watched, but files don't say where its group is: "
    "no rule watches it (LOST)",
    "user@.service: ManagedOOMPreference=omit: it is never killed there, and rules have no "
    "word for that (LOST)",
    "y.service: ManagedOOMPreference=avoid: rules obey it where the trace says `prefer "
    "y.service avoid`\n",
    "y.service: memory.oom.group: it is killed as a whole there, and rules choose among "
    "the groups in it (LOST)",
    "after a kill systemd-oomd rests for all groups: each of 2 rulesets of memory pressure "
    "rests alone (LOST)",
)


def check_what_rules_cant_say(room: Room) -> None:
    """from-systemd prints a message for each setting that rules can't express. Its exit status
    shows that settings were lost.
    """
    conf = "[OOM]\nSwapUsedLimit=89.5%\nDefaultMemoryPressureDurationSec=1500ms\n"
    put(room, {
        **SWAPPED, "etc/systemd/oomd.conf": conf,
        f"{UNITS}/t.slice": WATCHED[f"{UNITS}/s.slice"] + "ManagedOOMMemoryPressureLimit=12.5%\n",
        f"{UNITS}/user@.service.d/a.conf": (
            "[Service]\nManagedOOMMemoryPressure=kill\nManagedOOMPreference=omit\n"
        ),
        f"{UNITS}/x.scope": "[Scope]\nManagedOOMMemoryPressure=kill\n",
        f"{UNITS}/y.service": "[Service]\nOOMPolicy=kill\nManagedOOMPreference=avoid\n",
    })  # fmt: skip
    done = room.run(RULES, "from-systemd", "settings")
    must_be("the status", done.status, 1)
    for wanted in LOST:
        must(wanted in done.error, f"{wanted}\n{done.error}")
    patterns = [
        it["detectors"][0][1]["args"]["cgroup"] for it in json.loads(done.output)["rulesets"]
    ]
    must_be("the patterns", patterns, ["/", "t.slice", "user.slice/user-*.slice/user@*.service"])


def check_wrong_words(room: Room) -> None:
    put(room, WATCHED)
    room.file("t.trace", stalled(3).text())
    for words, wanted in (
        (("t.trace",), "required: --settings"),
        (("t.trace", "--settings", "nothing"), "nothing: it is no folder"),
        (("t.trace", "--settings", "/proc/self/fd"), "it has no settings of systemd"),
        (("t.trace", "--settings", "settings", "--systemd", "new"),
         "new isn't a whole number from 247 to 9999"),
        (("t.trace", "--settings", "settings", "--interval-s", "1"),
         "--interval-s is of the rules of --compare"),
        (("t.trace", "--settings", "settings", "--compare", "none.json"),
         "none.json: No such file or directory"),
        (("none.trace", "--settings", "settings"), "no file: none.trace"),
        ((REFUSED, "--settings", "settings"), "trace line 7: NotReady"),
    ):
        done = room.run(OOMD, *words)
        must((done.status, done.output) == (2, "") and wanted in done.error, f"{words}: {done}")
