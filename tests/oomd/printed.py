"""Checks of the output and of the options of tools/oomd."""
from __future__ import annotations

import json

from harness import must, must_be
from shared.rooms import RUNAWAY, RUNAWAY_RULES, Room
from oomd import both
from oomd.stories import (
    ALWAYS,
    GROWTH,
    MIB,
    SECOND,
    SWAP,
    Story,
    plugin,
    rules,
    ruleset,
    written,
)

OOMD = "tools/oomd"


def put(room: Room, story: Story, end: float, config: object) -> tuple[str, str, str]:
    """Writes a trace of `end` s and a configuration. Returns the arguments with both names."""
    trace = room.file("t.trace", story.text(end))
    return trace, "--config", room.file("c.json", json.dumps(config))


def kills(room: Room, *words: str) -> list[tuple[int, str]]:
    """Returns the time (s) and the victim of each kill in the JSON output."""
    done = room.run(OOMD, *words, "--interval-s", "1", "--json")
    must_be(f"the status, where standard error was {done.error!r}", done.status, 0)
    found = json.loads(done.output)["decisions"]
    return [(it["moment_ns"] // SECOND, it["victim"]) for it in found]


def check_the_whole_output(room: Room) -> None:
    story = (
        Story("/a", "/b", "/e").task("/a").task("/b").mem(0, "/a", 60 * MIB).mem(0, "/b", 40 * MIB)
    )
    words = put(room, story.mem(0, "/e", 20 * MIB).put(0, "prefer /b avoid"), 2,
                rules(ALWAYS, plugin(GROWTH, "*")))
    done = room.run(OOMD, *words, "--interval-s", "1")
    done.must_print("the output", 0, f"""1 s  would kill /a
     by ruleset 0 'r', action 0 '{GROWTH}'
     group 0 'g': exists: a group matches /
     chosen: memory 60.0M, 50 % of all, at least 50 %
     not /e: memory 20.0M, 16 % of all, no task
     not /b: memory 40.0M, 33 % of all, avoid
oomd 0.5.0: 2 looks, one each 1 s
""")  # fmt: skip


def check_the_story(room: Room) -> None:
    """oomd evaluates its rules every 5 s, so it kills at 150 s. psi_oomd kills at 150 s with ticks
    of 1 s, and at 146 s with its default ticks.
    """
    done = room.run(OOMD, RUNAWAY, "--config", RUNAWAY_RULES, "--compare", RUNAWAY_RULES)
    lines = done.output.splitlines()
    must_be("the kill", lines[0], "150 s  would kill /batch/import")
    must("first kill: the same victim, at the same time" in lines, done.output)
    for pace, wanted in ((("--tick-ms", "1000"), 150), ((), 146)):
        found = room.kills(RUNAWAY, "--rules", RUNAWAY_RULES, *pace)
        must_be(f"psi_oomd's first kill at {pace}", found[0][0], wanted * SECOND)


def check_json(room: Room) -> None:
    story = Story("/a", "/b").task("/a").task("/b").mem(0, "/a", 1, 50).mem(0, "/b", 1, 50)
    words = put(room, story, 2, rules(ALWAYS, plugin(SWAP, "*", dry="true")))
    record = room.run(OOMD, *words, "--interval-s", "1", "--json").json()
    assert isinstance(record, dict)
    must_be("what it was asked", (record["trace"], record["config"], record["interval_s"]),
            ("t.trace", "c.json", 1))
    must_be("the looks", (record["oomd"], record["looks"], record["binary"], record["compared"]),
            ("0.5.0", 2, None, None))
    (kill,) = record["decisions"]
    must_be("who",
            [kill[it] for it in ("moment_ns", "ruleset", "ruleset_name", "action", "plugin")],
            [SECOND, 0, "r", 0, SWAP])
    must_be("whom", (kill["victim"], kill["equal"], kill["dry"]), ("/a", ["/b"], True))
    must_be("candidates", [(it["path"], it["rank"]) for it in kill["candidates"]],
            [("/a", "swap 50"), ("/b", "swap 50")])
    text = room.run(OOMD, *words, "--interval-s", "1").output
    must("equal in rank, so oomd may kill it instead: /b\n" in text, text)
    must("dry: oomd would only log this kill\n" in text, text)


def check_many_candidates(room: Room) -> None:
    story = Story(*(f"/{it}" for it in range(8)))
    for it in range(8):
        story.task(f"/{it}").mem(0, f"/{it}", it * MIB)
    words = put(room, story, 1, rules(ALWAYS, plugin(GROWTH, "*")))
    few, every = (
        room.run(OOMD, *words, "--interval-s", "1", *more).output for more in ((), ("--all",))
    )
    must("     not 3 more, which --all shows\n" in few, few)
    must_be("how many", (few.count("     not /"), every.count("     not /")), (4, 7))


def check_nobody(room: Room) -> None:
    above = plugin("pressure_above", "a", resource="memory", threshold=15, duration=3)
    words = put(room, Story("/a").stalls("/a", 0, 2), 8, rules([above], plugin(GROWTH, "a")))
    done = room.run(OOMD, *words, "--interval-s", "1")
    lines = done.output.splitlines()
    must_be("the first line", lines[0], "nobody would be killed")
    must(
        lines[1].startswith(
            "c.json: ruleset 0 'r', group 0 'g', item 0 'pressure_above': at most 1"
        ),
        lines[1],
    )
    must(lines[1].endswith(" % of /a, at 2 s; limit 15 % for 3 s"), lines[1])


def check_standard_input(room: Room) -> None:
    story = Story("/a").task("/a").mem(0, "/a", 5)
    trace, *words = put(room, story, 2, rules(ALWAYS, plugin(GROWTH, "a")))
    with_file = room.run(OOMD, trace, *words, "--interval-s", "1").output
    done = room.run(OOMD, "-", *words, "--interval-s", "1", stdin=story.text(2))
    done.must_print("from the standard input", 0, with_file)


def check_given_numbers(room: Room) -> None:
    """Memory protection is divided among sibling groups as in the kernel."""
    story = Story("/s", "/s/a", "/s/b").task("/s/a").task("/s/b")
    story.mem(0, "/s", 100 * MIB).mem(0, "/s/a", 60 * MIB).mem(0, "/s/b", 40 * MIB)
    words = put(room, story, 1, rules(ALWAYS, plugin(GROWTH, "s/*", size_threshold=0)))
    low = [
        f"--given=/s{it}/memory.low={size * MIB}" for it, size in (("", 30), ("/a", 60), ("/b", 0))
    ]
    must_be("the largest", kills(room, *words), [(1, "/s/a")])
    # /s protects 30 MiB, so only 30 of the 60 MiB of /s/a are protected. So /s/a counts with 30
    # MiB, and /s/b with 40 MiB.
    must_be("with protection", kills(room, *words, *low), [(1, "/s/b")])
    must_be("without the parent's", kills(room, *words, *low[1:]), [(1, "/s/a")])
    dying = rules([plugin("nr_dying_descendants", "s", count=3, lte="false")],
                  plugin(GROWTH, "s/*"))
    words = put(room, story, 1, dying)
    must_be("no dying group", kills(room, *words), [])
    must_be("four", kills(room, *words, "--given", "/s/nr_dying_descendants=4"), [(1, "/s/a")])
    must(
        "left" not in room.run(OOMD, *words).error
        and "no dying groups" in room.run(OOMD, *words).error,
        "it is said",
    )


def check_warm(room: Room) -> None:
    """With --warm, oomd runs before the trace starts. So a condition that holds at the start leads
    to an earlier kill, and growth is computed from earlier samples.
    """
    words = put(room, Story("/a").task("/a").mem(0, "/a", 5), 2,
                rules(ALWAYS, plugin(GROWTH, "a", post_action_delay=2)))
    must_be("without a past", kills(room, *words), [(1, "/a")])
    must_be("with one", kills(room, *words, "--warm", "3"), [(-2, "/a"), (0, "/a"), (2, "/a")])


def check_drop_ins(room: Room) -> None:
    """A drop-in is a separate ruleset that runs before the base ruleset. The base ruleset stays
    active unless it has `disable-on-drop-in`.
    """
    story = Story("/a", "/b").task("/a").task("/b").mem(0, "/a", 5).mem(0, "/b", 5)
    part = room.file("part.json",
                     written({"rulesets": [{"name": "r", "actions": [plugin(GROWTH, "b")]}]}))
    for switches, wanted in (
        ({}, [(1, "/a")]),
        ({"actions": True}, [(1, "/b"), (1, "/a")]),
        ({"actions": True, "disable-on-drop-in": True}, [(1, "/b")]),
    ):
        base = {"rulesets": [{**ruleset(ALWAYS, plugin(GROWTH, "a")), "drop-in": switches}]}
        words = (*put(room, story, 2, base), "--drop-in", part)
        must_be(f"by {switches}", kills(room, *words), wanted)
        if not switches:
            said = room.run(OOMD, *words).error
            must("Error: Action drop-in configs disabled: it goes on without this file" in said,
                 said)
        if both.has_oomd():
            record = json.loads(
                room.run(
                    OOMD, *words, "--interval-s=1", "--json", "--binary", "--sandbox",
                    both.sandbox(),
                ).output
            )
            found = [(it["moment_ns"] // SECOND, it["victim"]) for it in record["binary"]["kills"]]
            must_be(f"by oomd and {switches}", found, wanted)


def check_left_out_plugins(room: Room) -> None:
    """A plugin that needs data that the trace doesn't contain is left out. A message says what it
    might have changed.
    """
    actions = [
        plugin("kill_by_io_cost", "*"), plugin("systemd_restart", service="x"), plugin(GROWTH, "a")
    ]
    config = rules([plugin("senpai", "a"), *ALWAYS, plugin("dump_cgroup_overview", "a")], *actions)
    done = room.run(OOMD, *put(room, Story("/a").task("/a").mem(0, "/a", 5), 2, config),
                    "--interval-s", "1")
    must_be("the kill", done.output.splitlines()[:2],
            ["1 s  would kill /a", f"     by ruleset 0 'r', action 2 '{GROWTH}'"])
    for name in ("senpai", "kill_by_io_cost", "systemd_restart"):
        must(f"'{name}': left out: " in done.error, f"{name} isn't in {done.error}")
    must_be("the others aren't named", done.error.count("left out"), 3)


def check_plugins_in_any_place(room: Room) -> None:
    """A false detector among the actions ends the chain of actions, and so does `stop`. In both
    cases the delay after an action begins.
    """
    story = Story("/a").task("/a").mem(0, "/a", 5)
    go, end = plugin("exists", "a"), plugin("exists", "nope")
    kill = plugin(GROWTH, "a", post_action_delay=1)
    for actions, wanted in (
        ([go, kill], [(1, "/a"), (2, "/a")]), ([end, kill], []),
        ([plugin("continue"), kill], [(1, "/a"), (2, "/a")]),
        ([plugin("stop"), kill], []),
    ):  # fmt: skip
        words = put(room, story, 2, rules(ALWAYS, *actions))
        must_be(f"by {actions}", kills(room, *words), wanted)
        if both.has_oomd():
            record = json.loads(
                room.run(
                    OOMD, *words, "--interval-s=1", "--json", "--binary", "--sandbox",
                    both.sandbox(),
                ).output
            )
            must_be(f"oomd by {actions}", record["binary"]["agreement"],
                    "the same kills as 0.5.0 as emulated")


def check_accounts_that_are_off(room: Room) -> None:
    """A group has no pressure while its pressure accounting is off."""
    above = plugin("pressure_above", "a", resource="memory", threshold=10, duration=0)
    trace = Story(
        "/a"
    ).stalls("/a", 0, 9).put(4.5, "pressure /a off").put(6.5, "pressure /a on").text(9)
    file = room.file("v2.trace", trace.replace("psitrace 1", "psitrace 2"))
    config = room.file("v.json", written(rules([above], plugin(GROWTH, "a", post_action_delay=0))))
    found = [at for at, _ in kills(room, file, "--config", config)]
    must(not {5, 6} & set(found) and {3, 4} <= set(found), f"kills at {found}")


def check_oomd_itself(room: Room) -> None:
    """With --binary, the output is that of oomd itself. Its log has the times of the trace."""
    if not both.has_oomd():
        return
    words = (RUNAWAY, "--config", RUNAWAY_RULES, "--binary", "--sandbox", both.sandbox(), "--log",
             "log")
    lines = room.run(OOMD, *words).output.splitlines()
    who = "ruleset 0 'batch work is short of memory', action 0 'kill_by_memory_size_or_growth'"
    must(f"150 s  by oomd: would kill /batch/import, {who}" in lines, "\n".join(lines))
    line = next(it for it in lines if it.startswith("oomd: oomd 0.5.0 in "))
    must(line.endswith(": 60 looks, 1 kill; the same kills as 0.5.0 as emulated"), line)
    with open(f"{room.path}/log", encoding="utf-8") as file:
        log = file.read()
    must("== start\n" in log and "== 150 s\n" in log and "would have tried to kill" in log,
         log[:2000])


def check_a_page(room: Room) -> None:
    """The page of tools/report shows the kills by oomd, and tools/report rejects everything that
    tools/oomd rejects.
    """
    done = room.run("tools/report", RUNAWAY, "--oomd", RUNAWAY_RULES, "-o", "page.html")
    must_be("the status, where standard error was " + done.error, done.status, 0)
    with open(f"{room.path}/page.html", encoding="utf-8") as file:
        page = file.read()
    for text in (
        "What oomd would have done", "By the algorithm of oomd 0.5.0, which looked 60 times",
        "150 s", "tools/oomd --config=",
    ):
        must(text in page, f"{text!r} isn't on the page")
    bad = room.file("bad.json", written(rules(ALWAYS, plugin(GROWTH, "a", other=1))))
    done = room.run("tools/report", RUNAWAY, "--oomd", bad, "-o", "no.html")
    must(done.status == 2 and f'Unknown arg "other" in plugin "{GROWTH}"' in done.error, f"{done}")
