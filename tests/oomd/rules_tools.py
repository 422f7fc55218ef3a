"""Checks of tools/rules with configurations of oomd: expect --by oomd, the notes of lint, to-oomd
and from-oomd.
"""
from __future__ import annotations

import json
import os
import random
import shutil
import subprocess
from typing import Any

from shared import plain_rules
from harness import must, must_be
from shared.program import TOP
from shared.rooms import RUNAWAY, RUNAWAY_RULES, Room
from oomd import random_cases
from oomd.both import has_oomd
from oomd.stories import ALWAYS, GROWTH, SWAP, plugin, rules, ruleset, written
from psioomd.configuration import configuration
from psirules import oomd_notes
from psirules.from_oomd import Nearest
from psirules.program import Program
from psirules.to_oomd import Converter, canonical

RULES = "tools/rules"
EXAMPLES = ("services", "systemd-oomd", "runaway", "low-memory", "detectors", "actions")
LOST = " (LOST)"
FULL = {"always_continue": "false", "cgroup": "a", "post_action_delay": "15", "recursive": "false"}


def check_expect(room: Room) -> None:
    """oomd evaluates its rules every 5 s, so it kills at 150 s. With an interval of 1 s, and by
    psi_oomd's defaults, the kill is at 146 s.
    """
    wants = {
        at: room.file(f"{at}.txt", f"first /batch/import from {at} to {at}\n") for at in (146, 150)
    }
    for at, words in (
        (150, ("--by", "oomd")),
        (146, ("--by", "oomd", "--interval-s", "1")),
        (146, ()),
        (146, ("--by", "psi_oomd")),
        (150, ("--tick-ms", "1000")),
    ):
        done = room.run(RULES, "expect", wants[at], RUNAWAY, "--rules", RUNAWAY_RULES, *words)
        message = (
            f"ok    first /batch/import from {at} to {at}: killed at {at} s by ruleset 0 'batch "
            f"work is short of memory', action 0 '{GROWTH}'"
        )
        done.must_print(f"by {words}", 0, f"{message}\n")
    other = wants[296 - 150]
    must_be(
        "a wrong time",
        room.run(RULES, "expect", other, RUNAWAY, "--rules", RUNAWAY_RULES, "--by", "oomd").status,
        1,
    )


def check_expect_of_an_own_file(room: Room) -> None:
    """expect --by oomd accepts a configuration that psi_oomd rejects. The trace may come from
    standard input.
    """
    config = room.file("c.json", "// a comment\n" + open(RUNAWAY_RULES, encoding="utf-8").read())
    want = room.file("w.txt",
                     "kill /batch/import by batch work is short of memory\nat most 1 kill\n")
    with open(RUNAWAY, encoding="utf-8") as file:
        done = room.run(RULES, "expect", want, "-", "--rules", config, "--by", "oomd",
                        stdin=file.read())
    must_be(f"the status, where standard error was {done.error!r}",
            (done.status, done.output.count("ok    ")), (0, 2))
    must_be("by psi_oomd it is refused",
            room.run(RULES, "expect", want, RUNAWAY, "--rules", config).status, 2)


def check_words_of_expect(room: Room) -> None:
    want = room.file("w.txt", "at most 9 kills\n")
    bad = room.file("bad.json", written(rules(ALWAYS, plugin(GROWTH, "a", other=1))))
    for words, said in (
        (("--by", "oomd"), "the following arguments are required: --rules"),
        (("--by", "oomd", "--rules", bad), f'Unknown arg "other" in plugin "{GROWTH}"'),
        (("--by", "oomd", "--rules", bad, "--tick-ms", "1000"), "--tick-ms isn't for --by oomd"),
        (("--by", "oomd", "--rules", bad, "--settings", "s"),
         "--settings and --systemd are for --by systemd-oomd"),
    ):
        done = room.run(RULES, "expect", want, RUNAWAY, *words)
        must(done.status == 2 and said in done.error and not done.output, f"{words}: {done}")


def noted(config: Any) -> list[str]:
    """Returns the notes of lint about differences between oomd and psi_oomd."""
    return [it.text() for it in oomd_notes.notes(config)]


def check_notes_of_lint(room: Room) -> None:
    where = "ruleset 0 'r', action 0 "
    for action, said in (
        (plugin(GROWTH, "a", min_growth_ratio="1.25"),
         "min_growth_ratio: oomd reads '1.25' as 1; leave it out for 1.25"),
        (plugin(GROWTH, r"qemu\x2d1.scope"),
         r"cgroup: oomd takes a \ in 'qemu\\x2d1.scope' as an escape, so it matches nothing"),
        (plugin("kill_by_pg_scan", "a"),
         "in oomd it waits for a second look, then kills whether the detectors still hold"),
        (plugin("kill_by_pg_scan", "a", post_action_delay=5),
         "; if they don't hold, its post_action_delay is lost"),
        (plugin("kill_by_pressure", "a", resource="io"),
         "oomd kills at pressure 0 too, and compares whole percents"),
        (plugin(GROWTH, "a", growing_size_percentile=100),
         "growing_size_percentile 100: oomd 0.5.0 crashes"),
        (plugin(SWAP, "a", threshold="5%"),
         "threshold: oomd keeps SwapTotal in 32 bits: with 2 GiB of swap or more"),
    ):
        (note,) = noted(rules(ALWAYS, action))
        must(note.startswith(f"{where}'{action['name']}': note: ") and said in note,
             f"{action}: {note}")
    for action in (
        plugin(GROWTH, "a", min_growth_ratio="2", growing_size_percentile=99),
        plugin(SWAP, "a", threshold="5M"),
        plugin(SWAP, "*", recursive="true"),
    ):  # fmt: skip
        must_be(f"notes of {action}", noted(rules(ALWAYS, action)), [])
    file = room.file("r.json",
                     written(rules(ALWAYS, plugin("kill_by_pressure", "a", resource="io"))))
    said = "oomd kills at pressure 0 too, and compares whole percents"
    room.run(RULES, "lint", file).must_print(
        "lint", 0, f"r.json: {where}'kill_by_pressure': note: {said}\n"
    )


def check_notes_of_ticks(room: Room) -> None:
    """Lint prints a note if the tick length doesn't divide the interval between evaluations."""
    for pace, found in (
        ((None, None), ""),
        (
            (None, 5),
            (
                "ticks of 2000 ms don't divide the interval of 5 s: psi_oomd evaluates at 6, 10, "
                "16 s, and oomd looks at 5, 10, 15 s"
            ),
        ),
        (
            (3000, None),
            (
                "ticks of 3000 ms don't divide the interval of 5 s: psi_oomd evaluates at 6, 12, "
                "15 s, and oomd looks at 5, 10, 15 s"
            ),
        ),
        ((1000, None), ""), ((5000, None), ""), ((None, 10), ""), ((500, 1), ""),
    ):  # fmt: skip
        wanted = [f"the pace: note: {found}"] if found else []
        must_be(f"notes of {pace}", [it.text() for it in oomd_notes.of_pace(*pace)], wanted)
    file = room.file("r.json", written(rules(ALWAYS, plugin(GROWTH, "a"))))
    done = room.run(RULES, "lint", file, "--tick-ms", "2000")
    must(done.status == 0 and done.output.startswith("r.json: the pace: note: ticks of 2000 ms"),
         f"{done}")


def check_examples_go_both_ways(room: Room) -> None:
    """The example rules are unchanged after a conversion to a configuration of oomd and back, and
    oomd accepts the configuration.
    """
    for name in EXAMPLES:
        file = os.path.join(TOP, "examples", f"{name}.json")
        result = room.run(RULES, "to-oomd", file)
        must(result.status in (0, 1), f"{name}: {result.error}")
        must_be(f"{name}: the status", result.status, int(LOST in result.error))
        must_be_taken(room, name, result.output)
        back = room.run(RULES, "from-oomd", room.file("o.json", result.output))
        same = room.run("psi_oomd", "rules", room.file("b.json", back.output)).output
        must_be(f"{name}: the rules again", same, room.run("psi_oomd", "rules", file).output)


def must_be_taken(room: Room, what: str, text: str) -> None:
    """Raises if oomd is installed and rejects a configuration."""
    if not has_oomd():
        return
    path = os.path.join(room.path, room.file("taken.json", text))
    kmsg = os.path.join(room.path, room.file("kmsg", ""))
    words = [shutil.which("oomd") or "", "--kmsg-override", kmsg, "--check-config", path]
    done = subprocess.run(words, capture_output=True, text=True,
                          env={**os.environ, "INLINE_LOGGING": "1"})
    must_be(f"{what}: what oomd says of {text}: {done.stderr[-300:]}", done.returncode, 0)


def converted(room: Room, command: str, config: Any) -> tuple[Any, int]:
    """Returns the JSON output of a `tools/rules` command for a configuration, and its exit status.
    """
    if command == "from-oomd":
        nearest = Nearest(configuration("in.json", json.dumps(config).encode()))
        return nearest.data, int(any(is_lost for _, is_lost in nearest.notes))
    file = os.path.join(room.path, room.file("in.json", written(config)))
    result = Converter(canonical(Program(), file))
    return result.data, int(any(is_lost for _, is_lost in result.notes))


def check_to_oomd(room: Room) -> None:
    """to-oomd converts each kind of rule to the expected configuration, which was written by hand.
    """
    for args, wanted, is_lost in (
        ({"size_threshold": "40", "min_growth_ratio": "1.25"}, {"size_threshold": "40"}, False),
        ({"min_growth_ratio": "2"}, {"min_growth_ratio": "2"}, False),
        ({"min_growth_ratio": "1.9"}, {"min_growth_ratio": "1"}, True),
        ({"growing_size_percentile": "100"}, {"growing_size_percentile": "99"}, False),
        ({"recursive": "true"}, {"recursive": "true"}, True),
    ):
        result, status = converted(room, "to-oomd", rules(ALWAYS, plugin(GROWTH, "a", **args)))
        found = result["rulesets"][0]["actions"][0]["args"]
        full = {**FULL, "size_threshold": "50", "growing_size_percentile": "80", **wanted}
        must_be(f"{args}", (found, status), (full, int(is_lost)))
    for text, found in (
        ("1", "0K 1"), ("1536", "0K 1536"), ("2048", "2K"), ("1.5G", "1536M"), ("0", "0"),
        ("7%", "7%"),
    ):
        result, _ = converted(room, "to-oomd", rules(ALWAYS, plugin(SWAP, "a", threshold=text)))
        must_be(f"the size {text}", result["rulesets"][0]["actions"][0]["args"]["threshold"], found)
    result, _ = converted(room, "to-oomd", rules(ALWAYS, plugin(GROWTH, r"q\x2d1,b*")))
    must_be("a backslash", result["rulesets"][0]["actions"][0]["args"]["cgroup"], r"q\\x2d1,b*")
    empty = {
        "rulesets": [
            {"name": "", "detectors": [[""]], "actions": [plugin(GROWTH, "a")]},
            {**ruleset(ALWAYS), "detectors": []},
        ]
    }
    result, status = converted(room, "to-oomd", empty)
    (only,) = result["rulesets"]
    must_be("names and a group without detectors", (only["name"], only["detectors"]),
            ("ruleset 0", [["group 0", {"name": "continue", "args": {}}]]))
    must_be("the status of a ruleset without actions", status, 0)
    must_be_taken(room, "the empty one", json.dumps(result))


def check_from_oomd(room: Room) -> None:
    """from-oomd converts each kind of plugin to the expected rules, which were written by hand."""
    for args, wanted, is_lost in (
        ({"min_growth_ratio": "1.25"}, {"min_growth_ratio": "1"}, False),
        ({"size_threshold": " 40 percent"}, {"size_threshold": "40"}, False),
        ({"size_threshold": "140"}, {"size_threshold": "100"}, True),
        ({"post_action_delay": "10s", "dry": "1", "debug": "true"}, {"post_action_delay": "10"},
         False),
        ({"recursive": "1"}, {"recursive": "true"}, True),
    ):
        result, status = converted(room, "from-oomd", rules(ALWAYS, plugin(GROWTH, "a", **args)))
        must_be(f"{args}", (result["rulesets"][0]["actions"][0]["args"], status),
                ({"cgroup": "a", **wanted}, int(is_lost)))
    for text, found in (
        ("1", "1M"), ("1536", "1536M"), ("1.5M 32K 512", "1606144"), ("0K 4096", "4K"),
        ("7.9%", "7%"), ("0", "0"),
    ):
        result, _ = converted(
            room, "from-oomd",
            rules([plugin("memory_above", "a", threshold=text, duration=1)], plugin(GROWTH, "a")),
        )
        must_be(f"the size {text}", result["rulesets"][0]["detectors"][0][1]["args"]["threshold"],
                found)
    for text, found, is_lost in (
        ("/a//b/", "a/b", False), (r"q\\x2d1", r"q\x2d1", False), ("a?,{b}", "a*,b", True),
        ("a b,c", "c", False), ("", "no-such-group", False),
    ):  # fmt: skip
        result, status = converted(room, "from-oomd", rules(ALWAYS, plugin(GROWTH, text)))
        must_be(f"the pattern {text}",
                (result["rulesets"][0]["actions"][0]["args"]["cgroup"], status),
                (found, int(is_lost)))


def check_plugins_that_rules_lack(room: Room) -> None:
    for detector, count, is_lost in (
        (plugin("continue"), 1, False), (plugin("dump_cgroup_overview", "a"), 1, False),
        (plugin("stop"), 0, False),
        (plugin("nr_dying_descendants", "a", count=1), 0, True), (plugin("senpai", "a"), 0, True),
    ):  # fmt: skip
        result, status = converted(room, "from-oomd",
                                   rules([*ALWAYS, detector], plugin(GROWTH, "a")))
        must_be(f"groups with {detector}", (len(result["rulesets"][0]["detectors"]), status),
                (count, int(is_lost)))
    for action, count, is_lost in (
        (plugin("continue"), 2, False), (plugin("stop"), 1, True),
        (plugin("kill_by_io_cost", "a"), 2, True),
        (plugin("exists", "a"), 2, True), (plugin("systemd_restart", service="x"), 2, True),
    ):  # fmt: skip
        result, status = converted(
            room, "from-oomd", rules(ALWAYS, plugin(GROWTH, "a"), action, plugin(GROWTH, "b"))
        )
        must_be(f"actions with {action}", (len(result["rulesets"][0]["actions"]), status),
                (count, int(is_lost)))


def check_refused_files(room: Room) -> None:
    """from-oomd rejects files that oomd rejects, and to-oomd rejects files that psi_oomd rejects.
    """
    bad = room.file("bad.json", written(rules(ALWAYS, plugin(GROWTH, "a", other=1))))
    done = room.run(RULES, "from-oomd", bad)
    must(done.status == 2 and not done.output and "bad.json: ruleset 0 'r', action 0" in done.error,
         f"{done}")
    done = room.run(RULES, "to-oomd", room.file("worse.json", "// no\n{}"))
    must(done.status == 2 and not done.output and "worse.json" in done.error, f"{done}")
    must_be("no file", room.run(RULES, "to-oomd", "none.json").status, 2)


def check_random_files(room: Room) -> None:
    """For random configurations of oomd, from-oomd makes rules that the reference parser of
    psi_oomd's rules accepts. After a conversion back with to-oomd, oomd accepts the configuration.
    """
    for seed in range(20):
        config = random_cases.some_config(random.Random(f"rules{seed}"))
        result, _ = converted(room, "from-oomd", config)
        text = json.dumps(result)
        status, _, said = plain_rules.run(text.encode(), None)
        must_be(f"seed {seed}: what a plain reading says of {text}: {said}", status, 0)
        back, _ = converted(room, "to-oomd", result)
        must_be_taken(room, f"seed {seed}", json.dumps(back))
