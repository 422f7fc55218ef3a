"""Checks that bad samples are rejected with a message that names the file, and that no trace is
written then. Tools reject a trace of samples if it lacks the data that they need.
"""
from __future__ import annotations

import json
import os

from harness import must, must_be

from . import START, Room, Row, csv, room_of, steady

TIMES = range(0, 61, 5)
HEAD = "time,group,what,values\n"


def rows() -> list[Row]:
    found = [
        it for resource in ("io", "memory", "cpu") for it in steady("/", resource, TIMES, 0.2, 0.1)
    ]
    return found + [
        it for resource in ("io", "memory", "cpu") for it in steady("/a", resource, TIMES, 0.6, 0.3)
    ]


def changed(old: str, new: str) -> str:
    text = csv(rows())
    must(old in text, f"{old} is in the samples")
    return text.replace(old, new, 1)


def answer(result: object, kind: str = "matrix") -> str:
    return json.dumps({"status": "success", "data": {"resultType": kind, "result": result}})


METRIC: dict[str, object] = {"__name__": "container_pressure_io_waiting_seconds_total", "id": "/a"}
AT_40 = f"{START + 40}.000,/a,io,24000000,12000000\n"
# Bad texts by name. Each has words that its error message must contain.
BAD: dict[str, tuple[str, str]] = {
    "a time that goes back": (
        csv(rows()) + f"{START + 1}.000,/,io,1,1\n", "bad line 80: the time goes back"
    ),
    "a total that falls": (
        changed(AT_40, f"{START + 40}.000,/a,io,5000000000,1\n"),
        "/a io some grows by 4979000000 us in 5000000 us",
    ),
    "one that falls while another goes on": (
        changed(AT_40, f"{START + 40}.000,/a,io,24000000,1\n"), "/a io some goes on at 24000000 us"
    ),
    "totals in seconds": (
        changed(AT_40, f"{START + 40}.000,/a,io,24.5,12\n"),
        "the total '24.5' isn't a whole number of us",
    ),
    "no root": (HEAD + "".join(it + "\n" for it in csv(rows()).splitlines() if ",/a," in it),
                "the root / has none: add"),
    "a name with a blank": (
        csv(rows()).replace("/a,", "/a b,"),
        "a trace can't name the group '/a b': rename it, as by --rename '/a b=/a\\x20b'",
    ),
    "a name without a slash": (
        csv(rows()).replace("/a,", "a,"), "the group 'a' doesn't begin with a /"
    ),
    "a name that is too deep": (
        csv(rows()).replace("/a,", "/a" * 33 + ","), "33 parts: at most 255 and 32"
    ),
    "an unknown kind": (
        changed(AT_40, AT_40.replace(",io,", ",disk,")), "bad line 53: this is no sample: 'disk'"
    ),
    "no number": (changed(AT_40, AT_40.replace("24000000", "many")),
                  "the total 'many' isn't a whole number"),
    "one reading": (csv(it for it in rows() if not it.at), "no group has two samples"),
    "nothing": ("", "bad: it is empty, not samples\n"),
    "another text": ("a b c\n", "bad line 1: this is no sample: "),
    "a trace": ("psitrace 1 cpus=1\n0 end\n", "bad: it is a trace, not samples\n"),
    "the output of replay": (
        "end 5 ticks=0 events=0 kills=0\n", "bad: it is the output of replay, not samples\n"
    ),
    "rules": ('{\n  "rulesets": []\n}\n', "bad: it is a rules file, not samples\n"),
    "no format": ("-\n", "bad line 1: this is none of the formats of docs/SAMPLES.md\n"),
    "no text": ("\0\1\2", "this is no text"),
    "an empty answer": (answer([]), "there are no samples of pressure in it"),
    "an error": (json.dumps({"status": "error", "errorType": "bad_data", "error": "parse error"}),
                 "Prometheus answered with an error"),
    "one value of each series": (
        answer([{"metric": METRIC, "value": [START, "1"]}], "vector"),
        "one value of each series: query with a range",
    ),
    "another metric": (
        answer([{"metric": {"__name__": "up"}, "values": [[START, "1"]] * 50000}]),
        "it has up, and container_pressure_",
    ),
    "two machines": (
        answer([{"metric": METRIC | {"instance": it}, "values": [[START, "1"]]} for it in "ab"]),
        "two series of one group: container_pressure_io_waiting_seconds_total{",
    ),
    "JSON that ends": (
        answer([{"metric": METRIC, "values": [[START, "1"], [START + 5, "2"]]}])[:-40],
        "no point of a series",
    ),
    "two values at a time": (
        csv([*rows(), Row(40, "/a", "io", 24000001, 12000000)]),
        "/a has another value at the same time",
    ),
}  # fmt: skip


def check_bad_input(program: str) -> None:
    with room_of(program) as room:
        for name, (text, message) in BAD.items():
            room.file("bad", text)
            done = room.run("samples", "bad", "-o", "it.trace")
            must_be(f"the status of {name}, which said {done.said}", (done.status, done.output),
                    (2, ""))
            must(
                done.said.startswith("samples: ")
                and message in done.said
                and "Traceback" not in done.said,
                f"{name}: {done.said}",
            )
            must("bad" in done.said, f"{name}: the file is named: {done.said}")
            must_be(f"files after {name}", os.listdir(room.path), ["bad"])


def check_bad_words(program: str) -> None:
    with room_of(program) as room:
        room.file("samples", csv(rows()))
        for words, reason in (
            (["samples"], "required: -o/--output"), (["none", "-o", "x"], "no file: none"),
            (["samples", "-o", "x", "--groups", "0"], "isn't a whole number"),
            (["samples", "-o", "x", "--trigger", "/a io some 9 10"],
             "isn't '/GROUP io some THRESHOLD WINDOW'"),
            (["samples", "-o", "x", "--trigger", "/a io some 500000 2000000"],
             "samples each 5 s don't show windows below 10 s"),
            (["samples", "-o", "x", "--rename", "a"], "isn't OLD=/PATH"),
        ):  # fmt: skip
            done = room.run("samples", *words, status=2)
            must(reason in done.said, f"{words}: {done.said}")
        done = room.run("samples", "samples", "-o", "no/folder/x", status=2)
        must_be("a folder that isn't there", done.said,
                "samples: no folder: no/folder, for no/folder/x\n")
        trigger = "/none io some 500000 10000000"
        done = room.run("samples", "samples", "-o", "x", "--trigger", trigger, status=11)
        must_be(
            "no group", done.said,
            f"samples: --trigger '{trigger}': no group /none in the samples, which have /, /a\n",
        )
        for words, message in (
            (["--from", "1000"], "--from 1000 is after the end of the samples, "),
            (["--to", "1000"], "--to 1000 is after the end of the samples, "),
            (["--from", "2020-01-01T00:00:00Z"],
             "--from 2020-01-01T00:00:00Z isn't in the trace, which was recorded from "),
            (["--from", "5", "--to", "6"], "--from and --to leave less than a tick of 2 s"),
        ):  # fmt: skip
            done = room.run("samples", "samples", "-o", "x", *words, status=12)
            must(done.said.startswith(f"samples: {message}"), f"{words}: {done.said}")


def make_trace(room: Room) -> None:
    """Converts samples without memory to the trace it.trace."""
    room.file("samples", csv(rows()))
    room.make("samples", "--trigger", "/a io some 5000000 10000000")


def check_tools_refuse_what_it_cant_answer(program: str) -> None:
    with room_of(program) as room:
        make_trace(room)
        message = "it.trace was made of samples each 5 s: it doesn't say "
        for words, status in (
            (["blame", "it.trace"], 2),
            (["fold", "it.trace", "--window", "2", "--victims", "/a"], 2),
        ):
            done = room.run(*words, status=status)
            must(message in done.said and not done.output, f"{words}: {done.said}")
        folded = room.run("fold", "it.trace", "--window", "2", status=0)
        room.file("it.trace", folded.output)
        must(message in room.run("blame", "it.trace", status=2).said,
             "a folded trace still says what it was made of")


def check_triggers(program: str) -> None:
    """A trigger signals on a trace of samples. In the trace, /a waits for 6 of 10 s."""
    with room_of(program) as room:
        make_trace(room)
        printed = room.run("psi_oomd", "replay", "it.trace", "--report-s=0", status=0).output
        must(printed.count("event ") >= 4, f"signals: {printed}")


def check_rules_on_samples(program: str) -> None:
    """Rules about scanned pages are rejected if the samples have no scanned pages. The output of
    the tools states the sampling interval.
    """
    above = {
        "name": "pressure_above",
        "args": {"cgroup": "a", "resource": "io", "threshold": "10", "duration": "10"},
    }
    size = {"name": "kill_by_pressure", "args": {"cgroup": "a", "resource": "io"}}
    scans = {"name": "kill_by_pg_scan", "args": {"cgroup": "a"}}
    with room_of(program) as room:
        make_trace(room)
        room.file("want", "kill /a by it\n")
        for action, status, message in (
            (size, 0, "(samples each 5 s)"), (scans, 2, "kill_by_pg_scan of rules.json needs them")
        ):
            rules = {
                "rulesets": [{"name": "it", "detectors": [["it", above]], "actions": [action]}]
            }
            room.file("rules.json", json.dumps(rules))
            done = room.run("rules", "expect", "want", "it.trace", "--rules", "rules.json",
                            status=status)
            must(message in done.output + done.said, f"expect: {done.output}{done.said}")
            done = room.run("rules", "sweep", "rules.json", "it.trace", "--vary",
                            "it/pressure_above.threshold=10,20", status=status)
            must(status or "sure to see full stalls of 21 s and more" in done.said,
                 f"sweep: {done.said}")
            done = room.run("oomd", "it.trace", "--config", "rules.json")
            must(("kill_by_pg_scan of rules.json needs them" in done.said) == bool(status),
                 f"oomd: {done.status}, {done.said}")
            must(bool(done.output) != bool(status),
                 f"oomd prints kills if it has what it needs: {done.output}")


def check_the_mark_is_no_group(program: str) -> None:
    """Each trace of samples has a special group that marks it. Neither expectations nor patterns of
    rules match this group, even if the trace is read from standard input.
    """
    above = {
        "name": "pressure_above",
        "args": {"cgroup": "psi-*", "resource": "io", "threshold": "10", "duration": "10"},
    }
    size = {"name": "kill_by_pressure", "args": {"cgroup": "a", "resource": "io"}}
    rules = {"rulesets": [{"name": "it", "detectors": [["it", above]], "actions": [size]}]}
    with room_of(program) as room:
        make_trace(room)
        room.file("rules.json", json.dumps(rules))
        room.file("want", "no kill of /psi-*\nat most 0 kills\n")
        for trace, text in (("it.trace", ""), ("-", room.text("it.trace"))):
            done = room.run("rules", "expect", "want", trace, "--rules", "rules.json", status=2,
                            text=text)
            must("no group of it matches /psi-*: it has /, /a;" in done.said,
                 f"expect on {trace}: {done.said}")
            must(f"no group of {trace} matches 'psi-*'" in done.said,
                 f"the note on {trace}: {done.said}")
            must("at most 0 kills: " in done.output and "(samples each 5 s)" in done.output,
                 f"expect on {trace}: {done.output}")


def check_a_report_leaves_out_who_waited_for_whom(program: str) -> None:
    with room_of(program) as room:
        make_trace(room)
        room.run("report", "it.trace", "-o", "it.html", status=0)
        page = room.text("it.html")
        must("By samples each 5 s, so that short stalls may be missed" in page,
             "the first sentence says so")
        must('id="blame"' not in page and "tools/blame" not in page,
             "there is no part on who waited for whom")
