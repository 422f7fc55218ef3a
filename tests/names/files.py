"""Checks of companion files, which contain process names, container names and the time of day of a
trace.
"""
from __future__ import annotations

import os
import random
import string

from harness import must, must_be
from names.companions import companion, with_companion
from shared.rooms import RUNAWAY, Room

from psinames.companion import Companion, companion_of, lines_of, read
from psinames.companion import write as write_companion
from psinames.text import escaped, is_escaped
from psiconvert.anonymous import Anonymous

ROUNDS = 30
HOSTILE = (
    "<script>alert(1)</script>".encode(), b"a\x1b[31mb", b"\xff\xfe", "\u202eevil".encode(),
    b"a\\b", b"two\nlines", "größe".encode(),
)
ESCAPED = ("<script>alert(1)</script>", r"a\x1b[31mb", r"\xff\xfe", r"\xe2\x80\xaeevil", r"a\x5cb",
           r"two\x0alines", "größe")


def runaway() -> str:
    """Returns the text of the example trace `runaway`."""
    with open(RUNAWAY, encoding="ascii") as file:
        return file.read()


def check_names_are_escaped(_: Room) -> None:
    """Control characters in names are escaped, so no name can control a terminal."""
    for name, wanted in zip(HOSTILE, ESCAPED):
        must_be(f"{name!r}", escaped(name), wanted)
        must(is_escaped(wanted), f"{wanted} is escaped")
    draw = random.Random(1)
    for _number in range(1000):
        text = escaped(bytes(draw.randrange(256) for _ in range(draw.randrange(16))))
        must(is_escaped(text) and text.isprintable(), f"{text!r} is escaped")


def check_a_file_is_read_as_it_was_written(room: Room) -> None:
    """A companion with random names is unchanged after it is written and read."""
    draw = random.Random(2)
    trace = runaway()
    processes: tuple[dict[int, int], ...] = ({}, {2: 1001})
    for _ in range(ROUNDS):
        names = {
            label: escaped(draw.choice(HOSTILE) + draw.choice(string.printable).encode())
            for label in (1, 2, 3)
        }
        wanted = companion(trace, names, processes=draw.choice(processes))
        wanted.begins, wanted.containers = draw.choice((0, 10**9)), {"ab" * 32: names[1]}
        wanted.tasks[0].rename(10**9, names[2])
        with_companion(room, "r.trace", trace, wanted)
        found = read(f"{room.path}/r.trace.names")
        must_be("the lines", list(lines_of(found)), list(lines_of(wanted)))
        must_be("the leaders", [it.leader.task for it in found.tasks],
                [it.leader.task for it in wanted.tasks])


def check_damaged_files(room: Room) -> None:
    """A damaged companion is rejected with the number of the wrong line. A companion of another
    trace is rejected too.
    """
    trace = runaway()
    with_companion(room, "r.trace", trace, companion(trace, {}))
    name = f"{room.path}/r.trace.names"
    with open(name, encoding="utf-8") as file:
        lines = file.readlines()
    for place, line, wanted in (
        (
            0, "psinames 2\n",
            (
                "blame: r.trace.names isn't a companion file of a trace: it doesn't begin with "
                "'psinames 1'"
            ),
        ),
        (2, "length x\n",
         "blame: r.trace.names: line 3 isn't one of a companion file: make the trace again"),
        (4, "task 1 0 5 1 1 \x1b[31m\n",
         "blame: r.trace.names: line 5 isn't one of a companion file: make the trace again"),
        (3, "start yesterday\n",
         "blame: r.trace.names: line 4 isn't one of a companion file: make the trace again"),
        (len(lines) - 1, "", "blame: r.trace.names is cut off: make the trace again"),
    ):
        room.file("r.trace.names", "".join([*lines[:place], line, *lines[place + 1 :]]))
        done = room.run("tools/blame", "r.trace")
        must_be(f"line {place + 1} is {line!r}",
                (done.status, done.output, done.error.splitlines()[0]), (2, "", wanted))
    room.file("r.trace.names", "".join(lines))
    must_be("the right one", room.run("tools/blame", "r.trace").status, 0)
    room.file("r.trace", trace.replace("1374000000", "1374000001"))
    done = room.run("tools/blame", "r.trace")
    must_be("another trace", (done.status, done.output, done.error), (
        2, "",
        "blame: r.trace.names is the companion of another trace: its trace has another SHA-256 "
        "than r.trace: make both with"
        " psitrace -o, or remove it\n"))  # fmt: skip
    room.file("r.trace", trace.replace("300000000000 end", "3000000000000 end"))
    must("bytes" in room.run("tools/blame", "r.trace").error, "a longer trace")


def check_windows_add_up(room: Room) -> None:
    """A group's run times (ns) in all windows add up to the group's total run time."""
    trace = runaway()
    found = companion(trace, {})
    with_companion(room, "r.trace", trace, Companion(found.size, found.digest, found.length))
    done = room.run("tools/blame", "r.trace", "--json")
    groups = {it["group"]: it["ran_ns"] for it in done.json()["groups"]}  # type: ignore[index]
    for path, ran in groups.items():
        below = [it.ran for it in found.busy if f"{it.path}/".startswith(f"{path.rstrip('/')}/")]
        must_be(f"for how long {path} ran", sum(below), ran)


def check_anonymous_traces(room: Room) -> None:
    """In an anonymous trace, groups and tasks have numbers instead of names. Everything else is
    unchanged.
    """
    trace, anonymous = runaway(), Anonymous()
    names = {1: "httpd", 2: "indexer", 3: "import"}
    parts = [trace[start : start + 1000].encode() for start in range(0, len(trace), 1000)]
    room.file("r.trace", trace)
    room.file("a.trace", b"".join(anonymous.parts(parts)))
    known = companion(trace, names)
    anonymous.companion(known)
    write_companion(f"{room.path}/{companion_of('a.trace')}", known)
    text = ""
    for name in ("a.trace", "a.trace.names"):
        with open(os.path.join(room.path, name), encoding="ascii") as file:
            text += file.read()
    for secret in ("web", "batch", "import", "index", *names.values()):
        must(secret not in text, f"{secret} is gone")
    paths = {
        "/": "/", "/web": "/g1", "/batch": "/g2", "/batch/import": "/g2/g3",
        "/batch/index": "/g2/g4",
    }
    for what in ("stall", "replay"):
        wanted = room.run("psi_oomd", what, "r.trace").output
        for path, number in sorted(paths.items(), reverse=True):
            wanted = wanted.replace(f" {path} ", f" {number} ")
        found = room.run("psi_oomd", what, "a.trace").output
        must_be(f"what {what} prints", sorted(found.splitlines()), sorted(wanted.splitlines()))
    must_be("a line of the summary",
            anonymous.text("not accounted all the time: /batch/index, /web: lines"),
            "not accounted all the time: /g2/g4, /g1: lines")  # fmt: skip
