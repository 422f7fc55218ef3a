"""Checks of the launcher's option --try: which files it passes to `rt`, and which program it
stores.
"""
from __future__ import annotations

import os
import pathlib
import shutil

from harness import must_be
from shared.program import TOP
from launcher.copies import BUILDS, GEN, RIGHT, TOO_LONG, WARNED, Copy, copies
from launcher.faulty import make_files


def check_what_a_trial_is_handed(room: str) -> None:
    """`--try` passes to `rt` exactly the files that the program reads. Another argument isn't
    treated as a file, even if a file with that name exists.
    """
    copy = Copy(room, "psi_oomd")
    place = copy.give_rt()
    for name in ("t", "r", "5", "a b=c", "-x"):
        with open(os.path.join(place, name), "w", encoding="utf-8") as file:
            file.write(f"<{name}>")
    with open(
        os.path.join(copy.top, "crates", "psi_oomd_main", "args"), "w", encoding="utf-8"
    ) as file:
        file.write("what isn't meant")
    whole = os.path.join(place, "t")
    trials: tuple[tuple[tuple[str, ...], list[str], list[str]], ...] = (
        (("check", "t"), ["<t>"], ["check", "given-1"]),
        (("check", whole), ["<t>"], ["check", "given-1"]),
        (("rules", "a b=c"), ["<a b=c>"], ["rules", "given-1"]),
        (("replay", "t", "--rules", "r"), ["<t>", "<r>"],
         ["replay", "given-1", "--rules", "given-2"]),
        (("whatif", "--drop-in=a b=c", "--rules=r", "t"), ["<a b=c>", "<r>", "<t>"],
         ["whatif", "--drop-in=given-1", "--rules=given-2", "given-3"]),
        (("replay", "--tick-ms", "5", "t", "--live", "t"), ["<t>"],
         ["replay", "--tick-ms", "5", "given-1", "--live", "t"]),
        (("replay", "--tick-ms=5", "--", "-x"), ["<-x>"],
         ["replay", "--tick-ms=5", "--", "given-1"]),
        (("gen", *GEN, "--events", "5"), [], ["gen", *GEN, "--events", "5"]),
        (("replay", "t", "--rules", "-"), ["<t>"], ["replay", "given-1", "--rules", "-"]),
        (("import", "-", "--cpus", "2"), ["given text"], ["import", "given-1", "--cpus", "2"]),
    )
    for words, files, program in trials:
        found, rest = copy.trial(*words, place=place, stdin="given text", TMPDIR=place)
        must_be(f"the words of the trial of {words}", rest, program)
        wanted = {f"given-{number}={text}" for number, text in enumerate(files, 1)}
        must_be(f"the files of the trial of {words}", set(found), wanted)
        must_be("what a trial leaves", sorted(os.listdir(place)), ["-x", "5", "a b=c", "r", "t"])


def check_a_trial_of_the_observers(room: str) -> None:
    copy = Copy(room, "psi_observe")
    place = copy.give_rt()
    for name in ("t", "1"):
        with open(os.path.join(place, name), "w", encoding="utf-8") as file:
            file.write(f"<{name}>")
    must_be("the words", copy.trial("t", "1", "/a", place=place),
            (["given-1=<t>"], ["given-1", "1", "/a"]))


def check_a_trial_of_pages(room: str) -> None:
    copy = Copy(room, "psi_convert")
    place = copy.give_rt()
    for name in ("events", "t", "a", "b"):
        with open(os.path.join(place, name), "w", encoding="utf-8") as file:
            file.write(f"<{name}>")
    files = ["given-1=<t>", "given-2=<a>", "given-3=<b>"]
    found, words = copy.trial("events", "t", "a", "b", place=place)
    must_be("the words", (sorted(found), words),
            (files, ["events", "given-1", "given-2", "given-3"]))


def check_a_trial_without_an_answer(room: str) -> None:
    for copy in copies(room):
        words = RIGHT[copy.name]
        must_be("--try without rt", copy.run("--try", *words)[:2], (70, ""))
        must_be("--try and faulty words", copy.run("--try", "a")[:2], (1, ""))
        copy.give_rt()
        limits = (
            "a trial has at most 20,000,000 steps, 60 seconds and 1 MiB of output: take less, or "
            "build ./"
            + copy.name
        )
        for said, more in (
            (f"checked: no-answer: {TOO_LONG}\nrun=no-answer proved=no\n",
             [f"the trial gave no answer: {TOO_LONG}", limits]),
            ("error: a type\nrun=none proved=no\n", ["the trial gave no answer"]),
        ):
            status, output, error = copy.run("--try", *words, SAID=said, STATUS="6")
            lines = [f"{copy.name}: {line}" for line in (WARNED, BUILDS.format(copy.name))]
            lines += [line for line in said.splitlines() if line.startswith("error")]
            wanted = [*lines, *(f"{copy.name}: {line}" for line in more)]
            must_be(f"a trial where rt said {said!r}", (status, output, error.splitlines()),
                    (70, "", wanted))
        status, output, error = copy.run("--try")
        must_be(
            "--try alone",
            (
                status, output,
                error.startswith(f"{copy.name}: after --try come the program's words"),
            ),
            (1, "", True),
        )
        must_be("--try --version", copy.run("--try", "--version")[0], 0)


# A stub of the program that `rt` links. Like psi_oomd, it rejects a run without arguments and
# accepts a trace.
LINKED = """#!/bin/sh
case $# in 0) echo 'usage: psi_oomd stall or check' >&2; exit 1 ;; esac
[ "$1 $2" != 'check -' ] || exit 0
printf '<%s>\\n' "$@"
exit 7
"""


def run_kept(copy: Copy, cache: str, *words: str, **more: str) -> tuple[int, str, str]:
    """Runs the launcher with `--try` and this cache folder. Returns the exit status, standard
    output and standard error.
    """
    return copy.run("--try", *words, XDG_CACHE_HOME=cache, **more)


def check_a_trial_that_is_kept(room: str) -> None:
    """The program that `rt` links for `--try` is stored under a checksum of its sources. Later runs
    need no `rt`.
    """
    copy = Copy(room, "psi_oomd")
    place = copy.give_sources()
    cache, linked = os.path.join(room, "cache"), os.path.join(room, "linked")
    os.makedirs(os.path.join(copy.top, "examples"))
    shutil.copy(os.path.join(TOP, "examples", "one-wait.trace"), os.path.join(copy.top, "examples"))
    make_files(place)
    words, printed = ("replay", "t", "--tick-ms=1"), "<replay>\n<t>\n<--tick-ms=1>\n"
    with open(linked, "w", encoding="utf-8") as file:
        file.write("#!/bin/sh\nexit 1\n")
    status, output, _ = run_kept(copy, cache, "--build", LINKED=linked, SLEEP="2")
    must_be("another program isn't kept",
            (status, output, os.listdir(os.path.join(cache, "psi-oomd"))), (70, "", []))
    with open(linked, "w", encoding="utf-8") as file:
        file.write(LINKED)
    again = "psi_oomd: nothing is proved by this run: it is the unproved program of these sources\n"
    status, output, error = run_kept(copy, cache, *words, place=place, LINKED=linked, SLEEP="60")
    must_be("the first run", (status, output, error.endswith(again)), (7, printed, True))
    os.unlink(os.path.join(copy.path, "rt"))
    must_be("the next run", run_kept(copy, cache, *words, place=place), (7, printed, again))
    folder = os.path.join(cache, "psi-oomd")
    programs = [os.path.join(folder, it) for it in os.listdir(folder)]
    must_be("what is kept",
            [(os.stat(it).st_mode & 0o777, it.endswith("-unproved")) for it in programs],
            [(0o700, True)])
    must_be("where it is", run_kept(copy, cache, "--build"), (0, f"{programs[0]}\n", ""))
    must_be("as the variable names it", copy.run(*words, place=place, PSI_OOMD=programs[0]),
            (7, printed, ""))
    unproved = (
        f"psi_oomd of no known commit: {programs[0]}, an unproved build, which PSI_OOMD names\n"
    )
    must_be("its version", copy.run("--version", PSI_OOMD=programs[0]), (0, unproved, ""))
    pathlib.Path(copy.top, "crates", "low", "src", "lib.rt").write_text("changed", encoding="utf-8")
    must_be("of other sources there is none", run_kept(copy, cache, *words, place=place)[:2],
            (70, ""))
