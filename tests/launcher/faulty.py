"""Checks that the launcher reports usage errors at once, without a build. If the program rejects a
file, the launcher says what kind of file it is.
"""
from __future__ import annotations

import os

from harness import must_be
from launcher.copies import GEN, Copy

# Faulty arguments of psi_oomd, with the exit status and the message. The command runs in a folder
# with a trace `t`, a recording `r` and a folder `d`.
FAULTY = (
    ((), 1, "which command? ./psi_oomd --help has all of them"),
    (("repaly", "t"), 1, "unknown command repaly: did you mean replay?"),
    (("what-if", "t"), 1, "unknown command what-if: did you mean whatif?"),
    (("xyzzy",), 1, "unknown command xyzzy"),
    (("a b", "*"), 1, "unknown command a b"),
    (("--versoin",), 1, "unknown option --versoin: did you mean --version?"),
    (("-h",), 1, "unknown option -h: did you mean --help?"),
    (("help",), 1, "unknown command help: did you mean --help?"),
    (("--help", "t"), 1, "--help comes alone: ./psi_oomd --help"),
    (("replay", "t", "--help"), 1, "--help comes alone: ./psi_oomd --help"),
    (("replay", "t", "--rule", "none"), 1, "unknown option --rule: did you mean --rules?"),
    (("replay", "none", "--rules=t", "--reports=3"), 1,
     "unknown option --reports: did you mean --report-s?"),
    (("stall", "t", "--tick-ms", "5"), 1, "unknown option --tick-ms"),
    (("replay",), 1, "replay takes the name of a trace, or - for standard input"),
    (("import", "--cpus", "2"), 1, "import takes the name of a text, or - for standard input"),
    (("replay", "t", "t"), 1,
     "replay takes the name of one trace, and there are 2 words that aren't options"),
    (("gen", *GEN, "--events", "1", "t"), 1, "gen takes no name of a file"),
    (("gen", *GEN), 1, "gen takes --events too"),
    (("whatif", "t"), 1, "whatif takes --rules too"),
    (("replay", "t", "--tick-ms"), 1, "--tick-ms takes a value"),
    (("replay", "t", "--report-s", "1", "--report-s=2"), 1, "--report-s may be given once"),
    (("replay", "t", "--drop-in", "t"), 1, "replay takes --rules too"),
    (("replay", "none"), 4, "no trace none: names count from the folder in which the command runs"),
    (("replay", "--", "--rules"), 4,
     "no trace --rules: names count from the folder in which the command runs"),
    (("replay", "t", "--rules", "none"), 4,
     "no rules file none: names count from the folder in which the command runs"),
    (("rules", "t", "--drop-in=none"), 4,
     "no drop-in file none: names count from the folder in which the command runs"),
    (("check", "d"), 5, "the trace d is a directory"),
    (("check", "r"), 5, "the trace r is a recording: tools/psitrace r > FILE makes a trace of it"),
)
FAULTLESS = (
    ("gen", *GEN, "--events", "1"), ("whatif", "--rules=t", "--", "t"),
    ("import", "t", "--cpus", "0"), ("rules", "t"),
    ("replay", "--live", "none", "t"), ("rules", "-", "--drop-in", "t"),
)  # fmt: skip
# Invalid values of options, with the hint that the launcher prints after the program's own message.
VALUES = (
    (("replay", "-", "--rules", "t", "--tick-ms=x"),
     "--tick-ms takes a whole number such as 2, not 'x'"),
    (("check", "t", "--tick-ms", "--rules"),
     "--tick-ms takes a whole number such as 2, not '--rules'"),
    (("replay", "t", "--report-s", "2s"), "--report-s takes a whole number such as 2, not '2s'"),
    (("replay", "t", "--report-s", "-1"), "--report-s takes a whole number such as 2, not '-1'"),
    (("replay", "t", "--interval-s="), "--interval-s takes a whole number such as 2, not ''"),
    (("replay", "t", "--live", "x", "--live-count", "07"),
     "--live-count takes a whole number such as 2, not '07'"),
    (("replay", "t", "--rules", "-"),
     "--rules takes a file's name: standard input is for the trace"),
)


def make_files(place: str) -> None:
    """Writes a trace, a folder and a recording."""
    os.makedirs(os.path.join(place, "r"))
    os.makedirs(os.path.join(place, "d"))
    for name, text in (("t", "psitrace 2 cpus=1\n0 end\n"), ("r/meta", "recording 1\n")):
        with open(os.path.join(place, name), "w", encoding="utf-8") as file:
            file.write(text)


def check_faulty_words(room: str) -> None:
    """Usage errors are reported without a build, with the program's exit status. If the program is
    already built, its own message comes first.
    """
    copy, place = Copy(room, "psi_oomd"), os.path.join(room, "files")
    make_files(place)
    for words, status, hint in FAULTY:
        must_be(f"{words} without a program", copy.run(*words, place=place),
                (status, "", f"psi_oomd: {hint}\n"))
    for words in (*FAULTLESS, *(words for words, _ in VALUES)):
        must_be(f"{words} are for the program", copy.run(*words, place=place)[0], 70)
    copy.give_program("echo own >&2")
    for words, _, hint in FAULTY:
        said = "".join(f"<{word}>\n" for word in words) or "<>\n"
        must_be(f"{words} beside a program", copy.run(*words, place=place),
                (7, said, f"own\npsi_oomd: {hint}\n"))
    for words in FAULTLESS:
        must_be(f"{words} beside a program", copy.run(*words, place=place),
                (7, "".join(f"<{it}>\n" for it in words), "own\n"))
    for words, hint in VALUES:
        said = "".join(f"<{word}>\n" for word in words)
        must_be(f"{words} beside a program", copy.run(*words, place=place),
                (7, said, f"own\npsi_oomd: {hint}\n"))
    other = Copy(room, "psi_observe")
    must_be("two words", other.run("t", "1", place=place),
            (1, "", "psi_observe: psi_observe takes three words: TRACE OBSERVERS PATH\n"))
    missing = "psi_observe: no trace none: names count from the folder in which the command runs\n"
    must_be("no such file", other.run("none", "1", "/", place=place), (4, "", missing))
    must_judge_pages(Copy(room, "psi_convert"), place)


def must_judge_pages(copy: Copy, place: str) -> None:
    """Usage errors of psi_convert in the command, the table or the page files are reported without
    a build.
    """
    words = "psi_convert takes the word events and names: TABLE PAGES.."
    folder = "names count from the folder in which the command runs"
    option = "psi_convert has no option --raw: a name that begins with - is written as ./--raw"
    for arguments, status, hint in (
        ((), 1, words),
        (("events", "t"), 1, words),
        (("trace", "t", "t"), 1, words),
        (("events", "none", "t"), 4, f"no table none: {folder}"),
        (("events", "t", "t", "none"), 4, f"no file of pages none: {folder}"),
        (("events", "t", "--raw"), 1, option),
    ):
        must_be(f"{arguments}", copy.run(*arguments, place=place),
                (status, "", f"psi_convert: {hint}\n"))
    must_be("right words", copy.run("events", "t", "-", place=place)[0], 70)


# Files that aren't traces, with the message for each.
NO_TRACES = {
    "t.gz": (b"\x1f\x8b\x08\0\0\0", "compressed by gzip: gunzip -c t.gz > FILE"),
    "t.xz": (b"\xfd7zXZ\0\0", "compressed by xz: xz -dc t.xz > FILE"),
    "trace.dat": (
        b"\x17\x08\x44tracing6\0",
        (
            "trace-cmd's binary file: trace-cmd report trace.dat > TEXT, and tools/psitrace reads "
            "the text"
        ),
    ),
    "empty": (b"", "an empty file"),
    "crlf": (b"psitrace 1 cpus=1\r\n0 end\r\n",
             "a trace whose lines end in CR LF: "
             "tr -d '\\r' < crlf > FILE makes one that psi_oomd takes"),
    "replayed": (b"report 2000000000 / io\n",
                 "what replay prints, and no trace: tools/chart and tools/top read it"),
    "text": (b"# tracer: nop\n#\n",
             "a text of ftrace: tools/psitrace --cpus N text > FILE makes a trace of it"),
    "rules": (b'{"rulesets": []}\n', "JSON: a rules file comes after --rules"),
    "strange": (b"\0\1\2", None),
    "other": (b"psitrace 9 cpus=1\n", None),
}  # fmt: skip


def check_what_is_no_trace(room: str) -> None:
    """If the program rejects a file, the launcher says what kind of file it is. Without a built
    program the launcher says nothing about the file.
    """
    copy, place = Copy(room, "psi_oomd"), os.path.join(room, "files")
    os.makedirs(place)
    for name, (data, _) in NO_TRACES.items():
        with open(os.path.join(place, name), "wb") as file:
            file.write(data)
        must_be(f"{name} without a program", copy.run("check", name, place=place)[0], 70)
    copy.give_program("echo 'trace line 1: BadHeader' >&2")
    for name, (_, hint) in NO_TRACES.items():
        wanted = "trace line 1: BadHeader\n" + (f"psi_oomd: {name} is {hint}\n" if hint else "")
        must_be(name, copy.run("check", name, place=place), (7, f"<check>\n<{name}>\n", wanted))
    copy.give_program("exit 0")
    must_be("what it takes", copy.run("check", "t.gz", place=place), (0, "<check>\n<t.gz>\n", ""))
