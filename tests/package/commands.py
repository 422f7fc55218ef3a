"""Checks the commands of the package, and the manual pages, documents and completions for them."""
from __future__ import annotations

import gzip
import os
import re
import shutil
import subprocess

from harness import must, must_be
from package.archives import (
    COMPLETIONS, DOCUMENTS, Made, commands_of_definition, offered_by_bash, offered_by_zsh,
    skipped,
)
from shared.program import TOP

# Tools that aren't packaged. `launch` and `package` are only for checkouts, and `events` needs
# psi_convert, which isn't packaged yet.
OWN_TOOLS = ("launch", "package", "events")


def check_each_command_has_a_page(package: Made, _room: str) -> None:
    must_be("the pages", sorted(os.listdir(package.path("share/man/man1"))),
            [f"{it}.1.gz" for it in package.commands()])
    for name in package.commands():
        with gzip.open(package.path("share/man/man1", f"{name}.1.gz"), "rt",
                       encoding="utf-8") as file:
            page = file.read().replace("\\-", "-")
        for option in set(
            re.findall(r"(?<![\w-])--[a-z][a-z-]*", package.run(name, "--help").stdout)
        ) - {"--root", "--"}:
            must(option in page or f"Fl {option[1:]}" in page, f"the page of {name} has {option}")
        must("tools/" not in page and "./psi_" not in page,
             f"the page of {name} names commands as they are installed")
    if not skipped("man", "its view of the pages"):
        words = [
            "man", "--warnings", "-l",
            *(package.path("share/man/man1", f"{it}.1.gz") for it in package.commands()),
        ]
        environment = {
            **os.environ, "LC_ALL": "C.UTF-8", "MANPAGER": "cat", "PAGER": "cat", "MANROFFOPT": "",
            "MANWIDTH": "100",
        }
        done = subprocess.run(words, env=environment, stdin=subprocess.DEVNULL, capture_output=True,
                              encoding="utf-8")
        must_be("what man says", (done.returncode, done.stderr), (0, ""))
        for name in package.commands():
            must(name.upper() in done.stdout.upper(), f"man shows {name}")


def check_what_documents_name(package: Made, _room: str) -> None:
    """The package contains all commands, examples and documents that its documents mention, under
    the same names.
    """
    count = 0
    for folder, _, names in os.walk(package.path(DOCUMENTS)):
        for name in (it for it in names if it.endswith(".md")):
            text, here = package.text(folder, name), os.path.relpath(
                os.path.join(folder, name), package.tree
            )
            links = re.findall(r"\]\(([^):#]+)(?:#[^)]*)?\)", text)
            named = re.findall(r"(?<![\w./-])(?:examples|docs)/[\w./-]*\w", text)
            commands = re.findall(r"(?<![\w./])psi-[a-z]+(?:-[a-z]+)*(?![\w./-])", text)
            tools = re.findall(r"(?<![\w./-])tools/([a-z-]+)(?![\w/.-])", text)
            must_be(f"links of {here} that lead nowhere",
                    [it for it in links if not os.path.exists(os.path.join(folder, it))], [])
            missing = [
                it
                for it in named
                if not os.path.exists(package.path(DOCUMENTS, it))
                and not os.path.exists(os.path.join(TOP, it))
            ]
            must_be(f"files that {here} names", missing, [])
            unknown = [it for it in commands if it not in package.commands() and it != "psi-oomd"]
            must_be(f"commands that {here} names", unknown, [])
            must_be(f"tools that {here} calls as a checkout does",
                    [it for it in tools if it not in OWN_TOOLS], [])
            must("./psi_o" not in text, f"{here} calls the programs by their installed names")
            count += len(links) + len(named) + len(commands)
    must(count > 100, f"documents name {count} things")


def check_completions(package: Made, _room: str) -> None:
    must_be("who has completions", sorted(os.listdir(package.path(COMPLETIONS))),
            package.commands())
    for shell, offered in (("bash", offered_by_bash), ("zsh", offered_by_zsh)):
        if skipped(shell, "its completions"):
            continue
        found = offered(package, "psi_oomd", "")
        must_be(f"commands that {shell} doesn't offer",
                [it for it in commands_of_definition() if it not in found], [])
        for words, wanted in (
            (("psi_oomd", "wh"), ["whatif"]),
            (("psi_oomd", "replay", "--r"), ["--report-s", "--rules"]),
            (("psi_oomd", "replay", "--drop-in", "runaway."),
             ["runaway.html", "runaway.json", "runaway.svg", "runaway.trace", "runaway.want"]),
            (("psi_oomd", "check", "one"), ["one-wait.trace"]),
            (("psi_oomd", "stall", "--"), []),
            (("psi-rules", "l"), ["lint"]),
            (("psi-rules", "lint", "--f"), ["--fix"]),
            (("psi-rules", "sweep", "--v"), ["--vary"]),
            (("psi-chart", "--resource", "m"), ["memory"]),
            (("psi-chart", "--beside", "runaway.w"), ["runaway.want"]),
            (("psi-record", "--until", "one"), ["one-wait.trace"]),
        ):
            must_be(f"what {shell} offers for {words}", sorted(offered(package, *words)), wanted)
    if shutil.which("zsh"):
        must_be("a value after = in zsh",
                offered_by_zsh(package, "psi_oomd", "replay",
                               "--rules=runaway.j"), ["runaway.json"])
    must_be("a value after =",
            offered_by_bash(package, "psi_oomd", "replay", "--rules", "=", "runaway.j"),
            ["runaway.json"])
    must_be("nothing after =", offered_by_bash(package, "psi-chart", "--resource", "="),
            ["io", "memory", "cpu", "irq"])


def check_messages_name_the_installed_command(package: Made, _room: str) -> None:
    """A usage error begins with the name under which the command was called."""
    for name in (it for it in package.commands() if "_" not in it):
        said = package.run(name, "--no-such-word").stderr
        must(re.search(rf"^{name}: ", said, re.MULTILINE) and f"usage: {name}" in said,
             f"{name} names itself: {said}")


def check_each_command_of_a_tool_is_offered(package: Made, _room: str) -> None:
    """The completed commands of a tool are those that the tool's usage error lists."""
    count = 0
    for name in (it for it in package.commands() if "_" not in it):
        said = package.run(name, "no-such-command").stderr
        wanted = re.findall(r"'([a-z-]+)'", said.partition("choose from ")[2])
        must_be(f"commands of {name} that bash doesn't offer",
                set(wanted) - set(offered_by_bash(package, name, "")), set())
        with gzip.open(package.path("share/man/man1", f"{name}.1.gz"), "rt",
                       encoding="utf-8") as file:
            page = file.read().replace("\\-", "-")
        must_be(f"commands of {name} without a section",
                [it for it in wanted if f".SH {it.upper()}\n" not in page], [])
        count += len(wanted)
    must(count > 4, f"commands are looked for: {count}")


def check_each_option_is_offered(package: Made, _room: str) -> None:
    for name in package.commands():
        options = set(
            re.findall(
                r"^  (?:-h, )?(--[a-z][a-z-]*)", package.run(name, "--help").stdout, re.MULTILINE
            )
        )
        found = offered_by_bash(package, name, "--")
        must("_" in name or len(options) > 0, f"{name} has options")
        must_be(f"options of {name} that aren't offered", options - set(found), set())
