"""Parses the --help of a tool, and the launcher's help text for the programs. Manual pages and
completions are generated from the result.
"""
from __future__ import annotations

import os
import re
import subprocess
import sys
from dataclasses import dataclass, field

from psicli.fault import Fault

# The environment for --help. It sets a fixed width, so that the output is the same on each machine,
# and switches colors off.
ENVIRONMENT = {
    "COLUMNS": "100",
    "NO_COLOR": "1",
    "TERM": "dumb",
    "LC_ALL": "C.UTF-8",
    "PYTHONDONTWRITEBYTECODE": "1",
}
SECTION = re.compile(r"(positional arguments|options|optional arguments):")
ITEM = re.compile(r" {2}(\S.*?)(?: {2,}(\S.*))?")
# Matches a command and its description. The description of a long name begins on the next line.
COMMAND = re.compile(r" {4}([a-z][a-z-]*)(?: {2,}(\S.*))?")
# Matches an option in a usage: its name, and the name of its value or the possible values.
OPTION = re.compile(r"(--?[a-z][a-z0-9-]*)(?:[ =](\{[^}]*\}|'[^']*'|[A-Z][A-Z0-9_:=.]*))?")


@dataclass(frozen=True)
class Item:
    """An argument or an option: its syntax, and its meaning."""

    words: str
    about: str


@dataclass
class Help:
    """The parts of --help. `usage` doesn't contain the tool's name. `before` contains the
    paragraphs before the arguments, and `after` those after the last list. The lists are the
    arguments, the options, and the commands with their descriptions.
    """

    usage: str
    before: list[str] = field(default_factory=list)
    arguments: list[Item] = field(default_factory=list)
    options: list[Item] = field(default_factory=list)
    commands: list[Item] = field(default_factory=list)
    after: list[str] = field(default_factory=list)


def said_by(words: list[str]) -> str:
    """Returns the standard output of a command. Raises a Fault if the command fails."""
    done = subprocess.run(
        words, capture_output=True, encoding="utf-8", env={**os.environ, **ENVIRONMENT}
    )
    if done.returncode:
        raise Fault(f"{' '.join(words)}: status {done.returncode}: {done.stderr.strip()}")
    return done.stdout


def help_of(path: str, *command: str) -> Help:
    """Returns the parsed help of a tool, or of one of its commands."""
    return help_in(said_by([sys.executable, "-B", path, *command, "--help"]))


def help_in(text: str) -> Help:
    """Parses the text of --help."""
    head, *blocks = re.split(r"\n\n", text.rstrip("\n"))
    words = re.sub(r"\s+", " ", head.removeprefix("usage: "))
    found = Help(usage_without_name(words))
    for block in blocks:
        first, _, rest = block.partition("\n")
        title = SECTION.fullmatch(first)
        if title and title[1] == "positional arguments":
            read_items(rest, found.arguments, found.commands)
        elif title:
            read_items(rest, found.options, [])
        else:
            (found.after if found.options else found.before).append(block)
    if not found.options:
        raise Fault(f"no option stands in this help:\n{text}")
    return found


def usage_without_name(words: str) -> str:
    """Returns a usage without the names of the tool and of its command."""
    _, *rest = words.split(" ")
    while rest and re.fullmatch("[a-z][a-z-]*", rest[0]):
        rest.pop(0)
    return " ".join(rest)


def read_items(text: str, items: list[Item], commands: list[Item]) -> None:
    """Parses a section of --help. Adds its arguments or options to `items`, and the commands that
    are listed below an argument to `commands`.
    """
    rows = items
    for line in text.split("\n"):
        command, item = COMMAND.fullmatch(line), ITEM.fullmatch(line)
        if command:
            rows = commands
            rows.append(Item(command[1], command[2] or ""))
        elif item and not line.startswith("   "):
            rows = items
            rows.append(Item(item[1], item[2] or ""))
        elif rows:
            last = rows.pop()
            rows.append(Item(last.words, f"{last.about} {line.strip()}".strip()))


def options_in(items: list[Item]) -> dict[str, str]:
    """Returns the options among these items. Each option is mapped to the name of its value, as the
    usage writes it, or to an empty string if it has no value.
    """
    found: dict[str, str] = {}
    for item in items:
        written = OPTION.findall(item.words)
        value = next((value for _, value in written if value), "")
        found.update({name: value for name, _ in written})
    return found


def commands_in(text: str, program: str) -> dict[str, dict[str, str]]:
    """Returns the commands of a program, as in the launcher's --help, with the options of each
    command and their values. A program without commands has a single command with an empty name.
    """
    joined = re.sub(r"\n {10,}(?=\[)", " ", text)
    found: dict[str, dict[str, str]] = {}
    for line in re.findall(rf"^ +{program} (.*)$", joined, re.MULTILINE):
        words = re.sub(r" {2,}.*", "", line)
        first = words.split(" ")[0]
        command = first if re.fullmatch("[a-z]+", first) else ""
        found.setdefault(command, {}).update(dict(OPTION.findall(words)))
    return found
