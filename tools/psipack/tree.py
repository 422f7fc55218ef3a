"""Collects the files of the package from the repository. Each file gets the path at which it is
installed, and names in it are replaced by installed names.
"""
from __future__ import annotations

import os
import re
import subprocess
from dataclasses import dataclass

from psicli.fault import Fault

from .commands import OF_CHECKOUTS, PROGRAMS, TOOLS

LIBRARY = "lib/psi-oomd"
DOCUMENTS = "share/doc/psi-oomd"
PAGES = "share/man/man1"
PYTHON = b"#!/usr/bin/env python3\n"
# The first line of an installed tool. It runs Debian's own Python. The option -B prevents compiled
# files, which no package would own.
INSTALLED_PYTHON = b"#!/usr/bin/python3 -B\n"
# The first line of tools that begin with shell commands. The shell reports an error if standard
# input is a folder, and then starts Python.
BY_SHELL = b"#!/bin/sh\n"
STARTED = re.compile(rb"^exec python3 -B ", re.MULTILINE)
COMMANDS = {tool.file: tool.command for tool in TOOLS}
NAMED_TOOL = re.compile(rf"(?<![\w./-])tools/({'|'.join(map(re.escape, COMMANDS))})(?![\w/-]|\.\w)")
# Patterns for the names of tools in messages and usages. Messages of psitrace keep the name, since
# other tools parse them.
TOOL_NAME = "|".join(map(re.escape, COMMANDS))
MESSAGE = re.compile(rf'(\bf")({TOOL_NAME.replace("psitrace|", "")})(?=: )')
ECHOED = re.compile(rf'(?<=echo ")({TOOL_NAME})(?=: )')
PROGRAM_NAME = re.compile(rf'(\bprog=")({TOOL_NAME})(?=")')
# Matches parts of documents that only concern a checkout of the sources.
OF_SOURCES = re.compile(r"<!-- in a checkout -->\n.*?<!-- end -->\n+", re.DOTALL)
LINK = re.compile(r"(!?)\[([^\]]*)\]\(([^):#]+)(#[^)]*)?\)")


@dataclass(frozen=True)
class Member:
    """An installed file, with its path below the installation folder, its bytes and its mode. If
    `target` isn't empty, the member is a symbolic link to `target` instead.
    """

    path: str
    data: bytes = b""
    mode: int = 0o644
    target: str = ""


def tracked(top: str, *names: str) -> list[tuple[str, int]]:
    """Returns the files that git tracks among these files and folders, each with its mode.
    Untracked files aren't packed.
    """
    words = ["git", "-C", top, "ls-files", "-sz", "--", *names]
    listed = subprocess.run(words, check=True, stdout=subprocess.PIPE, encoding="utf-8").stdout
    rows = [row.partition("\t") for row in listed.split("\0") if row]
    return sorted((path, 0o755 if head.startswith("100755") else 0o644) for head, _, path in rows)


def bytes_of(*path: str) -> bytes:
    """Returns the bytes of a file. Raises a Fault if it can't be read."""
    name = os.path.join(*path)
    try:
        with open(name, "rb") as file:
            return file.read()
    except OSError as fault:
        raise Fault(f"{name}: {fault.strerror}") from None


def renamed(text: str) -> str:
    """Replaces commands of a checkout in a text by the names of installed commands."""
    text = NAMED_TOOL.sub(lambda found: COMMANDS[found[1]], text)
    text = re.sub(rf"\./({'|'.join(PROGRAMS)})\b", r"\1", text)
    return re.sub(rf"man -l docs/({'|'.join(PROGRAMS)})\.1", r"man \1", text)


def renamed_code(text: str) -> str:
    """Rewrites a tool's source, so that its messages and its usage begin with the name of the
    installed command.
    """
    text = MESSAGE.sub(lambda found: f"{found[1]}{COMMANDS[found[2]]}", text)
    text = ECHOED.sub(lambda found: COMMANDS[found[1]], text)
    return PROGRAM_NAME.sub(lambda found: f"{found[1]}{COMMANDS[found[2]]}", text)


def with_whole_paths(text: str) -> str:
    """Replaces paths of documents in a text by the paths at which the documents are installed."""
    text = re.sub(rf"docs/({'|'.join(PROGRAMS)})\.1", r"\1(1)", text)
    return re.sub(r"(?<![\w/-])docs/(?=[A-Z]+\.md)", f"/usr/{DOCUMENTS}/docs/", text)


# ---------------------------------------------------------------- the parts of the package


def programs_of(top: str, programs: dict[str, bytes], origin: str) -> list[Member]:
    """Returns the programs and their launchers, and the file `origin`, which contains the output of
    `--version`.
    """
    members = [Member(f"{LIBRARY}/origin", origin.encode())]
    for name, data in programs.items():
        members.append(Member(f"{LIBRARY}/programs/{name}", data, 0o755))
        members.append(Member(f"{LIBRARY}/{name}", bytes_of(top, name), 0o755))
        members.append(Member(f"bin/{name}", target=f"../{LIBRARY}/{name}"))
    return members


def by_installed_python(data: bytes) -> bytes:
    """Rewrites the first line of a tool, so that Debian's own Python runs it. Other files are
    returned unchanged.
    """
    if data.startswith(PYTHON):
        return INSTALLED_PYTHON + data[len(PYTHON) :]
    if data.startswith(BY_SHELL):
        return STARTED.sub(b"exec " + INSTALLED_PYTHON[2:-1] + b" ", data, 1)
    return data


def tools_of(top: str) -> list[Member]:
    """Returns the tools and their modules, and a link for each tool, which makes it a command."""
    members = []
    for path, mode in tracked(top, "tools"):
        if path.split("/")[1] not in OF_CHECKOUTS:
            text = bytes_of(top, path).decode()
            data = with_whole_paths(renamed_code(renamed(text))).encode()
            members.append(Member(f"{LIBRARY}/{path}", by_installed_python(data), mode))
    known = {member.path for member in members}
    for tool in TOOLS:
        if f"{LIBRARY}/tools/{tool.file}" not in known:
            raise Fault(f"git knows no tools/{tool.file}, which is to be {tool.command}")
        members.append(Member(f"bin/{tool.command}", target=f"../{LIBRARY}/tools/{tool.file}"))
    return members


def documents_of(top: str) -> list[Member]:
    """Returns the documents and the examples. Links to files that aren't installed are removed from
    them.
    """
    files = tracked(top, "README.md", "CHANGELOG.md", "LICENSE", "docs", "examples")
    paths = {path for path, mode in files if mode == 0o644 and not path.endswith(".1")}
    members = []
    for path in sorted(paths):
        data = bytes_of(top, path)
        if path.endswith(".md"):
            data = without_dead_links(
                renamed(OF_SOURCES.sub("", data.decode())), path, paths
            ).encode()
        members.append(Member(f"{DOCUMENTS}/{path}", data))
    return members


def without_dead_links(text: str, path: str, paths: set[str]) -> str:
    """Replaces links in a document by their text, if they lead to files that aren't in `paths` or
    below them.
    """

    def link(found: re.Match[str]) -> str:
        target = os.path.normpath(os.path.join(os.path.dirname(path), found[3]))
        is_there = any(it == target or it.startswith(f"{target}/") for it in paths)
        return found[0] if is_there else found[2]

    return LINK.sub(link, text)


def pages_of_programs(top: str, source: str) -> dict[str, bytes]:
    """Returns the manual pages in `docs`, keyed by their names. The foot of each page contains
    `source`.
    """
    found = {}
    for name in PROGRAMS:
        text = (
            bytes_of(top, "docs", f"{name}.1").decode().replace("\n.Os\n", f"\n.Os {source}\n", 1)
        )
        found[f"{name}.1"] = with_whole_paths(renamed(text)).encode()
    return found
