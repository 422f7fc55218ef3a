"""Finds the commands of a document, runs them, and reports each that doesn't print what the
document shows.
"""
from __future__ import annotations

import dataclasses
import os
import pathlib
import re
import subprocess
import tempfile
from collections.abc import Iterator

from shared.difference import difference

TOP = pathlib.Path(__file__).resolve().parents[2]
SECONDS = 600
NOT_RUN = re.compile(r"<!-- not run: .+ -->")
ELISION = "..."


@dataclasses.dataclass
class Block:
    """A code block of a document: the number of its first line (from 1), its lines, and whether the
    document says not to run it.
    """

    number: int
    lines: list[str]
    is_left_out: bool


@dataclasses.dataclass
class Command:
    """A command that a document shows, its line number in the document, and the lines that it must
    print.
    """

    number: int
    text: str
    wanted: list[str]


def blocks_of(text: str) -> Iterator[Block]:
    """Yields the blocks of code of a document."""
    lines = text.splitlines()
    at = 0
    while at < len(lines):
        begin, fence = at, lines[at].lstrip().startswith("```")
        if fence:
            end = next(
                (i for i in range(at + 1, len(lines)) if lines[i].lstrip().startswith("```")),
                len(lines),
            )
            found, at = [line.removeprefix("    ") for line in lines[at + 1 : end]], end + 1
        elif lines[at].startswith("    ") and (
            at == 0 or not lines[at - 1].strip() or NOT_RUN.search(lines[at - 1])
        ):
            end = next((i for i in range(at, len(lines)) if not lines[i].startswith("    ")),
                       len(lines))
            found, at = [line[4:] for line in lines[at:end]], end
        else:
            at += 1
            continue
        is_left_out = any(NOT_RUN.search(line) for line in lines[max(0, begin - 2) : begin])
        yield Block(begin + 1 + fence, found, is_left_out)


def commands_of(block: Block) -> Iterator[Command]:
    """Yields the commands of a code block, each with the output that the document shows."""
    command = None
    lines = iter(enumerate(block.lines, block.number))
    for number, line in lines:
        if not line.startswith(("$ ", "# ")):
            if command:
                command.wanted.append(line)
            continue
        if command:
            yield command
        command = Command(number, line if line.startswith("# ") else line[2:], [])
        while command.text.endswith("\\"):
            command.text += "\n" + next(lines)[1]
        word = re.search(r"<<'?([A-Z]+)", command.text)
        while word and command.text.rpartition("\n")[2] != word[1]:
            command.text += "\n" + next(lines)[1]
    if command:
        yield command


def is_as_wanted(wrote: list[str], wanted: list[str]) -> bool:
    """Returns whether the printed lines `wrote` equal the lines `wanted` of the document. In the
    document, a line of three dots matches any number of lines.
    """
    if ELISION not in wanted:
        return wrote == wanted
    front = wanted.index(ELISION)
    rest = wanted[front + 1 :]
    ends = range(front, len(wrote) + 1)
    return wrote[:front] == wanted[:front] and any(is_as_wanted(wrote[end:], rest) for end in ends)


def fault_of(command: Command, folder: str) -> str:
    """Runs a command in the folder. Returns how its result differs from the document, or '' if it
    doesn't differ.
    """
    if command.text.startswith("# "):
        return "a command of root's has no comment that says why it isn't run"
    try:
        done = subprocess.run(
            ["sh", "-c", command.text], cwd=folder, stdin=subprocess.DEVNULL,
            stdout=subprocess.PIPE,
            stderr=subprocess.STDOUT, timeout=SECONDS, encoding="utf-8",
        )
    except subprocess.TimeoutExpired:
        return f"it hadn't ended after {SECONDS} seconds"
    if done.returncode != 0:
        return f"its status is {done.returncode}; it prints\n{done.stdout}"
    if not is_as_wanted(done.stdout.splitlines(), command.wanted):
        return f"it prints something else:\n{difference(command.wanted, done.stdout.splitlines())}"
    return ""


def make_folder(folder: str, programs: dict[str, str]) -> None:
    """Fills a folder with links to everything at the top of the repository. The names of the
    launchers are links to the given programs instead.
    """
    for entry in TOP.iterdir():
        os.symlink(programs.get(entry.name, entry), os.path.join(folder, entry.name))


def run_document(path: pathlib.Path, programs: dict[str, str]) -> tuple[int, list[str]]:
    """Runs the document's commands. Returns the number of commands that ran, and a message for each
    fault.
    """
    count, faults = 0, list[str]()
    with tempfile.TemporaryDirectory() as folder:
        make_folder(folder, programs)
        for block in blocks_of(path.read_text(encoding="utf-8")):
            for command in () if block.is_left_out else commands_of(block):
                count += 1
                fault = fault_of(command, folder)
                if fault:
                    faults.append(
                        f"{path.relative_to(TOP)}:{command.number}: "
                        f"{command.text.splitlines()[0]}: {fault}"
                    )
    return count, faults
