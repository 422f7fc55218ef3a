"""Makes pages with tools/report, and parses them for checks."""
from __future__ import annotations

import functools
import html.parser
import json
import os
import re
import subprocess
import sys
import tempfile
from typing import Any, Optional

from harness import must, must_be
from shared.program import TOP

REPORT = "tools/report"
# The elements of a page that differ between runs or builds: the time, the commit and the program's
# checksum.
CHANGING = re.compile(r'(<(?:time|code) class="(?:made|commit|program)">)[^<]*')
VOID = {"meta", "input", "br"}


class Node:
    """An element of a page. Its children are texts and elements, in order."""

    def __init__(self, tag: str, attributes: dict[str, str]) -> None:
        self.tag, self.attributes = tag, attributes
        self.children: list[Node | str] = []

    def find(self, tag: str, **wanted: str) -> list[Node]:
        """Returns all descendants with this tag and these attributes. If `class` is given, it must
        be one of the element's classes.
        """
        found = []
        for it in self.children:
            if isinstance(it, Node):
                is_wanted = all(
                    value in it.attributes.get(name.rstrip("_"), "").split(" ")
                    for name, value in wanted.items()
                )
                found += [it] if it.tag == tag and is_wanted else []
                found += it.find(tag, **wanted)
        return found

    def text(self) -> str:
        return "".join(it if isinstance(it, str) else it.text() for it in self.children)


class Reader(html.parser.HTMLParser):
    """Parses a page. Raises unless its elements are properly nested and closed."""

    def __init__(self) -> None:
        super().__init__()
        self.open = [Node("", {})]

    def handle_starttag(self, tag: str, attrs: list[tuple[str, Optional[str]]]) -> None:
        node = Node(tag, {name: value or "" for name, value in attrs})
        self.open[-1].children.append(node)
        if tag not in VOID:
            self.open.append(node)

    def handle_endtag(self, tag: str) -> None:
        must_be("the element that ends", self.open.pop().tag, tag)

    def handle_data(self, data: str) -> None:
        self.open[-1].children.append(data)


def read(page: bytes) -> Node:
    reader = Reader()
    reader.feed(page.decode())
    must_be("elements that are still open", len(reader.open), 1)
    return reader.open[0]


def run(program: str, *words: str, folder: str = TOP) -> subprocess.CompletedProcess[bytes]:
    environment = {**os.environ, "PSI_OOMD": program}
    return subprocess.run([sys.executable, os.path.join(TOP, REPORT), *words], cwd=folder,
                          capture_output=True, env=environment)


def page_of(program: str, *words: str, folder: str = TOP) -> bytes:
    """Runs report with these arguments, which must succeed, and returns the page."""
    done = run(program, *words, folder=folder)
    must_be(f"the status of report {words}, which said {done.stderr!r}", done.returncode, 0)
    return done.stdout


@functools.lru_cache(maxsize=None)
def story(program: str) -> bytes:
    """Returns the page of the example `runaway`, made with the command in README."""
    with tempfile.TemporaryDirectory() as folder:
        os.symlink(os.path.join(TOP, "examples"), os.path.join(folder, "examples"))
        page_of(program, "examples/runaway.trace", "--rules", "examples/runaway.json", "-o",
                "runaway.html", folder=folder)
        with open(os.path.join(folder, "runaway.html"), "rb") as file:
            return file.read()


def data_of(page: Node) -> dict[str, Any]:
    """Returns the data in the page that its script reads."""
    (found,) = page.find("script", id="data")
    data: dict[str, Any] = json.loads(found.text())
    must(data["panels"], "there are panels")
    return data


def same(page: bytes) -> str:
    """Returns the page without the elements that differ between runs or builds."""
    text = CHANGING.sub(r"\1", page.decode())
    must(
        text.count('class="made"') == text.count('class="commit"') == text.count(
            'class="program"'
        ) == 1,
        "each stands there once",
    )
    return text
