#!/usr/bin/env python3
"""Prints the page crates/README.md, which lists all crates under the headings of crates.txt, each
with the first sentence of its header.

usage: bench/crates_page.py [--write]

--write stores the page. `tests/house` compares the stored page with this program's output.
"""
from __future__ import annotations

import pathlib
import re
import sys

ROOT = pathlib.Path(__file__).resolve().parent.parent
PAGE = ROOT / "crates" / "README.md"
HEAD = """# The crates

One line for each crate: the first sentence of its own header. The groups and their order are those
of `crates.txt`, where each line also lists what the crate stands on.
[ARCHITECTURE](../docs/ARCHITECTURE.md) says how they work together. This page is made by
`bench/crates_page.py --write`.
"""


def root_file(crate: str) -> pathlib.Path:
    """Returns the root file of a crate."""
    library = ROOT / "crates" / crate / "src" / "lib.rt"
    return library if library.exists() else library.with_name("main.rt")


def header_of(crate: str) -> list[str]:
    """Returns the comment lines at the top of a crate's root file, without comment marks."""
    lines = root_file(crate).read_text(encoding="utf-8").splitlines()
    end = next((i for i, line in enumerate(lines) if not line.startswith("//!")), len(lines))
    return [line[3:].strip() for line in lines[:end]]


def summary_of(crate: str) -> str:
    """Returns the first sentence of a crate's header."""
    lines = header_of(crate)
    paragraph = " ".join(lines[: lines.index("")] if "" in lines else lines)
    sentence = re.split(r"(?<=[.])\s+(?=[A-Z`\[])", paragraph)[0]
    return re.sub(r"\[(`[^`]*`)\]", r"\1", sentence)


def groups() -> list[tuple[str, list[str]]]:
    """Returns the headings of crates.txt, each with the crates below it."""
    found: list[tuple[str, list[str]]] = []
    for line in (ROOT / "crates.txt").read_text(encoding="utf-8").splitlines()[1:]:
        if line.startswith("#"):
            found.append((line[1:].strip().rstrip("."), []))
        elif line.strip():
            found[-1][1].append(line.partition(":")[0].strip())
    return found


def page() -> str:
    """Returns the whole page crates/README.md."""
    parts = [HEAD]
    for title, crates in groups():
        rows = "".join(f"| [{crate}]({crate}) | {summary_of(crate)} |\n" for crate in crates)
        parts.append(f"## {title}\n\n| crate | what it is |\n|---|---|\n{rows}")
    return "\n".join(parts)


def main() -> int:
    """Prints the page crates/README.md, or stores it with --write."""
    if sys.argv[1:] not in ([], ["--write"]):
        print(__doc__, file=sys.stderr)
        return 2
    if sys.argv[1:]:
        PAGE.write_text(page(), encoding="utf-8")
    else:
        print(page(), end="")
    return 0


if __name__ == "__main__":
    sys.exit(main())
