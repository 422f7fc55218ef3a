#!/usr/bin/env python3
"""Prints a table with the numbers of lines of trusted definitions, code, contracts, proofs and
tests.

usage: bench/sizes.py [--unreached]

Counts lines that are neither blank nor comments. In definitions and proofs, `use` lines don't count
either. docs/ARCHITECTURE.md lists the trusted files. Laws, which are proved, are in other files. A
contract is a clause of a function or a loop (`requires`, `ensures`, `invariant`), an `assert`, or a
`ghost` item, up to the line with its last closing bracket.

Ends with status 1 if that list differs from the result of bench/believed.py: if it lacks a file on
which the contracts of the programs depend, or has a file that none of them needs. `--unreached`
prints the definitions in the trusted files on which no contract depends.
"""
import pathlib
import re
import sys
from collections.abc import Iterable, Iterator

import believed
from believed import CRATES, TOP

CONTRACT = re.compile(r"(requires|ensures|invariant|measure|assert|ghost)\b")
# Crates that only tests use, although their names don't end with `_tests`.
TEST_CRATES = ("outside_fakes", "test_support")
BELIEVED_TITLE = "## The files that have to be trusted"


def counted(lines: Iterable[str], comment: str) -> Iterator[str]:
    """Yields the lines that are neither blank nor comments, without surrounding spaces."""
    for line in map(str.strip, lines):
        if line and not line.startswith(comment):
            yield line


def definition_lines(path: pathlib.Path) -> int:
    """Returns the number of lines of an .antt file without blank lines, comments and `use` lines.
    """
    lines = path.read_text(encoding="utf-8").splitlines()
    return sum(1 for line in counted(lines, "--") if not line.startswith(("use ", "pub use ")))


def rust_lines(path: pathlib.Path) -> tuple[int, int]:
    """Returns the number of lines of code and the number of lines of contracts in an .rt file."""
    code = contracts = depth = 0
    for line in counted(path.read_text(encoding="utf-8").splitlines(), "//"):
        if depth == 0 and not CONTRACT.match(line):
            code += 1
            continue
        contracts += 1
        depth += sum(line.count(it) for it in "{([") - sum(line.count(it) for it in "})]")
    return code, contracts


def believed_section() -> str:
    """Returns the section of docs/ARCHITECTURE.md about the trusted files."""
    text = (TOP / "docs" / "ARCHITECTURE.md").read_text(encoding="utf-8")
    return text[text.index(BELIEVED_TITLE) :].partition("\n## ")[0]


def believed_files() -> tuple[list[pathlib.Path], list[pathlib.Path]]:
    """Returns the trusted files of definitions and the trusted files of types, according to
    docs/ARCHITECTURE.md.

    A cell of its table's first column has a library and files of its `specs`. A cell without a
    library continues the row above.
    """
    section = believed_section()
    definitions, folder = [], CRATES
    for cell in re.findall(r"^\| ([^|]*`[^|]*) \|", section, re.MULTILINE):
        named = re.match(r"(\w+): ", cell)
        folder = believed.folder_of(named[1]) or CRATES if named else folder
        definitions += [folder / "specs" / f"{name}.antt" for name in re.findall(r"`(\w+)`", cell)]
    types, crate = [], ""
    for name in re.findall(r"`([\w/]+\.rt)`", section.partition("\n|")[0]):
        crate = name.rpartition("/")[0] or crate
        types.append(CRATES / crate / name.rpartition("/")[2])
    return definitions, types


def is_listed(item: believed.Item, types: list[pathlib.Path]) -> bool:
    """Returns whether the list of trusted files covers a type: by the type's file, by its name if
    contracts see only its `Model`, or because the type is in the file of a listed function or
    trait.
    """
    by_name = believed.has_model(item) and f"`{item.name}`" in believed_section()
    return by_name or item.path in (*types, *(CRATES / name for name, _ in believed.ROOTS))


def list_faults() -> Iterator[str]:
    """Yields a message for each file that is missing from the list of trusted files or that is
    listed needlessly.
    """
    definitions, types = believed_files()
    reached: dict[pathlib.Path, list[str]] = {}
    for item in sorted(believed.believed()):
        if item.path.suffix == ".antt" or not is_listed(item, types):
            reached.setdefault(item.path, []).append(item.name)
    for path, names in reached.items():
        if path not in definitions:
            yield (
                f"lacks {path.relative_to(TOP) if path.is_absolute() else path}, which has "
                f"{', '.join(names)}"
            )
    rested = {item.path for item in believed.believed()}
    for path in (*definitions, *types):
        if path not in rested and believed.source_of(path):
            yield (
                f"has {path.relative_to(TOP) if path.is_absolute() else path}, on which nothing "
                "rests"
            )


def sum_of(pairs: Iterable[tuple[int, int]]) -> tuple[int, int]:
    """Returns the sum of the first components and the sum of the second components."""
    first = second = 0
    for one, other in pairs:
        first, second = first + one, second + other
    return first, second


def is_of_tests(crate: str) -> bool:
    """Returns whether only tests use the crate with this name."""
    return crate.endswith("_tests") or crate in TEST_CRATES


def sizes() -> Iterator[tuple[str, int]]:
    """Yields the name and the value of each row of the table."""
    definitions, types = believed_files()
    specs, proofs = (sorted(CRATES.glob(f"*/{kind}/**/*.antt")) for kind in ("specs", "proofs"))
    rust = sorted(CRATES.glob("*/src/**/*.rt"))
    tests = [path for path in rust if is_of_tests(path.relative_to(CRATES).parts[0])]
    code, contracts = sum_of(rust_lines(path) for path in rust if path not in tests)
    own = [path for path in definitions if path.is_relative_to(CRATES)]
    yield "lines of definitions to trust", sum(map(definition_lines, own))
    yield "lines of types to trust (code, counted again below)", sum_of(map(rust_lines, types))[0]
    yield "lines of other definitions and laws", sum(
        definition_lines(path) for path in specs if path not in definitions
    )
    yield "lines of code", code
    yield "lines of contracts in the code", contracts
    yield "lines of proofs", sum(map(definition_lines, proofs))
    yield "lines of tests in crates", sum(sum_of(map(rust_lines, tests)))
    yield "cases of the built program (`tests/run/cases`)", sum(1 for _ in cases())
    yield "must-fail edits", len(
        [*CRATES.glob("*/must-fail/*.edit"), *TOP.glob("tests/mutations/**/*.edit")]
    )


def cases() -> Iterator[str]:
    """Yields the cases of tests/run: each row of a folder with a file `rows`, and each other
    folder.
    """
    for folder in (TOP / "tests" / "run" / "cases").iterdir():
        rows = folder / "rows"
        yield from rows.read_text(
            encoding="latin-1"
        ).splitlines() if rows.exists() else [folder.name]


def main(words: list[str]) -> int:
    """Prints the table of sizes, or with `--unreached` the definitions on which no contract
    depends. Returns 1 if the list in docs/ARCHITECTURE.md is wrong.
    """
    faults = [
        f"docs/ARCHITECTURE.md, of the files that have to be trusted: {fault}"
        for fault in list_faults()
    ]
    if faults:
        print("\n".join(faults), file=sys.stderr)
        return 1
    if words == ["--unreached"]:
        for path in filter(pathlib.Path.is_file, believed_files()[0]):
            print(
                "".join(f"{path.relative_to(TOP)}: {name}\n" for name in believed.unreached(path)),
                end="",
            )
        return 0
    print("| what | how many |\n|---|---|")
    for name, number in sizes():
        print(f"| {name} | {number:,} |")
    return 0


if __name__ == "__main__":
    sys.exit(main(sys.argv[1:]))
