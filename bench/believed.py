"""Finds all definitions and types on which the contracts of the programs depend.

The search starts from the clauses of both functions `run` and of `observe`, and of the traits
`Shelf` and `Sink`. It follows each name in them to its definition, then the names in that
definition, and so on. That includes the libraries of the kit (the language's toolchain), except its
standard library. A definition is in a file of `specs/`, and a type in a file of `src/`. If a type
has a `Model`, contracts see only its model. The kit's own types aren't listed. If no kit is
installed, the definitions in its libraries aren't followed.

Names are found by their spelling, without the prover. The name of a parameter may be mistaken for a
definition with the same name. So the result may be too large, but nothing is missing.
"""

from __future__ import annotations

import dataclasses
import functools
import pathlib
import re
import shutil
from collections.abc import Iterator

TOP = pathlib.Path(__file__).resolve().parent.parent
CRATES = TOP / "crates"

# The folder of the toolchain's libraries in paths: `kit/json/specs/Lex.antt` is a file of
# definitions of the library `json`.
KIT = pathlib.Path("kit")

# A contract from which the search starts: a file, and the words in that file with which the
# declaration of the function or trait begins.
Root = tuple[str, str]
TRAITS: tuple[Root, ...] = (
    ("outside/src/shelf.rt", "pub trait Shelf "),
    ("outside/src/sink.rt", "pub trait Sink "),
)
# Two sets of contracts. A reader studies all contracts of a set together: those of psi_oomd and
# psi_observe, or the contract of psi_convert. The traits belong to both sets.
READINGS: tuple[tuple[Root, ...], ...] = (
    (("replay_core/src/entry.rt", "pub fn run<"), ("observe_core/src/entry.rt", "pub fn observe<"),
     *TRAITS),
    (("convert_core/src/command.rt", "pub fn run<"), *TRAITS),
)
ROOTS = tuple(dict.fromkeys(root for reading in READINGS for root in reading))

# The crates of the language and of its standard library. Their definitions aren't listed.
PLAIN = ("std", "core", "mathlib")

NAME = re.compile(r"[^\W\d][\w'◌-]*")
DECLARED = re.compile(
    r"(?:unfoldable |abbrev |pub |record |data )*(?P<name>[\w'-]*◌[^\s:]*|[^\W\d][\w'-]*)(?= "
    r"[^=]*?:| *$)"
)
# Lines that begin a block of mutually recursive definitions. Such definitions are indented by two
# spaces.
BLOCKS = ("mutual", "abbrev mutual", "unfoldable mutual")
IMPORT = re.compile(r"^ *(?:pub |ghost )*use ([\w.]+?)(?:\.\{([^}]*)\}| as (\w+));? *$",
                    re.MULTILINE)
ACCESS = re.compile(r"(?<=[\w)}\]'])\.[\w']+(?:\.[\w']+)*")


@dataclasses.dataclass(frozen=True, order=True)
class Item:
    """A definition or a type: its file and its name."""

    path: pathlib.Path
    name: str


@dataclasses.dataclass
class Module:
    """A parsed file. `bodies` has the text of each definition by name, `imports` the module and the
    original name of each imported name, and `aliases` the module of each alias.
    """

    path: pathlib.Path
    bodies: dict[str, str]
    imports: dict[str, tuple[str, str]]
    aliases: dict[str, str]


def without_comments(text: str, mark: str) -> str:
    """Returns a text without its comments. A comment reaches from `mark` to the end of its line."""
    return "\n".join(re.sub(rf"(^| ){mark}.*", "", line) for line in text.splitlines())


def imports_of(text: str) -> tuple[dict[str, tuple[str, str]], dict[str, str]]:
    """Parses the imports of a text. Returns the module and the original name of each imported name,
    and the module of each alias.
    """
    names: dict[str, tuple[str, str]] = {}
    aliases: dict[str, str] = {}
    for module, listed, alias in IMPORT.findall(text):
        if alias:
            aliases[alias] = module
        for one in filter(None, map(str.strip, listed.split(","))):
            there, _, here = one.partition(" as ")
            names[here or there] = (module, there)
    return names, aliases


def bodies_of(text: str) -> dict[str, str]:
    """Returns the body of each definition of a file: all lines from its declaration to the next
    declaration.
    """
    bodies: dict[str, list[str]] = {}
    lines: list[str] = []
    is_mutual = False
    for line in text.splitlines():
        begins_block = line in BLOCKS
        is_mutual = begins_block or (is_mutual and not line[:1].strip())
        line = line.removeprefix("  ") if is_mutual else line
        if begins_block or line.startswith(("use ", "pub use ", "pub mod ", "infix")):
            continue
        found = DECLARED.match(line) if line[:1].strip() else None
        if found and (
            found["name"] not in bodies or line.startswith(("abbrev", "unfoldable", "pub"))
        ):
            lines = bodies.setdefault(found["name"], [])
        lines.append(line)
    return {name: "\n".join(body) for name, body in bodies.items()}


def types_of(text: str) -> dict[str, str]:
    """Returns the body of each type in the text of a code file. The body is the type's `Model` if
    it has one, and its declaration if not.
    """
    found = {}
    for one in re.finditer(
        r"^pub (?:struct|enum) (\w+)[^\n]*(?:;\n|(?:\n[^\n}][^\n]*|\n)*\n\})", text, re.MULTILINE
    ):
        model = re.search(rf"^impl(?:<[^>]*>)? Model for {one[1]}\b.*?^\}}", text,
                          re.MULTILINE | re.DOTALL)
        found[one[1]] = model[0] if model else one[0]
    return found


def code_imports(text: str) -> dict[str, tuple[str, str]]:
    """Returns the crate and the original name of each type that a code file imports. The file's own
    crate is called `crate`.
    """
    found = {}
    for crate, listed, one in re.findall(
        r"^use (\w+)(?:::\w+)*::(?:\{([^}]*)\}|(\w+));", text, re.MULTILINE
    ):
        for name in filter(None, map(str.strip, (listed or one).split(","))):
            found[name] = (f"type {crate}", name)
    return found


@functools.cache
def module_at(path: pathlib.Path) -> Module:
    """Parses a file of definitions or a code file."""
    text = path.read_text(encoding="utf-8")
    if path.suffix == ".antt":
        text = without_comments(text, "--")
        names, aliases = imports_of(text)
        return Module(path, bodies_of(text), names, aliases)
    text = without_comments(text, "//")
    names, aliases = imports_of(text)
    return Module(path, types_of(text), code_imports(text) | names, aliases)


@functools.cache
def file_of_type(crate: pathlib.Path, name: str) -> pathlib.Path | None:
    """Returns the file of a crate that declares a type."""
    files = sorted((crate / "src").rglob("*.rt"))
    return next((path for path in files if name in module_at(path).bodies), None)


@functools.cache
def kit_libraries() -> pathlib.Path | None:
    """Returns the folder of the installed toolchain's libraries, or None if no toolchain is
    installed.
    """
    command = shutil.which("rt")
    folder = pathlib.Path(command).resolve().parents[1] / "rlibs" if command else None
    return folder if folder and folder.is_dir() else None


def source_of(path: pathlib.Path) -> pathlib.Path | None:
    """Returns the path of a file on disk, or None for a file of the toolchain if no toolchain is
    installed.
    """
    if not path.is_relative_to(KIT):
        return path
    _, crate, _, name = path.parts
    libraries = kit_libraries()
    return libraries / f"{crate}.rlib" / "lang" / "antt" / "specs" / name if libraries else None


def folder_of(crate: str) -> pathlib.Path | None:
    """Returns the folder of the library `crate`, in this repository or in the toolchain. Returns
    None if the library's definitions aren't listed.
    """
    if crate in PLAIN:
        return None
    return CRATES / crate if (CRATES / crate).is_dir() else KIT / crate


def item_at(module: str, name: str, own: pathlib.Path) -> Item | None:
    """Returns the definition or type `name` of the module `module`, or None if definitions of that
    module aren't listed. `own` is the folder of the crate that uses the name.
    """
    if module.startswith("type "):
        crate = own if module == "type crate" else folder_of(module.removeprefix("type "))
        path = file_of_type(crate, name) if crate and crate.is_relative_to(CRATES) else None
        return Item(path, name) if path else None
    parts = module.removeprefix("Rattle.").split(".")
    crate = folder_of(parts[0])
    if crate is None or parts[1:2] != ["specs"]:
        return None
    if crate.is_relative_to(KIT):
        return None if parts[2] == "declared" else Item(crate / "specs" / f"{parts[2]}.antt", name)
    if parts[2:3] == ["declared"]:
        kind = [part for part in parts[3:] if part != "TheVariants"]
        path = (crate / "src").joinpath(*kind[:-1]).with_suffix(".rt")
        return Item(path, kind[-1]) if path.is_file() else None
    path = (crate / "specs").joinpath(*parts[2:]).with_suffix(".antt")
    return found_in(path, name) if path.is_file() else None


def found_in(path: pathlib.Path, name: str) -> Item | None:
    """Returns the definition of `name` in a file. An imported name refers to the definition in the
    other file. The name of a part, such as a field, refers to the whole definition.
    """
    module = module_at(path)
    if name in module.bodies:
        return Item(path, name)
    part = re.compile(rf"^  (?:pub )?{re.escape(name)} :", re.MULTILINE)
    owner = next((other for other, body in module.bodies.items() if part.search(body)), None)
    if owner:
        return Item(path, owner)
    return item_at(*module.imports[name], path.parents[1]) if name in module.imports else None


def cited_in(body: str, module: Module) -> Iterator[tuple[str, str]]:
    """Yields the names that a body uses, each with its module, or with '' if the file itself
    defines the name.
    """
    for alias, there in module.aliases.items():
        yield from (
            (there, name) for name in re.findall(rf"(?<![\w.]){re.escape(alias)}\.([\w']+)", body)
        )
    known = module.imports.keys() | module.bodies.keys()
    plain = ACCESS.sub("", body)
    names = set(NAME.findall(plain))
    names |= {
        name for name in known if "◌" in name and all(
            sign in plain for sign in name.split("◌") if sign
        )
    }
    names |= {"◌>>=◌"} if re.search(r"\bdo\b", plain) else set()
    for name in names & known:
        yield module.imports.get(name, ("", name))


def cited_by(item: Item) -> Iterator[Item]:
    """Yields the definitions and types that an item uses."""
    source = source_of(item.path)
    if source is None:
        return
    module = module_at(source)
    body = module.bodies.get(item.name, "")
    inner, _ = imports_of(body) if item.path.suffix == ".rt" else ({}, {})
    visible = Module(item.path, module.bodies, module.imports | inner, module.aliases)
    top = KIT if item.path.is_relative_to(KIT) else CRATES
    for there, name in cited_in(body, visible):
        crate = top / item.path.relative_to(top).parts[0]
        found = item_at(there, name, crate) if there else Item(item.path, name)
        if found is not None and found != item:
            yield found


def roots(starts: tuple[Root, ...]) -> Iterator[Item]:
    """Yields the definitions and types that the contracts of these functions and traits use."""
    for name, begins in starts:
        path = CRATES / name
        text = without_comments(path.read_text(encoding="utf-8"), "//")
        head = re.split(r"\n[{}]\n", text[text.index(begins) :], maxsplit=1)[0]
        module = module_at(path)
        for there, cited in cited_in(head.replace("\n", " "), module):
            found = item_at(there, cited, path.parents[1]) if there else Item(path, cited)
            if found is not None and found.path != path:
                yield found


@functools.cache
def believed(starts: tuple[Root, ...] = ROOTS) -> frozenset[Item]:
    """Returns all definitions and types on which these contracts depend, directly or indirectly."""
    reached: set[Item] = set()
    ahead = list(roots(starts))
    while ahead:
        item = ahead.pop()
        if item not in reached:
            reached.add(item)
            ahead += cited_by(item)
    return frozenset(reached)


def unreached(path: pathlib.Path) -> list[str]:
    """Returns the names of the definitions in a file on which no contract depends."""
    names = {item.name for item in believed() if item.path == path}
    return [name for name in module_at(path).bodies if name not in names]


def has_model(item: Item) -> bool:
    """Returns whether an item is a type that contracts see only through its `Model`."""
    return (
        item.path.suffix == ".rt" and "Model for" in module_at(item.path).bodies.get(item.name, "")
    )
