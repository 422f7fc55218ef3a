"""Implements the command tools/package: parses its arguments, and builds the packages step by step.
"""
from __future__ import annotations

import argparse
import hashlib
import os
import re
import subprocess
import tempfile
import time

from psicli.fault import Fault
from psicli.parser import Parser
from psicli.running import run
from psicli.status import Status
from psireplay.program import TOP, built_program

from .archives import gzipped, tar_of
from .commands import PROGRAMS, TOOLS
from .completions import BASH, ZSH, Words as Offered, script_of
from .debian import ARCHITECTURE, NAME, UNITS, Facts, own_documents, package_of
from .elf import least_libc
from .pages import page_of
from .tree import (
    LIBRARY,
    PAGES,
    Member,
    bytes_of,
    documents_of,
    pages_of_programs,
    programs_of,
    tools_of,
)
from .usage import Help, commands_in, help_of, options_in, said_by

ABOUT = (
    "Builds the packages of the programs and the tools: a Debian package (.deb) and a .tar.gz of"
    " the same files."
)
STATUS = (
    "Programs that aren't given are built with ./psi_oomd --build and ./psi_observe --build, which"
    " proves them if necessary. The last lines are the checksums of both files, as printed by"
    " sha256sum. The status is 2 if nothing was built. Times in the files are those of the commit,"
    " or SOURCE_DATE_EPOCH."
)
ORIGIN = """\
{version}, commit {commit}
{kit}
the proof can be run again in a checkout of this commit: by ./psi_oomd --build, and by .ci/run \
with all tests
"""
# Disables the services by default. Without this, Debian's systemd enables each service on the first
# boot of a machine.
PRESET = "".join(f"disable {it}\n" for it in UNITS)
UNPROVED = "unproved: these programs were handed to tools/package, and the gate didn't build them"
PATIENCE_SECONDS = 10
NUMBER = re.compile(r"[0-9][0-9A-Za-z.+-]*")


def git(*words: str) -> str:
    """Runs git in the repository, and returns its standard output."""
    done = subprocess.run(["git", "-C", TOP, *words], capture_output=True, encoding="utf-8")
    if done.returncode:
        raise Fault(
            f"git {' '.join(words)}: {done.stderr.strip()}: a package is made in a checkout with"
            " its history"
        )
    return done.stdout.strip()


def version_of(commit: str, is_changed: bool) -> str:
    """Returns the version of a package: the number in CHANGELOG's top heading, as in `## 1.0
    (2026-12-01)`.

    If the heading has no number, or if the tag of that number is at another commit, the day and the
    hash of `commit` are appended to the last release. A hyphen becomes a tilde, so that Debian
    sorts 1.0~rc1 before the release 1.0.
    """
    headings = re.findall(r"^## (.*)$", bytes_of(TOP, "CHANGELOG.md").decode(), re.MULTILINE)
    numbers = [found[0] if (found := NUMBER.match(it)) else "" for it in headings]
    release = next(filter(None, numbers), "0")
    is_tagged = git("tag", "--list", f"v{release}") != ""
    is_elsewhere = is_tagged and git("rev-parse", f"v{release}^{{commit}}") != commit
    version = release.replace("-", "~")
    if numbers[:1] != [release] or is_elsewhere:
        day = time.strftime("%Y%m%d", time.gmtime(int(git("log", "-1", "--format=%ct"))))
        version += f"+git{day}.{commit[:12]}"
    return version + ("+changes" if is_changed else "")


def kit_of(options: argparse.Namespace) -> str:
    """Returns the line that says which toolchain proved the programs: the toolchain that --kit
    names, or the installed one. With --unproved, the line says that the programs are unproved.
    """
    if options.unproved:
        return UNPROVED
    if options.kit:
        return f"proved by {options.kit}"
    try:
        return f"proved by {said_by(['rt', 'version']).strip()}"
    except OSError as fault:
        raise Fault(
            f"rt version: {fault.strerror}: let --kit say what proved the programs"
        ) from None


def programs_named(options: argparse.Namespace) -> dict[str, bytes]:
    """Returns the bytes of the programs. Builds each program whose path isn't in the arguments. A
    program whose path is in the arguments must be identical to the program that was built and
    proved here.
    """
    paths = dict(zip(PROGRAMS, (options.program, options.observer)))
    found = {
        name: bytes_of(path or built_program(os.path.join(TOP, name)))
        for name, path in paths.items()
    }
    for name, path in paths.items():
        least_libc(name, found[name])
        if path:
            check_name(name, path)
        if path and not options.unproved and found[name] != built_bytes(name):
            raise Fault(
                f"{path} isn't the {name} that was proved here, {built_path(name)}:"
                f" ./{name} --build makes that; with --unproved the package says that nobody proved"
                " its programs"
            )
    return found


def built_path(name: str) -> str:
    """Returns the path, relative to the repository, to which the launcher writes a built program.
    """
    return os.path.join("crates", f"{name}_main", "out", f"{name}_main")


def built_bytes(name: str) -> bytes:
    """Returns the bytes of a built program, or no bytes if it wasn't built."""
    path = os.path.join(TOP, built_path(name))
    return bytes_of(path) if os.path.exists(path) else b""


def check_name(name: str, path: str) -> None:
    """Checks that the program at `path` is the program `name`. Compares the usage that it prints
    without arguments. Raises a Fault if it is another program.
    """
    try:
        done = subprocess.run(
            [os.path.abspath(path)],
            stdin=subprocess.DEVNULL,
            capture_output=True,
            timeout=PATIENCE_SECONDS,
        )
    except (OSError, subprocess.SubprocessError) as fault:
        raise Fault(f"{path} doesn't run as {name}: {fault}") from None
    if not done.stderr.startswith(b"usage: %s " % name.encode()):
        said = done.stderr.decode(errors="replace").partition("\n")[0]
        raise Fault(f"{path} isn't {name}: without words it says {said!r}")


# ------------------------------------------------ files generated from the tools' --help


def write(members: list[Member], folder: str) -> None:
    """Writes the members of the package into a folder."""
    for member in members:
        path = os.path.join(folder, member.path)
        os.makedirs(os.path.dirname(path), exist_ok=True)
        if member.target:
            os.symlink(member.target, path)
        else:
            with open(path, "wb") as file:
                file.write(member.data)
            os.chmod(path, member.mode)


def helps_of(folder: str) -> dict[str, tuple[Help, dict[str, Help]]]:
    """Returns the --help of each installed tool and of each of its commands, keyed by the tool's
    command.
    """
    found = {}
    for tool in TOOLS:
        path = os.path.join(folder, LIBRARY, "tools", tool.file)
        about = help_of(path)
        found[tool.command] = about, {it.words: help_of(path, it.words) for it in about.commands}
    return found


def completions(folder: str, helps: dict[str, tuple[Help, dict[str, Help]]]) -> list[Member]:
    """Returns the completion files for bash and zsh. bash looks for a file with the name of the
    command, so there is one file, and a link to it for each further command.
    """
    offered = []
    for name in PROGRAMS:
        offered.append(
            Offered(name, commands_in(said_by([os.path.join(folder, "bin", name), "--help"]), name))
        )
    for name, (about, commands) in helps.items():
        found = {
            "": options_in(about.options),
            **{it: options_in(about.options) for it, about in commands.items()},
        }
        offered.append(Offered(name, found))
    bash, first = "share/bash-completion/completions", offered[0].name
    members = [Member(f"{bash}/{first}", script_of(BASH, offered))]
    members += [Member(f"{bash}/{it.name}", target=first) for it in offered[1:]]
    return [*members, Member(f"share/zsh/vendor-completions/_{first}", script_of(ZSH, offered))]


def pages(helps: dict[str, tuple[Help, dict[str, Help]]], facts: Facts) -> list[Member]:
    """Returns the manual pages, compressed according to Debian's rules."""
    date = time.strftime("%Y-%m-%d", time.gmtime(facts.seconds))
    source = f"{NAME} {facts.version}, commit {facts.commit[:12]}"
    found = pages_of_programs(TOP, source)
    for tool in TOOLS:
        found[f"{tool.command}.1"] = page_of(tool, *helps[tool.command], date, source)
    return [
        Member(f"{PAGES}/{name}.gz", gzipped(page, facts.seconds))
        for name, page in sorted(found.items())
    ]


# ---------------------------------------------------------------- the steps of the command


def files_of(programs: dict[str, bytes], facts: Facts, kit: str) -> list[Member]:
    """Returns all files that are installed."""
    origin = ORIGIN.format(commit=facts.commit, version=facts.version, kit=kit)
    members = [
        *programs_of(TOP, programs, origin),
        *tools_of(TOP),
        *documents_of(TOP),
        *own_documents(facts),
    ]
    members += [
        Member(f"lib/systemd/system/{it}", bytes_of(TOP, "tools", "psipack", it)) for it in UNITS
    ]
    members.append(Member(f"lib/systemd/system-preset/50-{NAME}.preset", PRESET.encode()))
    with tempfile.TemporaryDirectory() as folder:
        write(members, folder)
        helps = helps_of(folder)
        return [*members, *completions(folder, helps), *pages(helps, facts)]


def facts_of(programs: dict[str, bytes]) -> Facts:
    """Returns the metadata of the package."""
    commit, is_changed = git("rev-parse", "HEAD"), bool(
        git("status", "--porcelain", "--untracked-files=no")
    )
    commit_text = f"{commit}, with changes" if is_changed else commit
    libc = max(
        (least_libc(name, data) for name, data in programs.items()),
        key=lambda it: [*map(int, it.split("."))],
    )
    said = os.environ.get("SOURCE_DATE_EPOCH") or git("log", "-1", "--format=%ct")
    if not said.isdecimal():
        raise Fault(f"SOURCE_DATE_EPOCH is {said!r}, which is no number of seconds")
    maintainer = git("log", "-1", "--format=%an <%ae>")
    return Facts(version_of(commit, is_changed), commit_text, libc, maintainer, int(said))


def parser() -> Parser:
    """Returns the parser of the command line."""
    words = Parser(ABOUT, STATUS)
    words.add_argument("--program", metavar="FILE", help="the built psi_oomd")
    words.add_argument("--observer", metavar="FILE", help="the built psi_observe")
    words.add_argument("--kit", metavar="LINE",
                       help="what proved the programs that are given, as `rt "
                            "version` has it")  # fmt: skip
    words.add_argument("--unproved", action="store_true",
                       help="packs programs that weren't proved here; the package "
                            "says so")  # fmt: skip
    words.add_argument("--into", metavar="FOLDER", default=".",
                       help="where the files are written; here if left out")  # fmt: skip
    return words


def make() -> int:
    """Builds both packages, and prints their checksums."""
    options = parser().parse_args()
    if options.unproved and options.kit:
        raise Fault("--unproved and --kit exclude each other")
    programs = programs_named(options)
    facts = facts_of(programs)
    members = files_of(programs, facts, kit_of(options))
    name = f"{NAME}_{facts.version}_{ARCHITECTURE}"
    made = {
        f"{name}.deb": package_of(members, facts),
        f"{name}.tar.gz": gzipped(
            tar_of(members, f"{NAME}-{facts.version}", facts.seconds), facts.seconds
        ),
    }
    os.makedirs(options.into, exist_ok=True)
    for file, data in made.items():
        with open(os.path.join(options.into, file), "wb") as stream:
            stream.write(data)
        print(f"{hashlib.sha256(data).hexdigest()}  {file}")
    return Status.DONE


def main() -> int:
    """Runs the command, and returns the exit status."""
    return run(make)
