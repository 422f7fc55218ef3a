"""Builds the package for a test, and gives access to the contents of its archives and to the
commands in its unpacked folder.
"""
from __future__ import annotations

import filecmp
import hashlib
import io
import lzma
import os
import re
import shutil
import subprocess
import sys
import tarfile
from dataclasses import dataclass

from harness import must, must_be
from shared.program import TOP

SECONDS = 1_700_000_000
PYTHON = "/usr/bin/python3"
DOCUMENTS = "share/doc/psi-oomd"
COMPLETIONS = "share/bash-completion/completions"


@dataclass(frozen=True)
class Made:
    """The package, built twice. `first` and `second` have the archives of each build by suffix,
    `tree` is the unpacked folder, and `programs` has the paths of the programs.
    """

    first: dict[str, bytes]
    second: dict[str, bytes]
    tree: str
    programs: dict[str, str]

    def path(self, *names: str) -> str:
        return os.path.join(self.tree, *names)

    def text(self, *names: str) -> str:
        with open(self.path(*names), encoding="utf-8") as file:
            return file.read()

    def commands(self) -> list[str]:
        return sorted(os.listdir(self.path("bin")))

    def run(
        self, name: str, *words: str, stdin: str = "", path_first: str = ""
    ) -> subprocess.CompletedProcess[str]:
        """Runs an installed command from the root folder. PATH is fixed, and no variable names a
        program.
        """
        path = self.path("bin", name)
        # The programs, whose names have a `_`, are started by sh. If Debian's Python, which the
        # tools name in their first line, isn't installed, this Python runs them.
        words = (path, *words) if os.access(PYTHON, os.X_OK) or "_" in name else (
            sys.executable, "-B", path, *words
        )
        environment = {
            "PATH": f"{path_first}/usr/bin:/bin", "LC_ALL": "C.UTF-8",
            "HOME": os.path.dirname(self.tree),
        }
        return subprocess.run(words, cwd="/", env=environment, input=stdin, capture_output=True,
                              encoding="utf-8")


def is_built(name: str, path: str) -> bool:
    """Returns whether the program at `path` is identical to the last build of the program `name`.
    """
    built = os.path.join(TOP, "crates", f"{name}_main", "out", f"{name}_main")
    return os.path.exists(built) and filecmp.cmp(path, built, shallow=False)


def make(into: str, programs: dict[str, str], **more: str) -> dict[str, bytes]:
    """Builds both archives into this folder, and returns them by suffix. Raises unless the printed
    checksums are right.
    """
    words = [
        os.path.join(TOP, "tools", "package"), "--program", programs["psi_oomd"], "--observer",
        programs["psi_observe"],
    ]
    words += [] if all(is_built(*it) for it in programs.items()) else ["--unproved"]
    environment = {**os.environ, "SOURCE_DATE_EPOCH": str(SECONDS), **more}
    done = subprocess.run([*words, "--into", into], env=environment, capture_output=True,
                          encoding="utf-8")
    must_be("the status of tools/package, and what it said", (done.returncode, done.stderr),
            (0, ""))
    found = {}
    for line in done.stdout.splitlines():
        digest, _, name = line.partition("  ")
        with open(os.path.join(into, name), "rb") as file:
            data = file.read()
        must_be(f"the sum of {name}", digest, hashlib.sha256(data).hexdigest())
        found[re.sub(r".*_amd64", "", name)] = data
    must_be("what was made", list(found), [".deb", ".tar.gz"])
    return found


def parts_of(package: bytes) -> dict[str, bytes]:
    """Returns the members of an ar archive (ar(5)), by name."""
    must(package.startswith(b"!<arch>\n"), "the package is an ar archive")
    at, found = 8, {}
    while at < len(package):
        name, size = package[at : at + 16].decode().strip(), int(package[at + 48 : at + 58])
        found[name] = package[at + 60 : at + 60 + size]
        at += 60 + size + size % 2
    return found


def members_of(data: bytes) -> dict[str, tarfile.TarInfo]:
    with tarfile.open(fileobj=io.BytesIO(data)) as archive:
        rows = archive.getmembers()
    must_be("the order of the members", [it.name for it in rows], sorted({it.name for it in rows}))
    return {it.name: it for it in rows}


def files_of(data: bytes, top: str) -> dict[str, tuple[int, str, bytes]]:
    """Returns the mode, the link target and the bytes of each file in a tar archive below the
    folder `top`.
    """
    found = {}
    with tarfile.open(fileobj=io.BytesIO(data)) as archive:
        for it in archive.getmembers():
            stream = archive.extractfile(it) if it.isfile() else None
            if not it.isdir():
                found[os.path.relpath(it.name, top)] = (
                    it.mode, it.linkname, stream.read() if stream else b"",
                )
    return found


def skipped(name: str, what: str) -> bool:
    """Returns whether a command isn't installed on this machine. If it isn't, prints which check is
    skipped.
    """
    if not shutil.which(name):
        print(f"{name} isn't installed, so this is passed over: {what}")
    return not shutil.which(name)


def control_of(package: Made) -> dict[str, bytes]:
    files = files_of(lzma.decompress(parts_of(package.first[".deb"])["control.tar.xz"]), ".")
    return {name: data for name, (_, _, data) in files.items()}


def data_of(package: Made) -> bytes:
    return lzma.decompress(parts_of(package.first[".deb"])["data.tar.xz"])


def commands_of_definition() -> list[str]:
    """Returns the commands in the usage line that psi_oomd's specification defines."""
    with open(
        os.path.join(TOP, "crates", "run_spec", "specs", "Status.antt"), encoding="utf-8"
    ) as file:
        found = re.search(r'"usage: psi_oomd (.*)\\n"', file.read())
    must(found and found[1].count(" or ") > 3, f"the definition has its list: {found}")
    return found[1].split(" or ") if found else []


def offered_by_bash(package: Made, *words: str) -> list[str]:
    """Returns bash's completions of the last word. The working folder contains the examples."""
    script = (
        '. "$0"; COMP_WORDS=("$@"); COMP_CWORD=$(($# - 1)); _psi_oomd "$1"; printf "%s\\n" '
        '"${COMPREPLY[@]}"'
    )
    file, folder = package.path(COMPLETIONS, words[0]), package.path(DOCUMENTS, "examples")
    done = subprocess.run(["bash", "-c", script, file, *words], cwd=folder, capture_output=True,
                          encoding="utf-8")
    must_be(f"what bash says of {words}", (done.returncode, done.stderr), (0, ""))
    return done.stdout.split()


def offered_by_zsh(package: Made, *words: str) -> list[str]:
    """Returns zsh's completions of the last word. Functions of zsh are replaced so that they print
    the matches.
    """
    script = """offer() {
        local -a found; found=(${(M)@:#${word}*}); print -rl -- $found; (( $#found ))
    }
    compadd() { shift; offer "$@" }
    _files() { offer *(N) }
    compset() { word=${word#*=} }
    words=("${@[2,-1]}"); CURRENT=$#words; word=$words[-1]; source "$1" """
    file, folder = (
        package.path("share/zsh/vendor-completions/_psi_oomd"), package.path(DOCUMENTS, "examples"),
    )
    call = ["zsh", "-fc", f"complete_it() {{ {script} }}; complete_it \"$@\"", "zsh", file, *words]
    done = subprocess.run(call, cwd=folder, capture_output=True, encoding="utf-8")
    must_be(f"what zsh says of {words}", done.stderr, "")
    return done.stdout.split()
