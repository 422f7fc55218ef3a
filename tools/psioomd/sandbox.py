"""Defines the sandboxes in which oomd can run: bwrap, unshare with a new root, or none."""
from __future__ import annotations

import functools
import os
import shutil
import subprocess
import tempfile
from dataclasses import dataclass

from psicli.fault import Fault
from psicli.wording import quoted

SANDBOXES = ("bwrap", "unshare", "none")
PATIENCE = 20
SYSTEM = ("lib", "lib64", "lib32", "bin", "sbin")
NAMES = {
    "bwrap": "bwrap (no network, nothing of the machine but /usr, read-only)",
    "unshare": "unshare (no network, nothing of the machine but /usr, read-only)",
    "none": "no sandbox (the preloaded clock alone refuses kills, sockets and writes)",
}
# A shell script that runs in its own mount namespace. It creates a new root, which contains only
# /usr (read-only) and the folder that oomd may write. Then it drops the old root and all
# capabilities.
ENTER = """set -e
new=$1 folder=$2 binary=$3; shift 3
mount -t tmpfs tmpfs "$new"
cd "$new"
mkdir -p usr proc dev old ".$folder" ".$(dirname "$binary")"
for name in lib lib64 lib32 bin sbin; do
    if [ -L "/$name" ]; then ln -s "usr/$name" "$name"
    elif [ -d "/$name" ]; then
        mkdir "$name"; mount --bind "/$name" "$name"; mount -o remount,bind,ro "$name"
    fi
done
mount --bind /usr usr
mount -o remount,bind,ro usr
if [ ! -e ".$binary" ]; then
    : >".$binary"; mount --bind "$binary" ".$binary"; mount -o remount,bind,ro ".$binary"
fi
for name in null urandom; do : >"dev/$name"; mount --bind "/dev/$name" "dev/$name"; done
mount --bind "$folder" ".$folder"
mount -t proc proc proc
pivot_root . old
cd /
umount -l /old
exec setpriv --no-new-privs --inh-caps=-all --bounding-set=-all -- "$@"
"""


@dataclass(frozen=True)
class Sandbox:
    """A sandbox for oomd: its kind, the folder that oomd may write, and the path of oomd's program.
    """

    kind: str
    folder: str
    binary: str

    def text(self) -> str:
        return NAMES[self.kind]

    def words(self, inside: list[str]) -> list[str]:
        """Returns the command that runs `inside` in the sandbox."""
        if self.kind == "bwrap":
            return [*self.bwrap(), *inside]
        if self.kind == "unshare":
            new = os.path.join(self.folder, "root")
            os.makedirs(new, exist_ok=True)
            shut = ["unshare", "--user", "--map-root-user", "--mount", "--pid", "--net", "--ipc"]
            shut += ["--uts", "--fork", "--kill-child", "sh", "-c", ENTER, "sh"]
            return [*shut, new, self.folder, self.binary, *inside]
        return inside

    def bwrap(self) -> list[str]:
        words = [
            "bwrap",
            "--unshare-all",
            "--die-with-parent",
            "--new-session",
            "--cap-drop",
            "ALL",
        ]
        words += ["--ro-bind", "/usr", "/usr", "--proc", "/proc", "--dev", "/dev"]
        for name in SYSTEM:
            if os.path.islink(f"/{name}"):
                words += ["--symlink", f"usr/{name}", f"/{name}"]
            elif os.path.isdir(f"/{name}"):
                words += ["--ro-bind", f"/{name}", f"/{name}"]
        if not self.binary.startswith("/usr/"):
            words += ["--ro-bind", self.binary, self.binary]
        return [*words, "--bind", self.folder, self.folder, "--"]

    def fault(self) -> str:
        """Returns why the sandbox doesn't work on this machine, or an empty string if it works."""
        try:
            done = subprocess.run(
                self.words(["/usr/bin/env", "true"]),
                capture_output=True,
                stdin=subprocess.DEVNULL,
                timeout=PATIENCE,
            )
        except (OSError, subprocess.TimeoutExpired) as fault:
            return str(fault)
        if done.returncode:
            return done.stderr.decode(errors="replace").strip().rpartition("\n")[2] or "it fails"
        return ""


@functools.lru_cache(maxsize=None)
def fault_of(kind: str, binary: str) -> str:
    """Returns why this kind of sandbox doesn't work for a program on this machine, or an empty
    string if it works.
    """
    with tempfile.TemporaryDirectory(prefix="psioomd-") as folder:
        return Sandbox(kind, os.path.realpath(folder), binary).fault()


def sandbox(kind: str | None, folder: str, binary: str) -> Sandbox:
    """Returns the sandbox of the requested kind. If no kind is requested, returns the first sandbox
    that works.
    """
    faults = []
    for it in (kind,) if kind else SANDBOXES[:-1]:
        if it != "none" and not shutil.which(it):
            faults.append(f"{it} isn't installed")
            continue
        fault = fault_of(it, binary)
        if not fault:
            return Sandbox(it, folder, binary)
        faults.append(f"{it}: {fault}")
    advice = "install the package bubblewrap, or trust the program by --sandbox none"
    raise Fault(f"no sandbox for {quoted(binary)}: {'; '.join(faults)}: {advice}")
