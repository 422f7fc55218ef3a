"""Checks of the settings of systemd-oomd that are stored in a recording."""
from __future__ import annotations

import os
import shutil

from record import machine_folder as folder
from harness import must, must_be
from record.runs import Run

WEB = "/system.slice/web.service"
SHOWN = (
    "Id=web.service\nControlGroup=/system.slice/web.service\nManagedOOMSwap=auto\n"
    "ManagedOOMMemoryPressure=kill\n"
)
# A stub of systemctl: it logs its arguments, and prints the version or the settings.
SYSTEMCTL = f"""#!/bin/sh
echo "$@" >>"$(readlink -f "$0").words"
case "$1" in
--version) printf 'systemd 252 (252.39-1)\\n+PAM\\n' ;;
show) printf '{SHOWN}' ;;
esac
"""
KILL = "[Service]\nManagedOOMMemoryPressure=kill\n"
STORED = {
    "etc/systemd/oomd.conf": "[OOM]\n",
    "usr/lib/systemd/oomd.conf.d/10-a.conf": "[OOM]\nSwapUsedLimit=80%\n",
    "usr/lib/systemd/system/web.service.d/10-kill.conf": KILL,
    "etc/systemd/system/web.service.d/10-kill.conf": "",
    "run/systemd/transient/import.scope": "[Scope]\nManagedOOMPreference=omit\n",
    "usr/lib/systemd/system/batch.service": "[Service]\nOOMPolicy=kill\n",
    "usr/lib/systemd/user/app.slice": "[Slice]\nManagedOOMSwap=kill\n",
}
DATABASE = "etc/systemd/system/db.service"
SECRET = (
    "[Service]\n# a\nEnvironment=KEY=1 \\\n ManagedOOMSwap=auto\nSlice = \\\n; b\n db.slice\n"
    "ManagedOOMSwap=kill\n"
)
KEPT_OF_SECRET = "[Service]\n#\n\n\nSlice = \\\n#\n db.slice\nManagedOOMSwap=kill\n"
LEFT = {
    "usr/lib/systemd/system/ssh.service": "[Service]\nExecStart=/bin/true\n",
    "usr/lib/systemd/system/web.service.d/20-other.conf": "[Service]\nNice=5\n",
    "usr/lib/systemd/system/a.timer": "# ManagedOOMSwap is for no timer\nManagedOOMSwap=kill\n",
    "etc/systemd/journald.conf.d/a.conf": "[Journal]\n",
}


def make_booted(top: str) -> None:
    """Makes a machine that runs systemd."""
    folder.make_machine(top)
    for name, text in {**STORED, DATABASE: SECRET, **LEFT}.items():
        folder.write(f"{top}/{name}", text)
    os.makedirs(f"{top}/run/systemd/system")
    folder.write(f"{top}.systemctl/systemctl", SYSTEMCTL)
    os.chmod(f"{top}.systemctl/systemctl", 0o755)
    os.symlink(f"{top}.systemctl/systemctl", f"{top}/systemctl")
    folder.write(f"{top}/cgroup{WEB}/memory.oom.group", "1\n")


def stored_files(run: Run) -> dict[str, str]:
    """Returns all files of the recording's folder `systemd`, by path."""
    top = f"{run.out}/systemd"
    names = [os.path.relpath(f"{at}/{it}", top) for at, _, files in os.walk(top) for it in files]
    return {it: run.file(f"systemd/{it}").decode() for it in names}


def check_settings_of_systemd_oomd(top: str) -> None:
    make_booted(top)
    run = Run(top, "--seconds", "0.3").ended(0)
    owner = os.getuid()
    lines = [
        f"{path} uid={owner} oom_group={path == WEB:d} avoid=0 omit=0\n"
        for path in ("/", "/system.slice", WEB, r"/user\x20slice")
    ]
    wanted = {
        **STORED, DATABASE: KEPT_OF_SECRET, "version": "systemd 252 (252.39-1)\n", "units": SHOWN,
        "groups": "".join(lines),
    }
    must_be("the files", stored_files(run), wanted)
    with open(f"{top}.systemctl/systemctl.words", encoding="ascii") as words:
        asked = words.read().splitlines()
    must_be("systemctl is asked twice", [it.split()[0] for it in asked], ["--version", "show"])
    must(
        "--type=service,slice,scope" in asked[1]
        and "ManagedOOMMemoryPressureDurationUSec" in asked[1],
        asked[1],
    )


def check_attributes_of_groups(top: str) -> None:
    make_booted(top)
    try:
        os.setxattr(f"{top}/cgroup{WEB}", "user.oomd_omit", b"1")
        os.setxattr(f"{top}/cgroup/system.slice", "user.oomd_avoid", b"yes")
        os.setxattr(f"{top}/cgroup", "user.oomd_avoid", b"0")
    except OSError as error:
        print(f"attributes are skipped, there are none here: {error}")
        return
    text = Run(top, "--seconds", "0.3").ended(0).file("systemd/groups").decode()
    found = [tuple(it.split()[place] for place in (0, 3, 4)) for it in text.splitlines()]
    must_be(
        "attributes", found[:3],
        [
            ("/", "avoid=0", "omit=0"), ("/system.slice", "avoid=1", "omit=0"),
            (WEB, "avoid=0", "omit=1"),
        ],
    )


def check_settings_that_are_not_wanted(top: str) -> None:
    make_booted(top)
    run = Run(top, "--seconds", "0.3", "--no-settings").ended(0)
    must("systemd" not in os.listdir(run.out), "nothing is stored")
    shutil.rmtree(f"{top}/run")
    run = Run(top, "--seconds", "0.3", name="other").ended(0)
    must("systemd" not in os.listdir(run.out), "nothing is stored where systemd doesn't run")


def check_systemctl_that_says_nothing(top: str) -> None:
    make_booted(top)
    os.unlink(f"{top}/systemctl")
    run = Run(top, "--seconds", "0.3").ended(0).says("systemctl says nothing of units")
    must_be("the files are there", stored_files(run)["units"], "")
