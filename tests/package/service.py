"""Checks the package's systemd services."""
from __future__ import annotations

import os
import re
import subprocess

from harness import must, must_be
from package.archives import Made, skipped


def words_of_service(unit: str, room: str) -> list[str]:
    """Returns the arguments with which the service runs psi-record."""
    line = re.findall(r"^ExecStart=/bin/sh -c '(.*)'$", unit, re.MULTILINE)[0]
    line = line.replace("$$", "$").replace("%%", "%")
    said = os.path.join(room, "psi-record")
    with open(said, "w", encoding="utf-8") as file:
        file.write('#!/bin/sh\nprintf "%s\\n" "$@"\n')
    os.chmod(said, 0o755)
    values = re.findall(
        r'^Environment="(UNTIL)=([^"]*)" (BUFFER_KB)=(\d+) (DAILY_LIMIT)=(\d+)$', unit, re.MULTILINE
    )[0]
    keep = re.findall(r"^Environment=(KEEP=.*)$", unit, re.MULTILINE)[0]
    more = dict(it.split("=", 1) for it in keep.split())
    variables = dict(zip(values[::2], values[1::2]))
    return subprocess.run(
        ["sh", "-c", line.replace("/usr/bin/psi-record", said)], check=True, capture_output=True,
        env={**os.environ, "STATE_DIRECTORY": room, **variables, **more}, encoding="utf-8",
    ).stdout.splitlines()


def check_the_service(package: Made, room: str) -> None:
    """psi-record accepts the arguments with which the service runs it. In systemd's syntax `$$`
    means `$` and `%%` means `%`.
    """
    unit = package.text("lib/systemd/system/psi-record.service")
    words = words_of_service(unit, room)
    must(re.fullmatch(re.escape(room) + r"/20\d\d-\d\d-\d\dT\d\d-\d\d-\d\dZ", words[0]),
         f"the folder of a recording: {words[0]}")
    # If an empty folder replaces the machine, the recorder accepts the arguments, and then reports
    # what is missing.
    done = package.run("psi-record", *words, "--root", room)
    must(done.returncode == 2 and "there must be" in done.stderr and "usage" not in done.stderr,
         f"psi-record {words}: {done.stderr}")
    limits = re.findall(r"^(?:StartLimit\w+|RestrictAddressFamilies)=.*$", unit, re.MULTILINE)
    must_be("what ends it for good, and the sockets that systemctl may open", limits,
            ["RestrictAddressFamilies=AF_UNIX"])
    must(words[-2:] == ["--daily-limit", "5"],
         f"the recorder itself waits for the next day: {words}")
    must_be("what is kept", words[-6:-2], ["--keep", "20", "--keep-mb", "4000"])
    must(
        "WantedBy=" in unit
        and not os.path.exists(package.path("lib/systemd/system/multi-user.target.wants")),
        "it isn't enabled",
    )
    must_be("what the first boot of a machine makes of it",
            package.text("lib/systemd/system-preset/50-psi-oomd.preset"),
            "disable psi-record.service\ndisable psi-sample.service\n")


def check_what_systemd_says_of_the_service(package: Made, room: str) -> None:
    unit = package.text("lib/systemd/system/psi-record.service")
    said = os.path.join(room, "psi-record")
    with open(said, "w", encoding="utf-8") as file:
        file.write("#!/bin/sh\n")
    os.chmod(said, 0o755)
    if not skipped("systemd-analyze", "its view of the service"):
        path = os.path.join(room, "psi-record.service")
        with open(path, "w", encoding="utf-8") as file:
            file.write(unit.replace("/usr/bin/psi-record", said))
        found = subprocess.run(["systemd-analyze", "verify", "--man=no", path], capture_output=True,
                               encoding="utf-8")
        messages = [it for it in found.stderr.splitlines() if "psi-record" in it]
        must_be("what systemd-analyze says", messages, [])


def check_the_service_of_samples(package: Made, room: str) -> None:
    """psi-sample accepts the arguments with which the service runs it."""
    unit = package.text("lib/systemd/system/psi-sample.service")
    line = re.findall(
        r"^ExecStart=/bin/sh -c 'exec /usr/bin/psi-sample (.*)'$", unit, re.MULTILINE
    )[0].replace("$$", "$")
    values = dict(
        it.split("=") for it in re.findall(r"^Environment=(.*)$", unit, re.MULTILINE)[0].split()
    )
    environment = {**os.environ, **values, "STATE_DIRECTORY": room}
    words = subprocess.run(
        ["sh", "-c", f"printf '%s\\n' {line}"], env=environment, check=True, capture_output=True,
        encoding="utf-8",
    ).stdout
    done = package.run("psi-sample", *words.splitlines(), "--root", room)
    must(done.returncode == 2 and "no pressure files" in done.stderr,
         f"psi-sample {words}: {done.stderr}")
    must("DynamicUser=yes" in unit and f"{room}/samples.csv" in words,
         "it is no root, and writes into its own folder")
