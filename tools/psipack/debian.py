"""Writes a Debian package. In addition to the installed files, it contains the dependencies, the
changelog, the license, and the scripts that run when it is installed or removed.
"""
from __future__ import annotations

import hashlib
import time
from dataclasses import dataclass

from .archives import ar_of, folders_of, gzipped, tar_of, xz_of
from .tree import DOCUMENTS, Member

NAME = "psi-oomd"
ARCHITECTURE = "amd64"
UNIT = "psi-record.service"
UNITS = (UNIT, "psi-sample.service")
CONTROL = """\
Package: {name}
Version: {version}
Architecture: {architecture}
Maintainer: {maintainer}
Installed-Size: {size}
Depends: libc6 (>= {libc}), python3 (>= 3.10)
Suggests: parallel
Section: utils
Priority: optional
Description: replay recorded scheduler events: pressure, triggers and kills
 Which rules would have killed what, and when, under the load that you
 recorded? psi_oomd replays a trace of scheduler events and prints what the
 Linux pressure files (PSI) of each control group would have said, the signals
 of triggers, and whom the rules of an oomd file would have killed. What it
 prints is proved to be what its definitions say.
 .
 Beside it are the recorder of a live machine (psi-record), which makes such
 traces with psi-trace, and tools that chart, test and compare: psi-chart,
 psi-rules, psi-compare, psi-openmetrics and psi-fleet, which wants GNU
 parallel. Its service, a flight recorder, is not enabled.
"""
CHANGES = """\
{name} ({version}) unstable; urgency=medium

  * Made of the commit {commit}.
  * What changed for users stands in CHANGELOG.md, beside this file.

 -- {maintainer}  {date}
"""
COPYRIGHT = """\
Format: https://www.debian.org/doc/packaging-manuals/copyright-format/1.0/
Upstream-Name: psi_oomd
Upstream-Contact: {maintainer}

Files: *
Copyright: {year} {owner}
License: Apache-2.0

License: Apache-2.0
 Licensed under the Apache License, Version 2.0 (the "License"); you may not
 use these files except in compliance with the License.
 .
 Unless required by applicable law or agreed to in writing, software
 distributed under the License is distributed on an "AS IS" BASIS, WITHOUT
 WARRANTIES OR CONDITIONS OF ANY KIND, either express or implied. See the
 License for the specific language governing permissions and limitations
 under the License.
 .
 On Debian systems, the full text of the License is in
 /usr/share/common-licenses/Apache-2.0. It is also in the file LICENSE beside
 this one.
"""
# Makes systemd reload its units after they were installed, changed or removed.
RELOADS = """\
if [ -d /run/systemd/system ]; then
    systemctl --system daemon-reload >/dev/null || true
fi
"""
AFTER_UNPACKING = f"""\
#!/bin/sh
set -e
{RELOADS}"""
# Stops the services before their files are removed. When the flight recorder stops, it undoes its
# changes to the kernel.
BEFORE_REMOVAL = f"""\
#!/bin/sh
set -e
if [ "$1" = remove ] && [ -z "$DPKG_ROOT" ] && [ -d /run/systemd/system ]; then
    deb-systemd-invoke stop {" ".join(UNITS)} >/dev/null || true
fi
"""
# Removes the link that enables a service, since no package owns this link. Recordings stay, since
# they belong to the machine's owner.
AFTER_REMOVAL = f"""\
#!/bin/sh
set -e
if [ "$1" = remove ] || [ "$1" = purge ]; then
    for unit in {" ".join(UNITS)}; do
        rm -f "$DPKG_ROOT/etc/systemd/system/multi-user.target.wants/$unit"
    done
fi
{RELOADS}"""
OVERRIDES = f"""\
# The bytes of the programs are those that the proofs' own toolchain linked and that every test ran:
# they aren't changed afterwards.
{NAME}: unstripped-binary-or-object *
# The licence requires its text beside the files, also in a plain archive.
{NAME}: extra-license-file *
"""


@dataclass(frozen=True)
class Facts:
    """The metadata of the package: its version, the commit, the lowest version of the C library,
    its maintainer, and its time (s since 1970).
    """

    version: str
    commit: str
    libc: str
    maintainer: str
    seconds: int

    def date(self) -> str:
        """Returns the package's time in the format of a Debian changelog."""
        return time.strftime("%a, %d %b %Y %H:%M:%S +0000", time.gmtime(self.seconds))

    def year(self) -> int:
        """Returns the year of the package's time."""
        return time.gmtime(self.seconds).tm_year


def own_documents(facts: Facts) -> list[Member]:
    """Returns the files that Debian requires in a package's documentation folder."""
    owner = facts.maintainer.partition(" <")[0]
    said = COPYRIGHT.format(maintainer=facts.maintainer, owner=owner, year=facts.year())
    changes = CHANGES.format(
        name=NAME,
        version=facts.version,
        commit=facts.commit,
        maintainer=facts.maintainer,
        date=facts.date(),
    )
    return [
        Member(f"{DOCUMENTS}/copyright", said.encode()),
        Member(f"{DOCUMENTS}/changelog.gz", gzipped(changes.encode(), facts.seconds)),
        Member(f"share/lintian/overrides/{NAME}", OVERRIDES.encode()),
    ]


def control_of(members: list[Member], facts: Facts) -> list[Member]:
    """Returns the control files: the description of the package, and its scripts."""
    sums = [
        f"{hashlib.md5(it.data).hexdigest()}  usr/{it.path}\n" for it in members if not it.target
    ]
    # The installed size in KiB. Each file counts with its size rounded up to KiB, and each folder
    # and link counts as 1 (Debian Policy, 5.6.20).
    folders = folders_of([f"usr/{member.path}" for member in members])
    size = len(folders) + sum(-(-len(it.data) // 1024) or 1 for it in members)
    said = CONTROL.format(
        name=NAME,
        version=facts.version,
        architecture=ARCHITECTURE,
        maintainer=facts.maintainer,
        size=size,
        libc=facts.libc,
    )
    return [
        Member("control", said.encode()),
        Member("md5sums", "".join(sums).encode()),
        Member("postinst", AFTER_UNPACKING.encode(), 0o755),
        Member("prerm", BEFORE_REMOVAL.encode(), 0o755),
        Member("postrm", AFTER_REMOVAL.encode(), 0o755),
    ]


def package_of(members: list[Member], facts: Facts) -> bytes:
    """Returns the bytes of the package, which installs its files below /usr."""
    members = sorted(members, key=lambda member: member.path)
    parts = {
        "debian-binary": b"2.0\n",
        "control.tar.xz": xz_of(tar_of(control_of(members, facts), ".", facts.seconds)),
        "data.tar.xz": xz_of(tar_of(members, "./usr", facts.seconds)),
    }
    return ar_of(parts, facts.seconds)
