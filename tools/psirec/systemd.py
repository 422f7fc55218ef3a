"""Names in the folder `systemd` of a recording, which has systemd-oomd's settings. The recorder
writes the folder, and tools/systemd-oomd reads it. `psirecord.systemd_settings` describes the
content of each file.
"""

FOLDER = "systemd"
VERSION, UNITS, GROUPS = "version", "units", "groups"
# The folders of oomd.conf and oomd.conf.d. The first has the highest priority.
CONFIGURATIONS = (
    "etc/systemd",
    "run/systemd",
    "usr/local/lib/systemd",
    "usr/lib/systemd",
    "lib/systemd",
)
# The folders of unit files, for the system's manager and for users' managers. The first has the
# highest priority (systemd.unit(5)).
SYSTEM_UNITS = (
    "etc/systemd/system.control",
    "run/systemd/system.control",
    "run/systemd/transient",
    "run/systemd/generator.early",
    "etc/systemd/system",
    "etc/systemd/system.attached",
    "run/systemd/system",
    "run/systemd/system.attached",
    "run/systemd/generator",
    "usr/local/lib/systemd/system",
    "usr/lib/systemd/system",
    "lib/systemd/system",
    "run/systemd/generator.late",
)
USER_UNITS = (
    "etc/systemd/user",
    "run/systemd/user",
    "usr/local/share/systemd/user",
    "usr/share/systemd/user",
    "usr/local/lib/systemd/user",
    "usr/lib/systemd/user",
)
