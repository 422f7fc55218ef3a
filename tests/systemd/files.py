"""Checks that settings in files are parsed and merged as systemd does it."""
from __future__ import annotations

import os

from harness import must, must_be
from shared.rooms import Done, Room
from psicli.fault import Fault
from psisystemd.settings import Settings
from systemd.slices import (
    OOMD, SLICE, A, B, UNITS, WATCHED, Leaf, Trace, put, run_emulation, decided, decisions, stalled,
)


def files_by_folder() -> dict[str, tuple[dict[str, str], int]]:
    """Returns cases of settings files for s.slice, each with the time (s) of the resulting kill."""
    low, high = (f"[Slice]\nManagedOOMMemoryPressureLimit={it}%\n" for it in (40, 60))
    kill = WATCHED[f"{UNITS}/s.slice"]
    lib, run = "usr/lib/systemd/system", "run/systemd/system"
    in_lib = f"{lib}/s.slice.d/a.conf"
    return {
        "the unit's file in /etc hides that of /usr": (
            {f"{lib}/s.slice": kill + low, f"{UNITS}/s.slice": kill}, 40
        ),
        "a drop-in file comes after it": (
            {f"{UNITS}/s.slice": kill + high, f"{lib}/s.slice.d/a.conf": low}, 36
        ),
        "of two the last by name": (
            {f"{UNITS}/s.slice.d/a.conf": kill + high, f"{lib}/s.slice.d/b.conf": low}, 36
        ),
        "of one name that of /etc": (
            {f"{UNITS}/s.slice.d/a.conf": kill, f"{lib}/s.slice.d/a.conf": low}, 40
        ),
        "of one name that of /run": (
            {f"{run}/s.slice.d/a.conf": kill + low, f"{lib}/s.slice.d/a.conf": high}, 36
        ),
        "an empty one hides": (
            {f"{UNITS}/s.slice": kill, f"{UNITS}/s.slice.d/a.conf": "", in_lib: low}, 40
        ),
        "an empty value undoes": (
            {f"{UNITS}/s.slice": kill + low + "ManagedOOMMemoryPressureLimit=\n"}, 40
        ),
        "drop-in files of all slices": (
            {f"{UNITS}/s.slice": kill, f"{lib}/slice.d/a.conf": low}, 36
        ),
        "another section": (
            {f"{UNITS}/s.slice": kill, in_lib: low.replace("Slice", "Service", 1)}, 40
        ),
        "a long line and comments": (
            {f"{UNITS}/s.slice": kill + "# x\n; y\nManagedOOMMemoryPressureLimit= \\\n# z\n 40%\n"},
            36,
        ),
    }


def check_which_file_counts(room: Room) -> None:
    """The kill is at the time that follows from the settings which systemd would use: 36 s with a
    limit of 40 percent for s.slice, and 40 s with the default of 60 percent.
    """
    for number, (what, (files, time_s)) in enumerate(files_by_folder().items()):
        put(room, files, f"case{number}")
        must_be(what, decided(room, stalled(), f"case{number}")[0], [(time_s, B)])


def check_which_unit_a_group_is(room: Room) -> None:
    """The settings of a group come from files of its unit, of its template, and of prefixes of the
    unit's name that end with a dash. For a user's units, they come from the folders of the user.
    """
    kill = "[{}]\nManagedOOMMemoryPressure=kill\n"
    manager = "/user.slice/user-1000.slice/user@1000.service"
    app = f"{manager}/app.slice/x.scope"
    deep = "/system.slice/system-foo.slice/foo-bar@1.service"
    cases = {
        "a template": ("user@.service.d/a.conf", "Service", "system", app),
        "an instance": ("user@1000.service.d/a.conf", "Service", "system", app),
        "a name cut at its dash": ("user-.slice.d/a.conf", "Slice", "system", app),
        "a user's unit": ("app.slice", "Slice", "user", app),
        "an instance cut at its dash": ("foo-@.service.d/a.conf", "Service", "system", deep),
        "a template cut at its dash": ("foo-.service.d/a.conf", "Service", "system", deep),
    }
    for number, (what, (name, section, of, leaf)) in enumerate(cases.items()):
        put(room, {f"etc/systemd/{of}/{name}": kill.format(section)}, f"case{number}")
        trace = Trace(45, {leaf: Leaf(1000, 0, 9, ((0, 45),))})
        must_be(what, decided(room, trace, f"case{number}")[0], [(40, leaf)])
    strange = f"{manager}/box/s.slice/a.service"
    put(room, {"etc/systemd/user/s.slice": kill.format("Slice")}, "strange")
    trace = Trace(45, {strange: Leaf(1000, 0, 9, ((0, 45),))})
    must_be("a group below one that is no slice is no unit", decided(room, trace, "strange")[0], [])


def check_oomd_conf(room: Room) -> None:
    """The drop-in files of oomd.conf are read after it, sorted by name. /etc has priority over
    /run, and /run over /usr. Since systemd 256, oomd.conf itself may be in /usr.
    """
    head = "[OOM]\nDefaultMemoryPressureLimit="
    cases = {
        "a drop-in file counts": (
            {
                "etc/systemd/oomd.conf": head + "60%",
                "usr/lib/systemd/oomd.conf.d/a.conf": head + "40%",
            },
            36,
        ),
        "of one name that of /etc": (
            {
                "etc/systemd/oomd.conf.d/a.conf": head + "60%",
                "lib/systemd/oomd.conf.d/a.conf": head + "40%",
            },
            40,
        ),
        "the last by name": (
            {
                "etc/systemd/oomd.conf.d/a.conf": head + "60%",
                "run/systemd/oomd.conf.d/b.conf": head + "40%",
            },
            36,
        ),
        "below /usr": ({"usr/lib/systemd/oomd.conf": head + "40%"}, 36),
        "permille": ({"etc/systemd/oomd.conf": head + "400‰"}, 36),
        "decimals": ({"etc/systemd/oomd.conf": head + "39.99%"}, 36),
    }
    for number, (what, (files, time_s)) in enumerate(cases.items()):
        put(room, {**WATCHED, **files}, f"case{number}")
        for version, wanted in ((257, time_s), (252, 40 if what == "below /usr" else time_s)):
            must_be(f"{what}, {version}", decided(room, stalled(), f"case{number}", version)[0],
                    [(wanted, B)])


def check_what_systemd_said(room: Room) -> None:
    """The output of `systemctl show` has priority over files. In this output, a limit is a fraction
    of 4294967295.
    """
    shown = (
        f"Id=s.slice\nControlGroup={SLICE}\nManagedOOMSwap=auto\nManagedOOMMemoryPressure=kill\n"
    )
    half = shown + "ManagedOOMMemoryPressureLimit=2147483648\n"
    own = half + "ManagedOOMMemoryPressureDurationUSec="
    for text, time_s in ((shown, 40), (half, 38), (own + "20s\n", 28), (own + "[not set]\n", 38)):
        files = {
            "units": f"Id=-.slice\nControlGroup=/\n\n{text}", "version": "systemd 257 (257.1)\n"
        }
        files[f"{UNITS}/s.slice"] = "[Slice]\nManagedOOMMemoryPressure=auto\n"
        must_be(f"by {text}", decisions(room, stalled(42), files), [(time_s, B)])
    put(
        room,
        {
            "version": "systemd 252 (252.1)\n",
            "units": half + "ManagedOOMMemoryPressureDurationUSec=20s\n",
        },
    )
    must_be("252 has no duration of a unit", decisions(room, stalled(), {}), [(38, B)])


def bad_settings() -> tuple[tuple[str, str, str], ...]:
    """Returns invalid settings: for each, the file, its text, and the expected message."""
    unit, conf = f"{UNITS}/s.slice", "etc/systemd/oomd.conf"
    share = "it has to be a percentage such as 60%, from 0% to 100%, with at most two decimals"
    length = "it has to be a time of at least 1 s, such as 20s or 1min 30s"
    return (
        (conf, "[OOM]\nSwapUsedLimit=90\n", f"line 2: SwapUsedLimit is '90': {share}"),
        (conf, "[OOM]\n\nDefaultMemoryPressureLimit=101%\n",
         f"line 3: DefaultMemoryPressureLimit is '101%': {share}"),
        (conf, "[OOM]\nDefaultMemoryPressureLimit=1.234%\n",
         f"line 2: DefaultMemoryPressureLimit is '1.234%': {share}"),
        (conf, "[OOM]\nDefaultMemoryPressureDurationSec=500ms\n",
         f"line 2: DefaultMemoryPressureDurationSec is '500ms': {length}"),
        (conf, "[OOM]\nDefaultMemoryPressureDurationSec=soon\n",
         f"line 2: DefaultMemoryPressureDurationSec is 'soon': {length}"),
        (conf, "[OOM\n", "line 1: '[OOM' is no section: write [OOM], or [Slice]"),
        (conf, "[OOM]\nSwapUsedLimit\n", "line 2: 'SwapUsedLimit' is no setting: write NAME=VALUE"),
        (conf, "SwapUsedLimit=90%\n",
         "line 1: SwapUsedLimit stands before any section, so it is passed over: "
         "write [OOM], or [Slice], above"),
        (unit, "[Slice]\nManagedOOMSwap=yes\n",
         "line 2: ManagedOOMSwap is 'yes': it has to be auto or kill"),
        (unit, "[Slice]\nManagedOOMPreference=prefer\n",
         "line 2: ManagedOOMPreference is 'prefer': it has to be none or avoid or omit"),
        (unit, "[Slice]\nManagedOOMMemoryPressureLimit=half\n",
         f"line 2: ManagedOOMMemoryPressureLimit is 'half': {share}"),
        (unit, "[Slice]\nManagedOOMMemoryPressureDurationSec=0\n",
         f"line 2: ManagedOOMMemoryPressureDurationSec is '0': {length}"),
        ("groups", f"{A} uid=0\n",
         "line 1: it is no group as tools/record writes it: PATH uid=0 oom_group=0 avoid=0 omit=0"),
        ("units", "Id=a\nnothing\n",
         "line 2: it is no line of `systemctl show`, which are NAME=VALUE"),
        ("units", "ControlGroup=/a\nManagedOOMMemoryPressureLimit=x\n",
         "line 2: ManagedOOMMemoryPressureLimit is 'x': "
         "it has to be a number up to 4294967295, which is 100%"),
        ("version", "260\n",
         "line 1: it isn't what `systemctl --version` says: give the version by --systemd"),
    )  # fmt: skip


def check_bad_settings(room: Room) -> None:
    """For each invalid setting, the message has the file and the line, and the output is empty."""
    for number, (name, text, wanted) in enumerate(bad_settings()):
        put(room, {name: text}, f"case{number}")
        must_be(f"{name}: {text!r}", fault_of(room, f"case{number}"),
                f"case{number}/{name} {wanted}")
    room.file("t.trace", stalled(3).text())
    done = room.run(OOMD, "t.trace", "--settings", "case0")
    must_be("nothing else is printed", done,
            Done(2, "", f"systemd-oomd: {fault_of(room, 'case0')}\n"))


def fault_of(room: Room, folder: str) -> str:
    """Parses a folder of invalid settings, and returns the error message."""
    try:
        settings = Settings(os.path.join(room.path, folder))
        settings.watched(SLICE)
    except Fault as fault:
        return str(fault).replace(f"{room.path}/", "")
    return ""


def check_a_trace_without_samples(room: Room) -> None:
    trace = stalled(3)
    put(room, WATCHED)
    room.file("t.trace", "\n".join(it for it in trace.text().split("\n") if " mem " not in it))
    done = room.run(OOMD, "t.trace", "--settings", "settings")
    wanted = (
        "systemd-oomd: the trace has no sample of the memory of /s.slice: what is watched there "
        "isn't known\n"
    )
    must_be("what is said", (done.status, done.error), (0, wanted))


def check_an_empty_preference(room: Room) -> None:
    """systemd ignores an empty preference, so the previous setting remains valid."""
    note = (
        f"settings/{UNITS}/b.service.d/y.conf line 2: ManagedOOMPreference is empty: systemd "
        "ignores that, and keeps what was set before"
    )
    avoid, empty = (
        {f"{UNITS}/b.service.d/{it}.conf": f"[Service]\nManagedOOMPreference={value}\n"}
        for it, value in (("x", "avoid"), ("y", ""))
    )
    must_be("b is avoided", decisions(room, stalled(), {**WATCHED, **avoid, **empty}, said=note),
            [(40, A)])
    must_be("b asked for nothing before",
            decisions(room, stalled(), {**WATCHED, f"{UNITS}/b.service.d/x.conf": ""}, said=note),
            [(40, B)])


def check_misspelt_settings(room: Room) -> None:
    """A setting that systemd ignores is reported, and has no effect."""
    put(room,
        {**WATCHED, "etc/systemd/oomd.conf": "[OOM]\nSwapUsedLimt=1%\n[Oom]\nSwapUsedLimit=1%\n"})
    put(room, {f"{UNITS}/s.slice.d/a.conf": "[Slice]\nManagedOOMMemoryPresure=auto\n"})
    done = run_emulation(room, stalled())
    files = "systemd-oomd: settings/etc/systemd"
    must_be("what is told", done.error, (
        f"{files}/oomd.conf line 2: there is no setting SwapUsedLimt in oomd.conf, so it is passed "
        "over; did you mean SwapUsedLimit?\n"
        f"{files}/oomd.conf line 4: SwapUsedLimit stands in [Oom], and means nothing outside of "
        "[OOM]\n"
        f"{files}/system/s.slice.d/a.conf line 2: there is no setting ManagedOOMMemoryPresure in "
        "units, so it is passed over;"
        " did you mean ManagedOOMMemoryPressure?\n"
    ))  # fmt: skip
    must("40 s  would kill" in done.output, done.output)
