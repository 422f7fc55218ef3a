"""Checks how tools/oomd parses a configuration: error messages as in oomd, numbers as in C++, and
patterns as in glob(3).
"""
from __future__ import annotations

import ctypes
import json
import os
import shutil
import subprocess
from typing import Any

from harness import must, must_be
from shared.rooms import Room
from oomd.both import has_oomd
from oomd.stories import ALWAYS, GROWTH, SWAP, plugin, rules, ruleset
from psioomd.configuration import configuration
from psioomd.engine import engine
from psioomd.faults import Refused
from psioomd.machine import Extras, Machine
from psioomd.numbers import BadNumber, float32, signed32, size, stof, stoi
from psioomd.patterns import Patterns
from psireplay.groups import Host

GIB = 1 << 30
KILL = plugin(GROWTH, "a")
INIT = "failed to init() with code=1"
UNABLE = "Unable to parse JSON"
ABORTS = "(it aborts)"


def act(name: str, **args: object) -> Any:
    """Returns a configuration whose only action is this plugin, with these arguments (JSON values).
    """
    return rules(ALWAYS, {"name": name, "args": args})


def see(name: str, **args: object) -> Any:
    """Returns a configuration whose only detector is this plugin, with these arguments."""
    return rules([{"name": name, "args": args}], KILL)


PRESSURE: dict[str, Any] = {"cgroup": "a", "resource": "io", "threshold": 1, "duration": 1}
MEMORY: dict[str, Any] = {"cgroup": "a", "threshold": "1G", "duration": 1}
# Configurations, each with a part of oomd's error message, or with None if oomd accepts the
# configuration.
CONFIGURATIONS: tuple[tuple[Any, str | None], ...] = (
    ({}, None), ({"rulesets": {}}, None), ({"rulesets": []}, None), (None, None),
    ([], ABORTS), ({"rulesets": [3]}, ABORTS), ({"rulesets": [None]}, "Ruleset is missing name"),
    ({"rulesets": {"a": ruleset(ALWAYS, KILL)}}, None),
    ({"rulesets": [{**ruleset(ALWAYS, KILL), "name": ""}]}, "Ruleset is missing name"),
    ({"rulesets": [{**ruleset(ALWAYS, KILL), "name": []}]}, ABORTS),
    ({"rulesets": [{**ruleset(ALWAYS, KILL), "name": 3}]}, None),
    ({"rulesets": [ruleset(ALWAYS)]}, "missing DetectorGroups or missing Actions"),
    ({"rulesets": [{"name": "r", "actions": [KILL]}]}, "missing DetectorGroups or missing Actions"),
    ({"rulesets": [ruleset([], KILL)]}, "DetectorGroup is missing Detectors"),
    ({"rulesets": [{"name": "r", "detectors": [ALWAYS], "actions": [KILL]}]},
     "DetectorGroup is missing name"),
    ({"rulesets": [{"name": "r", "detectors": [3], "actions": [KILL]}]},
     "DetectorGroup is missing name"),
    (rules(ALWAYS, {"args": {}}), "Plugin is missing name"),
    (rules(ALWAYS, 3), "Plugin is missing name"),  # type: ignore[arg-type]
    (rules(ALWAYS, KILL, post_action_delay="x"), "stoi"),
    (rules(ALWAYS, KILL, post_action_delay=-1), "must be non-negative"),
    (rules(ALWAYS, KILL, post_action_delay="10s"), None),
    (rules(ALWAYS, KILL, prekill_hook_timeout="x"), "stoi"),
    (rules(ALWAYS, KILL, **{"silence-logs": "engine, plugins"}), None),
    (rules(ALWAYS, KILL, **{"silence-logs": "all"}), "Unrecognized log source=all"),
    (rules(ALWAYS, KILL, other=3), None),
    ({"prekill_hooks": [{"name": "dummy_prekill_hook", "args": {"cgroup": "/"}}]}, None),
    ({"prekill_hooks": [{"name": "none"}]}, "Could not locate plugin=none"),
    (see("none"), "Could not locate plugin=none in plugin registry"),
    (see("exists"), 'Required arg "cgroup" missing in plugin "exists"'),
    (see("exists", cgroup=["/"]), 'Required arg "cgroup" missing'), (see("exists", cgroup=3), None),
    (see("exists", cgroup="a", other=1), 'Unknown arg "other" in plugin "exists"'),
    (see("exists", cgroup="a", negate="yes"), INIT), (see("exists", cgroup="a", negate=True), None),
    (see("exists", cgroup="a", negate=1), None), (see("exists", cgroup="a", negate=None), None),
    (see("exists", cgroup=""), None), (see("continue", anything="x"), None), (see("stop"), None),
    (see("pressure_above", **PRESSURE), None),
    (see("pressure_above", **{**PRESSURE, "resource": "cpu"}), INIT),
    (see("pressure_above", **{**PRESSURE, "duration": "x"}), INIT),
    (see("pressure_above", **{**PRESSURE, "duration": "3s"}), None),
    (see("pressure_above", **{**PRESSURE, "threshold": -1}), None),
    (see("pressure_above", **{**PRESSURE, "threshold": 1e10}), INIT),
    (see("pressure_above", **{**PRESSURE, "threshold": 7.5}), None),
    (see("pressure_rising_beyond", **PRESSURE, fast_fall_ratio=".5"), None),
    (see("pressure_rising_beyond", **PRESSURE, fast_fall_ratio="x"), INIT),
    (see("memory_above", **MEMORY), None),
    (see("memory_above", **{**MEMORY, "threshold": "1G 2M"}), None),
    (see("memory_above", **{**MEMORY, "threshold": "100MB"}), INIT),
    (see("memory_above", **{**MEMORY, "threshold": "101%"}), INIT),
    (see("memory_above", **{**MEMORY, "threshold": ".5G"}), INIT),
    (see("memory_above", cgroup="a", duration=1), 'Required arg "threshold"'),
    (see("memory_above", cgroup="a", duration=1, threshold_anon="5%"), None),
    (see("memory_above", **{**MEMORY, "threshold": "?"}, threshold_anon="5%"), None),
    (see("memory_reclaim", cgroup="a", duration=""), INIT),
    (see("swap_free", threshold_pct="15%"), None),
    (see("swap_free", threshold_pct=99999999999), INIT),
    (see("nr_dying_descendants", cgroup="a", count=-1), INIT),
    (see("nr_dying_descendants", cgroup="a", count=1, lte="true"), None),
    (see("dump_cgroup_overview", cgroup="a", always="1"), None),
    (act(SWAP, cgroup="a", threshold="10x"), INIT),
    (act(SWAP, cgroup="a", foo="1"), 'Unknown arg "foo"'),
    (act(SWAP, cgroup="a", threshold="5%"), None),
    (act(SWAP, threshold="5%"), 'Required arg "cgroup"'),
    (act(GROWTH, cgroup="a", min_growth_ratio="1.25"), None),
    (act(GROWTH, cgroup="a", min_growth_ratio="x"), INIT),
    (act(GROWTH, cgroup="a", post_action_delay=-1), INIT),
    (act(GROWTH, cgroup="a", dry="maybe"), INIT),
    (act("kill_by_pressure", cgroup="a"), 'Required arg "resource"'),
    (act("kill_by_pg_scan", cgroup="a", recursive="True", debug=0), None),
)  # fmt: skip
# Texts, some of which aren't valid JSON, and whether oomd accepts them.
TEXTS = (
    ("// a comment\n{}", True), ("{/* another */}", True), ('{"rulesets":[],}', True),
    ("{} more", True),
    ("", False), ("{", False), ("{'a':1}", False), ('{"a":NaN}', False),
)  # fmt: skip


def reason(data: bytes) -> str | None:
    """Returns the emulation's reason to reject a configuration, or None."""
    try:
        engine(configuration("c.json", data), [], Machine(Extras(), Host(GIB, GIB, 0)), 0)
    except Refused as refused:
        return str(refused)
    return None


def check_each_configuration(_: Room) -> None:
    for value, wanted in CONFIGURATIONS:
        found = reason(json.dumps(value).encode())
        must((found is None) == (wanted is None) and (wanted or "") in (found or ""),
             f"{value}: {found}, not {wanted}")


def check_places(_: Room) -> None:
    """An error message contains the file, the ruleset, the detector group and the plugin."""
    found = reason(json.dumps(see("exists")).encode()) or ""
    must(
        found.startswith(
            "c.json: ruleset 0 'r', group 0 'g', item 0 'exists': oomd refuses this: "
        ),
        found,
    )
    found = reason(json.dumps(act(SWAP)).encode()) or ""
    must(found.startswith("c.json: ruleset 0 'r', action 0 'kill_by_swap_usage': "), found)


def check_texts(_: Room) -> None:
    for text, is_taken in TEXTS:
        must_be(f"whether {text!r} is taken", reason(text.encode()) is None, is_taken)


def check_configurations_by_oomd(room: Room) -> None:
    """oomd itself rejects the same configurations as the emulation, with the same reasons."""
    if not has_oomd():
        return
    path = os.path.join(room.path, "c.json")
    oomd = shutil.which("oomd") or ""
    texts = [(json.dumps(it), wanted) for it, wanted in CONFIGURATIONS]
    texts += [(text, None if is_taken else UNABLE) for text, is_taken in TEXTS]
    for text, wanted in texts:
        with open(path, "w", encoding="utf-8") as file:
            file.write(text)
        words = [oomd, "--kmsg-override", os.path.join(room.path, "kmsg"), "--check-config", path]
        with open(os.path.join(room.path, "kmsg"), "w", encoding="utf-8"):
            pass
        done = subprocess.run(words, capture_output=True, text=True,
                              env={**os.environ, "INLINE_LOGGING": "1"})
        must_be(f"the status of {text}, which said {done.stderr}", done.returncode == 0,
                wanted is None)
        is_in_words = wanted is None or wanted == ABORTS or wanted in done.stderr
        must(is_in_words, f"{text}: {wanted} isn't in {done.stderr[-500:]}")


def check_numbers(_: Room) -> None:
    for text, wanted in (
        (" 12", 12), ("+7x", 7), ("-3.9", -3), ("007", 7), ("2147483647", 2**31 - 1)
    ):
        must_be(f"stoi of {text}", stoi(text), wanted)
    for text in ("", "x", "- 1", "2147483648", "99999999999"):
        must(fails(stoi, text), f"stoi takes {text!r}")
    for text, ratio in ((".85", 0.85), ("1e-1", 0.1), ("0.8500x", 0.85), ("0x1p-1", 0.5)):
        must_be(f"stof of {text}", stof(text), ctypes.c_float(ratio).value)
    for text in ("", "e5", "1e40", "1e-50"):
        must(fails(stof, text), f"stof takes {text!r}")
    must_be("a 32-bit float", float32(0.1), ctypes.c_float(0.1).value)
    must_be("32 bits", [signed32(it * GIB) for it in (1, 2, 3, 4, 5)],
            [GIB, -2 * GIB, -GIB, 0, GIB])


def check_sizes(_: Room) -> None:
    table = {
        "100": 100 << 20, "-1": -(1 << 20), "+5": 5 << 20, "1536": 1536 << 20, "1.5G": 3 << 29,
        "1K": 1024,
        "1.5M 32K 512": 1536 * 1024 + 32768 + 512, "0K 4096": 4096, "1g": 1 << 30, "2T": 2 << 40,
        "100 ": 100,
        "50%": GIB // 2, "7.9%": GIB * 7 // 100, "0%": 0, "1e3K": 1024000,
    }  # fmt: skip
    for text, wanted in table.items():
        must_be(f"the size {text}", size(text, GIB), wanted)
    for text in ("", "x", "100MB", "101%", "-1%", ".5G", "%", "K", "1KK", "1 G x"):
        must(fails(lambda it: size(it, GIB), text), f"the size {text!r} is taken")
    must_be("a negative total", size("5%", -GIB), -(GIB * 5 // 100))


def fails(read: Any, text: str) -> bool:
    try:
        read(text)
    except BadNumber:
        return True
    return False


class Glob(ctypes.Structure):
    """The struct glob_t of <glob.h>."""

    _fields_ = [
        ("pathc", ctypes.c_size_t), ("pathv", ctypes.POINTER(ctypes.c_char_p)),
        ("offs", ctypes.c_size_t),
        ("flags", ctypes.c_int), ("calls", ctypes.c_void_p * 5),
    ]  # fmt: skip


GLOB_ERR, GLOB_NOSORT, GLOB_BRACE, GLOB_ONLYDIR = 1, 4, 1 << 10, 1 << 13


def by_glob(folder: str, pattern: str) -> list[str]:
    """Returns the folders that the C function glob(3) finds for a pattern. The flags are those that
    oomd uses.
    """
    libc, found = ctypes.CDLL(None), Glob()
    names: set[str] = set()
    for one in filter(None, pattern.split(",")):
        path = "/".join([folder, *filter(None, one.split("/"))])
        flags = GLOB_ERR | GLOB_NOSORT | GLOB_BRACE | GLOB_ONLYDIR
        if libc.glob(path.encode(), flags, None, ctypes.byref(found)) == 0:
            names |= {os.fsdecode(found.pathv[at] or b"") for at in range(found.pathc)}
            libc.globfree(ctypes.byref(found))
    # oomd treats `.` and `..` as groups with these names. No trace has such groups.
    paths = [it[len(folder) :] or "/" for it in names if os.path.isdir(it)]
    return sorted(it for it in paths if not {".", ".."} & set(it.split("/")))


def check_patterns(room: Room) -> None:
    names = ("a", "b", "web.service", ".h", r"qemu\x2d1.scope", "user-1000.slice", "a]b", "x-y")
    for name in names:
        os.makedirs(os.path.join(room.path, name, "in", ".deep"))
    paths = [
        "/",
        *(
            "/" + os.path.relpath(folder, room.path)
            for folder, _, _ in os.walk(room.path)
            if folder != room.path
        ),
    ]
    patterns = (
        "/", "", "a", "/a/", "a//in", "*", "*/*", "?", "[ab]", "[!a]", "[^a]*", "[a-b]",
        "user-*.slice", "{a}", "{a", "a}",
        "{web}.service", "{a/in}", ".*", ".h", "*/.d*", r"qemu\x2d1.scope", r"qemu\\x2d1.scope",
        "qemu*", "a, b", "a,b,a", ",,",
        "[]]*", r"\a", r"\*", "x[-]y", "x[a-z-]y", "nope", "*in*", "**", "*.s*e*", "[", "a[",
        r"{\}}", "?*/i?", "[z-a]",
    )  # fmt: skip
    for pattern in patterns:
        found = sorted(Patterns(pattern).among(sorted(paths)))
        must_be(f"the groups of {pattern!r}", found, by_glob(room.path, pattern))
