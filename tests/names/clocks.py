"""Checks of times of day and of container names."""
from __future__ import annotations

import json

from harness import must_be
from shared.rooms import Room

from psicli.fault import Fault
from psicli.times import SECOND, wall_time
from psinames.clock import in_zone, trace_time, time_in, wall_text, zone_name
from psinames.groups import GroupNames
from psirec.containers import names_in

# Cases for a trace of an hour: the start of the trace, a time of day, and that time in seconds
# after the start.
TIMES = (
    ("2026-11-28T13:58:12.5Z", "14:03", 287.5),
    ("2026-11-28T13:58:12.5Z", "14:03:10.25", 297.75),
    ("2026-11-28T23:58:00Z", "0:03", 300),
    ("2026-11-28T13:58:12+01:00", "2026-11-28T12:58:13Z", 1),
    ("2026-11-28T13:58:12Z", "90.5", 90.5),
)
OUTSIDE = (
    ("2026-11-28T13:58:12Z", "13:58",
     "isn't in the trace, which was recorded from 13:58:12 on 28 November 2026 to 14:58:12, UTC"),
    ("2026-11-28T23:30:00Z", "12:00",
     "from 23:30:00 on 28 November 2026 to 00:30:00 on 29 November, UTC"),
    ("2026-11-28T13:58:12Z", "2026-11-28T13:58:11Z", "isn't in the trace"),
)
MALFORMED = ("24:00", "14:60", "14:03:60", "14", "1e3", "14:3", "2026-11-28T14:03:10", "-1")


def said_by(call: object, *words: object) -> str:
    """Returns the message of the Fault that a call raises, or '' if it raises none."""
    try:
        call(*words)  # type: ignore[operator]
    except Fault as fault:
        return str(fault)
    return ""


def check_times_of_day(_: Room) -> None:
    """A time of day refers to its first occurrence after the trace's start, in the trace's time
    zone.
    """
    for start, word, wanted in TIMES:
        must_be(f"{word} in a trace from {start}",
                time_in(trace_time(word), wall_time(start), 3600 * SECOND, "--at"), wanted * SECOND)
    for start, word, wanted_text in OUTSIDE:
        said = said_by(time_in, trace_time(word), wall_time(start), 3600 * SECOND, "--at")
        must_be(f"{word} in a trace from {start}: {said}",
                (said.startswith(f"--at {word}"), wanted_text in said), (True, True))
    must_be(
        "without a start",
        "nothing says when the trace began"
        in said_by(time_in, trace_time("14:03"), None, 1, "--at"),
        True,
    )
    for word in MALFORMED:
        if word != "14":
            must_be(f"{word} is rejected", said_by(trace_time, word) != "", True)


def check_zones(_: Room) -> None:
    """A time of day may be given in another time zone, with daylight saving time."""
    for start, zone, wanted in (
        ("2026-11-28T13:58:12Z", "+01:00", "2026-11-28T14:58:12+01:00"),
        ("2026-11-28T13:58:12.5Z", "Europe/Berlin", "2026-11-28T14:58:12.5+01:00"),
        ("2026-07-28T13:58:12Z", "Europe/Berlin", "2026-07-28T15:58:12+02:00"),
        ("2026-11-28T13:58:12+01:00", "UTC", "2026-11-28T12:58:12Z"),
        ("2026-11-28T00:58:12Z", "-05:30", "2026-11-27T19:28:12-05:30"),
    ):
        must_be(f"{start} in {zone}", wall_text(in_zone(wall_time(start), zone)), wanted)
    must_be("Mars", "isn't a time zone" in said_by(zone_name, "Europe/Mars"), True)
    must_be("a path", "isn't a time zone" in said_by(zone_name, "../etc/passwd"), True)


NUMBER, OTHER, UID = "4fd3" * 16, "4fe4" * 16, "0a1b2c3d-0000-1111-2222-333344445555"
LABELS = {
    "io.kubernetes.pod.name": "web-7", "io.kubernetes.pod.namespace": "prod",
    "io.kubernetes.pod.uid": UID,
}
FORMATS: tuple[tuple[str, dict[str, str]], ...] = (
    (f"# a comment\n{NUMBER} web\n{UID} prod/web-7\n", {NUMBER: "web", UID: "prod/web-7"}),
    (f"{NUMBER[:12]}   a web  \n", {NUMBER[:12]: "a web"}),
    (json.dumps({"containers": [{"id": NUMBER, "metadata": {"name": "nginx"}, "labels": LABELS}]}),
     {NUMBER: "prod/web-7/nginx", UID: "prod/web-7"}),
    (
     json.dumps(
         {"items": [{"id": OTHER, "metadata": {"name": "web-7", "uid": UID, "namespace": "prod"}}]}
     ),
     {OTHER: "prod/web-7/sandbox", UID: "prod/web-7"}),
    (f'{{"ID":"{NUMBER}","Names":"web"}}\n{{"ID":"{OTHER}","Names":"db"}}\n',
     {NUMBER: "web", OTHER: "db"}),
    (json.dumps([{"Id": NUMBER, "Names": ["web", "alias"]}]), {NUMBER: "web"}),
    (json.dumps([{"Id": NUMBER, "Name": "/web"}]), {NUMBER: "web"}),
    ("", {}),
    ("[]", {}),
)  # fmt: skip
PATHS = (
    (f"/kubepods.slice/kubepods-pod{UID.replace('-', '_')}.slice/cri-containerd-{NUMBER}.scope",
     "/kubepods.slice/{prod/web-7}/{web}"),
    (f"/kubepods/burstable/pod{UID}/{NUMBER}", "/kubepods/burstable/{prod/web-7}/{web}"),
    (f"/system.slice/docker-{NUMBER}.scope/init", "/system.slice/{web}/init"),
    (f"/docker/{'ab' * 32}", f"/docker/{'ab' * 32}"),
    ("/", "/"),
)  # fmt: skip


def check_formats_of_containers(_: Room) -> None:
    """Container names are read from the outputs of crictl, docker and podman, and from lines typed
    by hand.
    """
    for text, wanted in FORMATS:
        must_be(f"the names in {text!r}", names_in(text), wanted)
    for text in ("web\n", "4fd3 web\n", f"{NUMBER}\n", '{"ID":'):
        try:
            must_be(f"the names in {text!r}", names_in(text), "none")
        except ValueError:
            pass


def check_paths_of_containers(_: Room) -> None:
    """Group paths are printed with container names. Groups can be selected by path, unit or
    container name.
    """
    names = GroupNames({NUMBER: "web", UID: "prod/web-7"})
    for path, wanted in PATHS:
        must_be(f"how {path} is shown", names.shown(path), wanted)
        must_be(f"{wanted} is found", names.find(wanted, [it for it, _ in PATHS], "here"), path)
    paths = ["/", "/a", "/a/x.service", "/b", "/b/x.service", "/b/y.service"]
    must_be("by its unit", names.find("y.service", paths, "here"), "/b/y.service")
    must_be("two units", said_by(names.find, "x.service", paths, "here"),
            "x.service is the name of 2 groups here: /a/x.service, /b/x.service")  # fmt: skip
    must_be(
        "none",
        said_by(names.find, "z.service", paths, "here").startswith(
            "no group z.service here, which has "
        ),
        True,
    )
    same = GroupNames({NUMBER: "web", OTHER: "web", "77" * 32: "a {b}"})
    must_be("two of one name", [same.shown(f"/docker/{it}") for it in (NUMBER, OTHER)],
            ["/docker/{web@4fd34f}", "/docker/{web@4fe44f}"])
    must_be("braces", same.shown(f"/docker/{'77' * 32}"), r"/docker/{a\x20\x7bb\x7d}")
