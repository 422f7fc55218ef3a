"""Checks that the same samples in different formats give the same trace, byte for byte."""
from __future__ import annotations

import gzip
import json
from collections.abc import Iterable

from harness import must, must_be

from . import START, Room, Row, csv, room_of, steady

TIMES = range(0, 61, 5)
KINDS = {"some": "waiting", "full": "stalled"}


def rows() -> list[Row]:
    """Returns samples of a machine with a slice and two services. In cAdvisor's format, the label
    `id` is the path of a group.
    """
    found = steady(
        "/", "io", TIMES, 0.2, 0.05, base=1000
    ) + steady("/", "cpu", TIMES, 0.3, 0.0) + steady("/", "memory", TIMES, 0.1, 0.02)
    for path, share in (
        ("/a.slice", 0.3), ("/a.slice/b.service", 0.5), ("/a.slice/c.service", 0.1)
    ):
        found += steady(path, "io", TIMES, share, share / 2, base=77)
        found += steady(path, "memory", TIMES, share / 3, share / 4) + steady(
            path, "cpu", TIMES, share / 2, share / 5
        )
    return found


def series() -> dict[tuple[str, str], list[tuple[float, str]]]:
    """Returns the values of each metric and group with their times (s), in the form in which
    exporters write them.
    """
    found: dict[tuple[str, str], list[tuple[float, str]]] = {}
    for row in rows():
        for level, total in (("some", row.some), ("full", row.full)):
            who = "node" if row.group == "/" else "container"
            name = f"{who}_pressure_{row.resource}_{KINDS[level]}_seconds_total"
            if (name, level) != ("node_pressure_cpu_stalled_seconds_total", "full"):
                found.setdefault((name, row.group), []).append((START + row.at, repr(total / 1e6)))
    return found


def labels(group: str) -> dict[str, str]:
    return {"instance": "it:9100"} if group == "/" else {
        "id": group, "instance": "it:8080", "image": 'a "b" \\c'
    }


def text_labels(group: str) -> str:
    quoted = {
        key: value.replace("\\", "\\\\").replace('"', '\\"') for key, value in labels(group).items()
    }
    return ",".join(f'{key}="{value}"' for key, value in quoted.items())


def prometheus(indent: int | None = None) -> str:
    result = []
    for (name, group), values in series().items():
        metric = {"__name__": name, **labels(group)}
        result.append({"metric": metric, "values": [[at, value] for at, value in values]})
    return json.dumps({"status": "success", "data": {"resultType": "matrix", "result": result}},
                      indent=indent)


def openmetrics() -> str:
    lines = ["# TYPE node_pressure_io_waiting_seconds counter"]
    lines += [
        f"{name}{{{text_labels(group)}}} {value} {at:.3f}"
        for (name, group), values in series().items()
        for at, value in values
    ]
    return "\n".join([*lines, "go_goroutines 7 1700000000.0", "# EOF"]) + "\n"


def dump() -> str:
    return "".join(
        f'{{__name__="{name}",{text_labels(group)}}} {value} {round(at * 1000)}\n'
        for (name, group), values in series().items()
        for at, value in values
    )  # fmt: skip


def stale_dump() -> str:
    """Returns a dump in which each series ends with a NaN. Prometheus writes this mark if a scrape
    no longer finds a series.
    """
    heads = dict.fromkeys(line.rpartition("} ")[0] for line in dump().splitlines())
    return dump() + "".join(f"{it}}} NaN {(START + TIMES[-1] + 5) * 1000}\n" for it in heads)


def json_lines() -> str:
    return "".join(
        json.dumps(
            {
                "time": START + it.at, "group": it.group,
                it.resource: {"some": it.some, "full": it.full},
            }
        ) + "\n"
        for it in sorted(rows(), key=lambda it: it.at)
    )


def loop() -> str:
    """Returns the samples as the output of a shell loop, which runs date, and grep on the pressure
    files.
    """
    lines = []
    for at in TIMES:
        lines.append(f"{START + at}.000000000")
        for it in (it for it in rows() if it.at == at):
            file = (
                f"/proc/pressure/{it.resource}"
                if it.group == "/"
                else f"/sys/fs/cgroup{it.group}/{it.resource}.pressure"
            )
            for level, total in (("some", it.some), ("full", it.full)):
                lines.append(f"{file}:{level} avg10=0.00 avg60=0.00 avg300=0.00 total={total}")
    return "\n".join(lines) + "\n"


def traces(room: Room, texts: Iterable[tuple[str, str | bytes]]) -> dict[str, str]:
    """Converts each of these texts, and returns the traces by name."""
    found = {}
    for name, text in texts:
        room.file("samples", text)
        room.make("samples")
        found[name] = room.text("it.trace")
    return found


def check_all_formats_give_the_same_trace(program: str) -> None:
    texts: list[tuple[str, str | bytes]] = [
        ("csv", csv(rows())), ("JSON lines", json_lines()), ("a query of Prometheus", prometheus()),
        ("the same, indented", prometheus(2)),
        ("promtool tsdb dump", dump()), ("a dump with a stale marker", stale_dump()),
        ("OpenMetrics", openmetrics()), ("a loop", loop()),
        ("csv, compressed", gzip.compress(csv(rows()).encode())),
    ]  # fmt: skip
    with room_of(program) as room:
        found = traces(room, texts)
        for name, trace in found.items():
            must(trace == found["csv"], f"{name} gives the same trace as csv")
        must(found["csv"].count("\n") > 500, "it is no empty trace")


def check_several_files_are_one(program: str) -> None:
    """Several files are treated as one. The root may come from one query and groups from another,
    and the times of files may overlap.
    """
    with room_of(program) as room:
        room.file("all", csv(rows()))
        room.file("root", csv(it for it in rows() if it.group == "/"))
        room.file("early", csv(it for it in rows() if it.group != "/" and it.at <= 30))
        room.file("late", csv(it for it in rows() if it.group != "/" and it.at >= 20))
        room.make("all")
        wanted = room.text("it.trace")
        room.make("late", "root", "early")
        must(room.text("it.trace") == wanted, "the parts are the whole")


def check_names_of_groups(program: str) -> None:
    """The options --rename, --groups and --labels rename or select groups."""
    with room_of(program) as room:
        room.file("samples", csv(rows()))
        room.make("samples", "--rename", "/a.slice=/system.slice/web", "--groups", "2")
        groups = {path for _, path, _ in room.totals()}
        must_be("groups that were renamed, to a depth of two", groups,
                {"/", "/system.slice", "/system.slice/web"})
        answer = json.loads(prometheus())
        for one in answer["data"]["result"]:
            it = one["metric"]
            if "id" in it:
                it["pod"], it["container"] = it.pop("id")[1:].partition("/")[::2]
        room.file("pods", json.dumps(answer))
        room.make("pods", "--labels", "pod,container")
        groups = {path for _, path, _ in room.totals()}
        must_be("groups by labels", groups,
                {"/", "/a.slice", "/a.slice/b.service", "/a.slice/c.service"})


def check_the_root_by_two_exporters(program: str) -> None:
    """The root's totals come from node_exporter's series, or from cAdvisor's if there are none of
    node_exporter.
    """
    answer = json.loads(prometheus())
    ours = [it for it in answer["data"]["result"] if it["metric"]["__name__"].startswith("node")]
    for it in ours:
        name = it["metric"]["__name__"].replace("node", "container")
        other = {
            "metric": {"__name__": name, "id": "/", "instance": "it:8080"},
            "values": [[at + 1.5, value] for at, value in it["values"]],
        }
        answer["data"]["result"].append(other)
    with room_of(program) as room:
        plain = traces(room, [("plain", prometheus()), ("both", json.dumps(answer))])
        must(plain["plain"] == plain["both"], "the second root changes nothing")
        answer["data"]["result"] = [
            it for it in answer["data"]["result"] if not it["metric"]["__name__"].startswith("node")
        ]
        room.file("samples", json.dumps(answer))
        room.make("samples")
        must(room.totals()[60, "/", "io"][0] > 11_000_000, "the root is cAdvisor's")
