"""Finds, for each detector, the value that came nearest to its threshold at any evaluation."""
from __future__ import annotations

from typing import Any, Iterable, NamedTuple, Optional

from psicli.times import SECOND, seconds, time_text
from psireplay.groups import Group as TraceGroup
from psireplay.groups import Groups
from psireplay.lines import Report, read
from psireplay.rules import Plugin, argument, size
from psireplay.trace import Events

GroupsByPath = dict[str, "Group"]
# The pressure detectors, each with the window (s) of the average that it compares.
PRESSURE = {"pressure_above": 10, "pressure_rising_beyond": 60}


class Group(NamedTuple):
    """A group at an evaluation: its averages of full pressure of IO and memory over 10 s and 60 s
    (hundredths of a percent), its memory (bytes, or None without a sample), and the number of pages
    that were scanned for it since the previous evaluation.
    """

    full: dict[tuple[str, str], int]
    memory: Optional[int]
    rise: int


class Nearest(NamedTuple):
    """The value that came nearest to a threshold, the time (ns) at which it was first reached, and
    the path of the group that reached it.
    """

    value: int
    time_ns: int
    path: str


class Memory:
    """The last samples of the groups and the host at an evaluation. `before` has each group's count
    of scanned pages at the previous evaluation.
    """

    def __init__(self, trace: str) -> None:
        self.groups, self.events = Groups(), Events(trace)
        self.before: dict[TraceGroup, int] = {}

    def go_to(self, time_ns: int) -> None:
        """Applies the events up to the evaluation at `time_ns`."""
        self.before = {group: scanned(group) for group in self.groups.live.values()}
        for event in self.events.until(time_ns):
            self.groups.take(*event)

    def memory(self, path: str) -> Optional[int]:
        """Returns the memory (bytes) in a group's last sample, or None without a sample. The group
        must be live.
        """
        sample = self.groups.live[path].sample
        return sample.memory if sample else None

    def rise(self, path: str) -> int:
        """Returns the number of pages scanned since the previous evaluation, or 0 if the group
        didn't exist then.
        """
        group = self.groups.live[path]
        return max(0, scanned(group) - self.before.get(group, scanned(group)))


def scanned(group: TraceGroup) -> int:
    """Returns the count of scanned pages in a group's last sample, or 0 without a sample."""
    return group.sample.scanned if group.sample else 0


class Watch:
    """A detector, and the value that came nearest to its threshold so far."""

    def __init__(self, detector: dict[str, Any]) -> None:
        self.plugin = Plugin(
            detector["name"], {key: argument(it) for key, it in detector["args"].items()}
        )
        self.nearest: Optional[Nearest] = None
        self.has_matched = self.lacks_swap = False
        # The longest time (ns) for which the highest pressure was above the threshold. Averages
        # have two decimals, as printed.
        self.hold = 0
        self.since: Optional[int] = None

    def update(self, time_ns: int, groups: GroupsByPath, memory: Memory) -> None:
        """Updates the nearest value after the evaluation at `time_ns`."""
        name = self.plugin.name
        if name == "swap_free":
            host = memory.groups.host
            self.lacks_swap = bool(host and not host.swap)
            if host and host.swap:
                self.take(-100 * 100 * host.swap_free // host.swap, time_ns, "")
            return
        values = {
            path: self.value(group) for path, group in groups.items() if self.plugin.covers(path)
        }
        for path, value in values.items():
            self.take(value, time_ns, path)
        if name in PRESSURE:
            is_above = max((it or 0 for it in values.values()), default=0) > 100 * int(
                self.plugin.args["threshold"]
            )
            self.since = (time_ns if self.since is None else self.since) if is_above else None
            if self.since is not None:
                self.hold = max(self.hold, time_ns - self.since)

    def value(self, group: Group) -> Optional[int]:
        name, args = self.plugin
        if name == "pressure_above":
            return group.full[args["resource"], "avg10"]
        if name == "pressure_rising_beyond":
            return group.full[args["resource"], "avg60"]
        return {"memory_above": group.memory, "memory_reclaim": group.rise}.get(name, 1)

    def take(self, value: Optional[int], time_ns: int, path: str) -> None:
        self.has_matched = True
        if value is not None and (self.nearest is None or value > self.nearest.value):
            self.nearest = Nearest(value, time_ns, path)

    def part(self, host: Optional[int]) -> float:
        """Returns the fraction of its threshold that the detector reached, from 0 to 1. `host` is
        the machine's memory (bytes).
        """
        name, args = self.plugin
        if self.nearest is None or name == "exists":
            return 0.0
        value = self.nearest.value
        if name in PRESSURE:
            return reached(value, int(args["threshold"]) * 100)
        if name == "memory_above":
            return reached(value, size(args["threshold"], host) or 0)
        return (
            reached(100 * int(args["threshold_pct"]), -value)
            if name == "swap_free"
            else float(value > 0)
        )

    def nearest_text(self, host: Optional[int], hold: int) -> str:
        """Describes the value that came nearest to the threshold, and its distance from the
        threshold. If the value was above for too short a time, describes that time. `hold` is the
        longest time (ns) for which the condition held.
        """
        name, args = self.plugin
        if self.nearest is None or name in ("exists", "memory_reclaim"):
            return self.came(host)
        value, time_ns, path = self.nearest
        at = f"at {time_text(time_ns)}"
        if name in PRESSURE:
            what = f"full {args['resource']} pressure of {path} over {PRESSURE[name]} s"
            what += f" was {share(value)} percent {at}"
            limit = 100 * int(args["threshold"])
            far = f"{share(limit - value)} below" if value <= limit else "above"
            missing = short_of(args, hold, value > limit)
            return f"{what}, {far} the threshold of {args['threshold']}{missing}"
        if name == "memory_above":
            what, level = f"memory of {path} was {mebibytes(value)} MiB {at}", size(
                args["threshold"], host
            )
            far = f"{mebibytes(level - value)} MiB below" if level and value <= level else "above"
            missing = short_of(args, hold, far == "above")
            return f"{what}, {far} the threshold of {args['threshold']}{missing}"
        far = share(-value - 100 * int(args["threshold_pct"]))
        limit_shown = f"{far} above the threshold of {args['threshold_pct']}"
        return f"{share(-value)} percent of the swap was free {at}, {limit_shown}"

    def wanted(self) -> str:
        """Describes the detector's condition."""
        name, args = self.plugin
        long = lasting(args)
        whom = args.get("cgroup", "")
        pressure = f"{whom}: full {args.get('resource')} pressure over"
        which = "no such" if args.get("negate") == "true" else "such a"
        return {
            "pressure_above": f"{pressure} 10 s above {args.get('threshold')} %{long}",
            "pressure_rising_beyond": f"{pressure} 60 s, and over 10 s, above "
            f"{args.get('threshold')} %{long}, and not falling fast",
            "memory_above": f"{whom}: memory above {args.get('threshold')}{long}",
            "memory_reclaim": f"{whom}: pages were scanned within {args.get('duration')} s",
            "swap_free": f"less than {args.get('threshold_pct')} % of the swap is free",
            "exists": f"{whom}: there is {which} group",
        }[name]

    def came(self, host: Optional[int]) -> str:
        """Describes how near the detector came to its threshold."""
        name, args = self.plugin
        if self.nearest is None:
            none = (
                "the trace has no sample of its memory"
                if self.has_matched
                else "there never was such a group"
            )
            swap = (
                "the machine has no swap" if self.lacks_swap else "the trace says nothing of swap"
            )
            return swap if name == "swap_free" else none
        value, time_ns, path = self.nearest
        at = f"({path} at {time_text(time_ns)})"
        if name in PRESSURE:
            missing = int(args["threshold"]) * 100 - value
            return f"highest {share(value)} % {at}" + (
                f", {share(missing)} % below" if missing > 0 else ""
            )
        if name == "memory_above":
            level = size(args["threshold"], host)
            part = f", {100 * value / level:.1f} % of the threshold" if level else ""
            return f"highest {mebibytes(value)} MiB {at}{part}"
        if name == "memory_reclaim":
            return f"highest rise {value} pages {at}" if value else "no page was scanned"
        if name == "swap_free":
            return f"lowest {share(-value)} % free (at {time_text(time_ns)})"
        return f"first there: {path} at {time_text(time_ns)}"


def reached(value: int, limit: int) -> float:
    """Returns `value / limit`, at most 1."""
    return min(1.0, value / limit) if limit > 0 else 1.0


def lasting(args: dict[str, str]) -> str:
    """Returns the words ` for N s` if the condition must hold for a duration, and an empty string
    if not.
    """
    return f" for {args['duration']} s" if args.get("duration", "0") != "0" else ""


def short_of(args: dict[str, str], hold: int, is_above: bool) -> str:
    """Says by how much `hold`, the longest time (ns) above the threshold, was shorter than the
    duration. Returns an empty string if it wasn't, or if the value is not above the threshold.
    """
    missing = int(args.get("duration", "0")) * SECOND - hold
    return (
        f" for {seconds(hold)} s at most, {seconds(missing)} s short of {args['duration']} s"
        if is_above and missing > 0
        else ""
    )


def share(hundredths: int) -> str:
    return f"{hundredths // 100}.{hundredths % 100:02}"


def mebibytes(number: int) -> str:
    return f"{number / 2**20:.1f}"


def groups_of(reports: list[Report], memory: Memory) -> GroupsByPath:
    """Returns the groups that have reports at an evaluation, by path."""
    full: dict[str, dict[tuple[str, str], int]] = {}
    for it in reports:
        shares = full.setdefault(it.path, {})
        shares[it.resource, "avg10"], shares[it.resource, "avg60"] = it.full.avg10, it.full.avg60
    return {
        path: Group(shares, memory.memory(path), memory.rise(path)) for path, shares in full.items()
    }


def watch(
    printed: Iterable[bytes], trace: str, evaluations: list[int], watches: list[Watch]
) -> Optional[int]:
    """Updates `watches` at each evaluation of a replay. `printed` is the output of the replay, and
    has reports at all `evaluations` (ns). Returns the machine's memory (bytes), or None if the
    trace doesn't contain it.
    """
    memory, due = Memory(trace), set(evaluations)
    reports: list[Report] = []
    groups: GroupsByPath = {}

    def evaluate() -> None:
        nonlocal groups
        if reports and reports[0].time_ns in due:
            memory.go_to(reports[0].time_ns)
            groups = groups_of(reports, memory)
            for it in watches:
                it.update(reports[0].time_ns, groups, memory)

    for line in read(printed):
        if isinstance(line, Report):
            if reports and line.time_ns != reports[0].time_ns:
                evaluate()
                reports = []
            reports.append(line)
    evaluate()
    return memory.groups.host.memory if memory.groups.host else None
