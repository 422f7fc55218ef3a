"""Defines options that several tools share: options that add names and the time of day to a trace,
and options that select a part of the trace.
"""
from __future__ import annotations

from collections.abc import Mapping
from typing import Any, NamedTuple, Optional

from psicli.fault import Fault
from psicli.options import add_start
from psicli.parser import Parser
from psicli.status import Status
from psicli.times import DAY, SECOND, WallTime, seconds
from psicli.values import nanoseconds
from psirec.containers import names_in

from .clock import TraceTime, in_zone, trace_time, time_in, zone_name
from .companion import Companion, find
from .groups import GroupNames
from .text import escaped

# The default length (ns) of the part of a trace that --at selects.
AROUND = 60 * SECOND

HELP = {
    "from": (
        "the start of the time to look at: seconds since the start of the trace, or a time of"
        " day such as 14:01"
    ),
    "to": "its end",
    "at": "look at the time around this one, in place of --from and --to",
    "window": "with --at: the length of that time in s, half of it before (60)",
    "tz": (
        "the time zone of times of day, such as UTC, +01:00, local or Europe/Berlin (without it the"
        " recorded machine's)"
    ),
    "containers": (
        "names of containers and pods: lines NUMBER NAME, or what crictl, docker or podman"
        " print as JSON"
    ),
    "no-names": "leave out the names of processes and containers",
}


class Span(NamedTuple):
    """A part of a trace, between two times (ns since the trace's start)."""

    start: int
    end: int


class Known(NamedTuple):
    """Facts about a trace that the trace itself doesn't contain: the time of day at its start, its
    companion, and the names of containers.
    """

    wall: Optional[WallTime]
    companion: Optional[Companion]
    groups: GroupNames


def add_zone(parser: Parser) -> None:
    """Adds the option for the time zone of times of day."""
    parser.add_argument("--tz", type=zone_name, metavar="ZONE", help=HELP["tz"])


def add_clock(parser: Parser) -> None:
    """Adds the options for the time of day at a trace's start, and for the time zone."""
    add_start(parser, ", if it has no companion file that says so")
    add_zone(parser)


def add_part(parser: Parser) -> None:
    """Adds the options that select a part of a trace. Doesn't add the options for the time of day.
    """
    parser.add_argument("--from", dest="start", type=trace_time, metavar="T", help=HELP["from"])
    parser.add_argument("--to", dest="end", type=trace_time, metavar="T", help=HELP["to"])
    parser.add_argument("--at", type=trace_time, metavar="T", help=HELP["at"])
    parser.add_argument("--window", type=nanoseconds, metavar="S", help=HELP["window"])


def add_times(parser: Parser) -> None:
    """Adds the options that select a part of a trace, and the options for the time of day."""
    add_part(parser)
    add_clock(parser)


def add_containers(parser: Parser) -> None:
    """Adds the option for the names of containers."""
    parser.add_argument("--containers", metavar="FILE", help=HELP["containers"])


def add_names(parser: Parser) -> None:
    """Adds the options about names of processes and containers."""
    add_containers(parser)
    parser.add_argument("--no-names", action="store_true", help=HELP["no-names"])


# ---------------------------------------------------------------- names and time of day


def containers_in(name: str) -> dict[str, str]:
    """Reads a file of container names. Returns escaped names, keyed by container id."""
    try:
        with open(name, encoding="utf-8", errors="surrogateescape") as file:
            found = names_in(file.read())
    except ValueError as fault:
        raise Fault(f"{name} has no names of containers: {fault}") from None
    return {number: escaped(it.encode("utf-8", "surrogateescape")) for number, it in found.items()}


def known_of(trace: str, values: Mapping[str, Any], is_whole: bool = False) -> Known:
    """Collects names and the time of day of a trace, from its companion and from a tool's options.
    These are the options of `add_clock` and `add_names`, if the tool has them. Reads the
    companion's tasks only if `is_whole`.
    """
    companion = find(trace, is_whole)
    has_names = not values.get("no_names")
    containers = dict(companion.containers) if companion and has_names else {}
    if values.get("containers") is not None and has_names:
        containers.update(containers_in(values["containers"]))
    wall = values.get("wall") or (companion.start if companion else None)
    zoned = in_zone(wall, values.get("tz")) if wall else None
    return Known(zoned, companion if has_names else None, GroupNames(containers))


# ---------------------------------------------------------------- selecting a part


def must_fit(values: Mapping[str, Any]) -> None:
    """Raises a Fault if the options exclude each other."""
    for option, name in (("--from", "start"), ("--to", "end")):
        if values["at"] is not None and values[name] is not None:
            raise Fault(f"--at is in place of {option}: give one of them")
    if values["window"] is not None and values["at"] is None:
        raise Fault("--window is the length of the time around --at: give that too")


def has_start(values: Mapping[str, Any]) -> bool:
    """Returns whether an option sets the start of the part."""
    return values["start"] is not None or values["at"] is not None


def span_in(
    values: Mapping[str, Any], wall: Optional[WallTime], length: int, what: str = "trace"
) -> Span:
    """Returns the part that the options of `add_times` select, in a trace of `length` ns."""
    must_fit(values)
    if values["at"] is not None:
        at, half = time_in(values["at"], wall, length, "--at"), (values["window"] or AROUND) // 2
        must_be_in("--at", at, length, what)
        return Span(max(at - half, 0), min(at + half, length))
    start = 0 if values["start"] is None else time_in(values["start"], wall, length, "--from")
    end = length if values["end"] is None else end_in(values["end"], wall, length)
    must_be_in("--from", start, length, what)
    if start >= end and length:
        why = f"isn't before --to {seconds(end)}: no time is left between"
        raise Fault(f"--from {seconds(start)} {why}", Status.NO_TIME)
    return Span(start, end)


def end_in(value: TraceTime, wall: Optional[WallTime], length: int) -> int:
    """Returns the end (ns) of the selected part, at most the end of the trace. A time of day may be
    up to half a day after the end.
    """
    return min(time_in(value, wall, length, "--to", DAY // 2), length)


def must_be_in(option: str, at: int, length: int, what: str) -> None:
    """Raises a Fault if `at` (ns) is after the end of the trace, which is `length` ns long. The
    message names the option, and calls the trace `what`.
    """
    if at > length:
        why = f"is after the end of the {what}, {seconds(length)} s"
        raise Fault(f"{option} {seconds(at)} {why}", Status.NO_TIME)
