"""Converts times of day to times in a trace and back. Times in a trace are in ns since its start.
"""
from __future__ import annotations

import re
import time
import zoneinfo
from datetime import datetime, timezone
from typing import NamedTuple, Optional, Union

from psicli.fault import Fault, Malformed
from psicli.status import Status
from psicli.times import DAY, HOUR, MINUTE, SECOND, WallTime, clock_time, seconds, wall_time, zone
from psicli.values import nanoseconds

TIME_OF_DAY = re.compile(r"([0-9]{1,2}):([0-9]{2})(?::([0-9]{2})(?:\.([0-9]{1,9}))?)?")
OFFSET = re.compile(r"([+-])([0-9]{2}):([0-9]{2})")


class TimeOfDay(NamedTuple):
    """A time of day without a date: ns since midnight, and the text from which it was parsed."""

    since_midnight: int
    text: str


# A time as an operator writes it: ns since the trace's start, a time of day, or a date with a time.
TraceTime = Union[int, TimeOfDay, WallTime]


def time_of_day(word: str) -> Optional[TimeOfDay]:
    """Parses a time of day such as `14:03`, `14:03:10` or `14:03:10.5`. Returns None if `word`
    isn't one.
    """
    found = TIME_OF_DAY.fullmatch(word)
    if not found:
        return None
    hour, minute, second = int(found[1]), int(found[2]), int(found[3] or 0)
    part = int((found[4] or "").ljust(9, "0"))
    if hour > 23 or minute > 59 or second > 59:
        return None
    return TimeOfDay(hour * HOUR + minute * MINUTE + second * SECOND + part, word)


def trace_time(word: str) -> TraceTime:
    """Parses a time: seconds since the start of the trace, a time of day, or a date with a time."""
    if "T" in word:
        return wall_time(word)
    if at := time_of_day(word):
        return at
    try:
        return nanoseconds(word)
    except Malformed:
        forms = "90.5, 14:03, 14:03:10 or 2026-11-28T14:03:10Z"
        raise Malformed(f"{word} is neither seconds nor a time of day, such as {forms}") from None


# ---------------------------------------------------------------- time zones


def offset_of(word: str, epoch: int) -> Optional[int]:
    """Returns a time zone's offset (ns) from UTC at `epoch` (ns since 1970). `word` is `UTC`, an
    offset such as +01:00, `local`, or a name such as Europe/Berlin. Returns None if `word` isn't a
    time zone.
    """
    found = OFFSET.fullmatch(word)
    if found and int(found[2]) < 15 and int(found[3]) < 60:
        return (int(found[2]) * HOUR + int(found[3]) * MINUTE) * (-1 if found[1] == "-" else 1)
    if word in ("UTC", "Z"):
        return 0
    if word == "local":
        return time.localtime(epoch // SECOND).tm_gmtoff * SECOND
    try:
        at = zoneinfo.ZoneInfo(word)
    except (ValueError, OSError, zoneinfo.ZoneInfoNotFoundError):
        return None
    return offset_at(at, epoch)


def offset_at(at: zoneinfo.ZoneInfo, epoch: int) -> int:
    """Returns the offset (ns) from UTC of a time zone with a name, at `epoch` (ns since 1970)."""
    offset = datetime.fromtimestamp(epoch // SECOND, timezone.utc).astimezone(at).utcoffset()
    return int(offset.total_seconds()) * SECOND if offset else 0


def zone_name(word: str) -> str:
    """Checks the name of a time zone, and returns it unchanged."""
    if offset_of(word, 0) is None:
        raise Malformed(f"{word} isn't a time zone, such as UTC, +01:00, local or Europe/Berlin")
    return word


def in_zone(wall: WallTime, word: Optional[str]) -> WallTime:
    """Converts a time to the time zone `word`. If `word` is None, the time is returned unchanged.
    """
    ahead = offset_of(word, wall.epoch) if word else None
    return wall if ahead is None else wall._replace(ahead=ahead)


# ---------------------------------------------------------------- times in a trace


def wall_text(wall: WallTime) -> str:
    """Formats a time in ISO 8601 with its time zone. `wall_time` parses this format."""
    at = clock_time(wall.epoch + wall.ahead)
    offset = zone(wall.ahead).removeprefix("UTC") or "Z"
    return f"{at.date.tm_year:04}-{at.date.tm_mon:02}-{at.date.tm_mday:02}T{at.clock}{offset}"


def span_text(wall: WallTime, length: int) -> str:
    """Returns a text that says when a trace was recorded. The trace began at `wall` and is `length`
    ns long.
    """
    first, last = clock_time(wall.epoch + wall.ahead), clock_time(wall.epoch + wall.ahead + length)
    day = f" on {last.day}" if last.day != first.day else ""
    begin, end = (it.clock.partition(".")[0] for it in (first, last))
    return f"from {begin} on {first.day} {first.date.tm_year} to {end}{day}, {zone(wall.ahead)}"


def time_text(value: TraceTime) -> str:
    """Formats a time in the notation that the operator used."""
    if isinstance(value, TimeOfDay):
        return value.text
    return wall_text(value) if isinstance(value, WallTime) else seconds(value)


def time_in(
    value: TraceTime, wall: Optional[WallTime], length: int, option: str, after: int = 0
) -> int:
    """Converts a time to ns since the start of a trace, which began at `wall` and is `length` ns
    long. A number is returned unchanged. A time of day means its first occurrence after the start.
    A time of day or a date may be up to `after` ns after the trace's end. Raises a Fault if it
    isn't in this range, or if `wall` is None.
    """
    if isinstance(value, int):
        return value
    if not wall:
        why = "is a time of day, and nothing says when the trace began"
        advice = "say by --start when it began, or make the trace with psitrace -o"
        raise Fault(f"{option} {time_text(value)} {why}: {advice}", Status.NO_TIME)
    if isinstance(value, WallTime):
        at = value.epoch - wall.epoch
    else:
        at = (value.since_midnight - wall.epoch - wall.ahead) % DAY
    if not 0 <= at <= length + after:
        why = f"isn't in the trace, which was recorded {span_text(wall, length)}"
        raise Fault(f"{option} {time_text(value)} {why}", Status.NO_TIME)
    return at
