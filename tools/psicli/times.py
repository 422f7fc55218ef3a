"""Parses and formats times and durations, which are whole numbers of ns."""
from __future__ import annotations

import calendar
import re
import time
from typing import NamedTuple

from .fault import Malformed

SECOND = 10**9
MINUTE, HOUR, DAY = 60 * SECOND, 3600 * SECOND, 86400 * SECOND
MONTHS = (
    "January", "February", "March", "April", "May", "June",
    "July", "August", "September", "October", "November", "December",
)  # fmt: skip


def ns_of(number: str) -> int:
    """Converts a decimal number of seconds to ns. Decimals after the ninth are ignored."""
    whole, _, part = number.partition(".")
    return int(whole) * SECOND + int(part[:9].ljust(9, "0"))


def seconds(ns: int) -> str:
    """Formats a time (ns) in seconds, without trailing zeros."""
    sign, ns = ("-", -ns) if ns < 0 else ("", ns)
    return sign + f"{ns // SECOND}.{ns % SECOND:09}".rstrip("0").rstrip(".")


def seconds_to_ms(ns: int) -> str:
    """Formats a time (ns) in seconds with three decimals, rounded down."""
    return f"{ns // SECOND}.{ns % SECOND // 10**6:03}"


def duration(ns: int) -> str:
    """Formats a duration (ns) in hours, minutes and seconds: `1 h 2 min 3.5 s`."""
    parts = []
    for unit, length in (("d", DAY), ("h", HOUR), ("min", MINUTE)):
        count, ns = divmod(ns, length)
        parts += [f"{count} {unit}"] if count else []
    parts += [f"{seconds(ns)} s"] if ns or not parts else []
    return " ".join(parts)


def nearest(ns: int, unit: int) -> int:
    """Returns the multiple of `unit` that is nearest to `ns`; a tie is rounded up."""
    return (ns + unit // 2) // unit * unit


def rounded(ns: int) -> str:
    """Formats a duration (ns), rounded to whole hours (if at least a day), whole minutes (if at
    least an hour), whole seconds (if at least a minute), or three digits.
    """
    three_digits = int(10 ** max(0, len(str(ns)) - 3))
    for length, unit in ((MINUTE, three_digits), (HOUR, SECOND), (DAY, MINUTE)):
        if nearest(ns, unit) < length:
            return duration(nearest(ns, unit))
    return duration(nearest(ns, HOUR))


class WallTime(NamedTuple):
    """A time of day with its time zone: ns since 1970 in UTC, and the offset (ns) of the local time
    from UTC.
    """

    epoch: int
    ahead: int


class ClockTime(NamedTuple):
    """A date and a time of day, as a clock shows them."""

    date: time.struct_time
    clock: str

    @property
    def day(self) -> str:
        return f"{self.date.tm_mday} {MONTHS[self.date.tm_mon - 1]}"


def clock_time(local: int) -> ClockTime:
    """Returns the date and the time of day at `local` ns after 1970-01-01 00:00 local time."""
    whole, part = divmod(local, SECOND)
    date = time.gmtime(whole)
    decimals = f".{part:09}".rstrip("0") if part else ""
    return ClockTime(date, f"{date.tm_hour:02}:{date.tm_min:02}:{date.tm_sec:02}{decimals}")


def zone(ahead: int) -> str:
    """Returns the name of the time zone with this offset (ns) from UTC."""
    minutes = abs(ahead) // MINUTE
    return f"UTC{'-' if ahead < 0 else '+'}{minutes // 60:02}:{minutes % 60:02}" if ahead else "UTC"


class Shown:
    """The time of day at the start of the trace whose times are printed, or None if unknown."""

    wall: WallTime | None = None


def time_text(ns: int) -> str:
    """Formats a time in a trace (ns) in seconds. Adds the time of day if it is known."""
    if Shown.wall is None:
        return f"{seconds(ns)} s"
    clock = clock_time(Shown.wall.epoch + Shown.wall.ahead + ns).clock
    return f"{seconds(ns)} s ({clock.partition('.')[0]})"


WALL_TIME = re.compile(
    r"([0-9]{4})-([0-9]{2})-([0-9]{2})T([0-9]{2}):([0-9]{2}):([0-9]{2})(?:\.([0-9]{1,9}))?"
    r"(?:Z|([+-])([0-9]{2}):([0-9]{2}))"
)


def wall_time(word: str) -> WallTime:
    """Parses a time with a time zone in ISO 8601 format: `2026-11-28T13:58:12Z`,
    `2026-11-28T14:58:12.5+01:00`.
    """
    found = WALL_TIME.fullmatch(word)
    year, month, day, hour, minute, second = (
        (int(it) for it in found.groups()[:6]) if found else (0,) * 6
    )
    hours, minutes = (int(it or 0) for it in found.groups()[8:]) if found else (0, 0)
    is_month = 1970 <= year <= 2999 and 1 <= month <= 12
    is_date = is_month and 1 <= day <= calendar.monthrange(year, month)[1]
    is_clock = hour < 24 and minute < 60 and second < 60 and hours < 15 and minutes < 60
    if not (found and is_date and is_clock):
        forms = "2026-11-28T13:58:12Z or 2026-11-28T14:58:12.5+01:00"
        raise Malformed(f"{word} isn't a time with its zone, such as {forms}")
    ahead = (hours * HOUR + minutes * MINUTE) * (-1 if found[8] == "-" else 1)
    part = int((found[7] or "").ljust(9, "0"))
    whole = calendar.timegm((year, month, day, hour, minute, second))
    return WallTime(whole * SECOND + part - ahead, ahead)
