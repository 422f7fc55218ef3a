"""Parses systemd's shares and durations, and formats percentages."""
from __future__ import annotations

import re
from decimal import Decimal

from psicli.times import SECOND

WHOLE = 10000
"""The share of 100 percent in hundredths of a percent, the unit of all shares."""
SCALE = (1 << 32) - 1
"""The share of 100 percent on the scale in which `systemctl show` prints a unit's limit."""
SHARE = re.compile(r"([0-9]{1,9})(?:\.([0-9]{1,2}))?([%‰‱])")
# For each sign: the number of hundredths of a percent in one unit, and the maximum number of
# decimal places.
SIGNS = {"%": (100, 2), "‰": (10, 1), "‱": (1, 0)}
PART = re.compile(r"\s*([0-9]{1,18})(?:\.([0-9]{1,9}))?\s*([a-zA-Zµμ]*)")
UNITS = {
    "us": 1000, "usec": 1000, "µs": 1000, "μs": 1000,
    "ms": SECOND // 1000, "msec": SECOND // 1000,
    "": SECOND, "s": SECOND, "sec": SECOND, "second": SECOND, "seconds": SECOND,
    "m": 60 * SECOND, "min": 60 * SECOND, "minute": 60 * SECOND, "minutes": 60 * SECOND,
    "h": 3600 * SECOND, "hr": 3600 * SECOND, "hour": 3600 * SECOND, "hours": 3600 * SECOND,
    "d": 86400 * SECOND, "day": 86400 * SECOND, "days": 86400 * SECOND,
    "w": 604800 * SECOND, "week": 604800 * SECOND, "weeks": 604800 * SECOND,
}  # fmt: skip


def share(text: str) -> int | None:
    """Parses a share with a percent, permille or permyriad sign. Returns hundredths of a percent,
    or None if the text is malformed or the share is above 100 percent.
    """
    found = SHARE.fullmatch(text)
    if not found:
        return None
    hundredths, most = SIGNS[found[3]]
    if len(found[2] or "") > most:
        return None
    count = Decimal(f"{found[1]}.{found[2] or 0}") * hundredths
    return int(count) if count <= WHOLE else None


def share_of_scale(text: str) -> int | None:
    """Parses a share that `systemctl show` prints on its own scale, or a share with a sign. Returns
    hundredths of a percent, or None if the text is malformed.
    """
    if re.fullmatch("[0-9]{1,10}", text) and int(text) <= SCALE:
        return (int(text) * WHOLE + SCALE // 2) // SCALE
    return share(text)


def duration(text: str) -> int | None:
    """Parses a duration in the format of systemd.time(7). A number without a unit is in seconds.
    Returns ns, or None if the text is malformed or infinite.
    """
    place, ns = 0, 0
    while place < len(text):
        found = PART.match(text, place)
        if not found or found[3] not in UNITS:
            return None
        ns += int(Decimal(f"{found[1]}.{found[2] or 0}") * UNITS[found[3]])
        place = found.end()
    return ns if text.strip() else None


def percent(hundredths: int) -> str:
    """Formats hundredths of a percent without trailing zeros: `50 %`, `71.2 %`."""
    return f"{hundredths // 100}.{hundredths % 100:02}".rstrip("0").rstrip(".") + " %"
