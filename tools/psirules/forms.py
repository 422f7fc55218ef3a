"""Checks the values of arguments: which values psi_oomd accepts, and how oomd 0.5.0 reads values
that only oomd accepts.
"""
import re
from dataclasses import dataclass
from decimal import Decimal

from psicli.wording import quoted
from psirules.patterns import is_pattern
from psirules.plugins import Form

WHOLE = r"(0|[1-9][0-9]{0,19})"
UNITS = {"": 1, "K": 1 << 10, "M": 1 << 20, "G": 1 << 30, "T": 1 << 40}
"""The number of bytes of each unit letter."""
MOST_BYTES = 1 << 60
MOST_PATTERNS = 16
MOST = {Form.PERCENT: 100, Form.SECONDS: 1000000}
LEADING = re.compile(r"\s*\+?([0-9]+)")
"""The digits at the start of a text. oomd reads only these of a whole number."""


@dataclass(frozen=True)
class Repair:
    """A replacement for a text that only oomd accepts: a text that psi_oomd accepts, the reason,
    and whether the meaning changes.
    """

    text: str
    why: str
    is_lost: bool = False


def spelled(value: object) -> str | None:
    """Returns an argument's value as a string, as both programs read it. Returns None if the value
    is not a string, a number or a boolean.
    """
    if isinstance(value, bool):
        return "true" if value else "false"
    return (
        value if isinstance(value, str) else str(value) if isinstance(value, (int, float)) else None
    )


def is_text(value: object) -> bool:
    """Whether psi_oomd accepts this JSON value as the text of an argument."""
    return isinstance(value, (str, bool)) or isinstance(value, int) and 0 <= value < 1 << 64


def is_valid(form: Form, text: str) -> bool:
    """Whether psi_oomd accepts `text` as an argument of this form."""
    if form in MOST:
        return bool(re.fullmatch(WHOLE, text)) and int(text) <= MOST[form]
    if form is Form.RATIO:
        found = re.fullmatch(WHOLE + r"(?:\.[0-9]{1,3})?", text)
        return bool(found) and int(found[1]) <= 1000 if found else False
    if form is Form.SIZE:
        return (
            size(text) is not None
            or bool(re.fullmatch(WHOLE + "%", text))
            and int(text[:-1]) <= 100
        )
    if form is Form.TRUTH:
        return text in ("true", "True", "1", "false", "False", "0")
    if form is Form.RESOURCE:
        return text in ("io", "memory")
    patterns = text.split(",")
    return len(patterns) <= MOST_PATTERNS and all(map(is_pattern, patterns))


def size(text: str) -> int | None:
    """Parses a size that isn't a percentage. Returns bytes, or None if the size is malformed or too
    large.
    """
    found = re.fullmatch(WHOLE + r"(?:(\.[0-9]{1,3})?([KMGTkmgt]))?", text)
    if not found:
        return None
    count = int(Decimal(found[1] + (found[2] or "")) * UNITS[(found[3] or "").upper()])
    return count if count <= MOST_BYTES else None


def size_text(count: int) -> str:
    """Formats a number of bytes with a unit letter, since oomd reads a number without one as
    megabytes. Rounds up to a thousandth of a KiB if no unit divides the number.
    """
    for letter, unit in reversed(UNITS.items()):
        if letter and count % unit == 0:
            return f"{count // unit}{letter}" if count else "0"
    thousandths = -(-count * 1000 // 1024)
    return f"{thousandths // 1000}.{thousandths % 1000:03}".rstrip("0") + "K"


def oomd_size(text: str) -> int | None:
    """Parses a size as oomd does: it may have several parts, spaces, or many decimals, such as
    `1.5M 32K 512`. Returns bytes, or None if the size is malformed.
    """
    joined = "".join(text.split()).lower().removeprefix("+")
    parts = re.findall(r"([0-9]+\.?[0-9]*|\.[0-9]+)([kmgt]?)", joined)
    if not parts or "".join(number + letter for number, letter in parts) != joined:
        return None
    if any(not letter for _, letter in parts[:-1]):
        return None
    return int(sum(Decimal(number) * UNITS[letter.upper()] for number, letter in parts))


def repair(form: Form, text: str) -> Repair | None:
    """Returns the replacement for a text that psi_oomd rejects, or reads differently from oomd.
    Returns None if no replacement is needed or possible.
    """
    if form is Form.SIZE:
        return repair_size(text)
    if is_valid(form, text):
        return None
    if form in MOST and (found := LEADING.match(text)) and int(found[1]) <= MOST[form]:
        return Repair(str(int(found[1])), f"oomd reads {quoted(text)} as {int(found[1])}")
    if form is Form.RATIO and re.fullmatch(
        r"\s*\+?([0-9]+\.?[0-9]*|\.[0-9]+)(e-?[0-9]{1,2})?\s*", text
    ):
        return repair_ratio(text)
    return repair_patterns(text) if form is Form.PATTERNS else None


def repair_size(text: str) -> Repair | None:
    """Returns the replacement for a size, or None. oomd reads a bare number as megabytes, and only
    the integer part of a percentage.
    """
    found = LEADING.match(text)
    if text.endswith("%"):
        is_known = is_valid(Form.SIZE, text) or not found or int(found[1]) > 100
        return (
            None
            if is_known or not found
            else Repair(f"{int(found[1])}%", f"oomd reads {quoted(text)} as {int(found[1])}%")
        )
    if found and found.end() == len(text):
        megabytes = int(found[1])
        why = f"{quoted(text)} has no letter: it counts bytes here, and megabytes in oomd"
        return Repair(f"{megabytes}M", why) if 0 < megabytes <= MOST_BYTES >> 20 else None
    count = None if is_valid(Form.SIZE, text) else oomd_size(text)
    if count is None or count > MOST_BYTES:
        return None
    return Repair(size_text(count), f"oomd reads {quoted(text)} as {count} bytes")


def repair_ratio(text: str) -> Repair | None:
    """Returns the replacement for a ratio, or None. oomd accepts any notation of a floating-point
    number.
    """
    rounded = f"{Decimal(text.strip()):.3f}".rstrip("0").rstrip(".")
    is_lost = Decimal(rounded) != Decimal(text.strip())
    return (
        Repair(rounded, f"{quoted(text)} isn't {Form.RATIO.value}", is_lost)
        if is_valid(Form.RATIO, rounded)
        else None
    )


def repair_patterns(text: str) -> Repair | None:
    """Returns the replacement for a list of patterns, or None. oomd ignores empty patterns and
    empty components, and accepts a shell's wildcards.
    """
    patterns = []
    for pattern in text.split(","):
        parts = [part for part in pattern.strip().split("/") if part]
        if parts or pattern.strip():
            patterns.append("/".join(parts) or "/")
    plain = ",".join(patterns)
    wide = ",".join(re.sub(r"\[[^]/]+\]|\?", "*", pattern) for pattern in patterns)
    if is_valid(Form.PATTERNS, plain):
        return Repair(
            plain, f"spaces, empty patterns and slashes too many don't stand in {quoted(text)} here"
        )
    if is_valid(Form.PATTERNS, wide):
        return Repair(
            wide,
            f"{quoted(text)} has ? or [], for which * is all that there is: more groups match",
            True,
        )
    return None
