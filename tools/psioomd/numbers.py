"""Parses numbers and computes like oomd: C++'s stoi and stof, sizes, and 32-bit floats."""
from __future__ import annotations

import math
import re
import struct

INT_MIN, INT_MAX = -(1 << 31), (1 << 31) - 1
LONG_MIN, LONG_MAX = -(1 << 63), (1 << 63) - 1
LEAST_FLOAT = 2.0**-126
MEBIBYTE_BITS = 20
SPACES = " \t\n\v\f\r"
WHOLE = re.compile(rf"[{SPACES}]*([+-]?[0-9]+)")
DECIMAL = r"(?:[0-9]+\.?[0-9]*|\.[0-9]+)(?:[eE][+-]?[0-9]+)?"
HEXADECIMAL = r"0[xX](?:[0-9a-fA-F]+\.?[0-9a-fA-F]*|\.[0-9a-fA-F]+)(?:[pP][+-]?[0-9]+)?"
FLOAT = re.compile(
    rf"[{SPACES}]*([+-]?(?:{HEXADECIMAL}|{DECIMAL}|inf(?:inity)?|nan))", re.IGNORECASE
)
UNITS = {"": 1, "k": 1 << 10, "m": 1 << 20, "g": 1 << 30, "t": 1 << 40}


class BadNumber(ValueError):
    """Raised if oomd doesn't accept a text as a number of the expected kind."""


def float32(value: float) -> float:
    """Returns the nearest 32-bit float."""
    try:
        return float(struct.unpack("f", struct.pack("f", value))[0])
    except OverflowError:
        return math.copysign(math.inf, value)


def stoi(text: str) -> int:
    """Parses the integer at the start of a text. Like C++'s stoi, ignores the rest of the text."""
    found = WHOLE.match(text)
    if not found or not INT_MIN <= int(found[1]) <= INT_MAX:
        raise BadNumber("stoi")
    return int(found[1])


def unsigned(text: str) -> int:
    number = stoi(text)
    if number < 0:
        raise BadNumber("must be non-negative")
    return number


def real(word: str) -> float:
    return float.fromhex(word) if "x" in word.lower() else float(word)


def stof(text: str) -> float:
    """Parses the 32-bit float at the start of a text. Like C++'s stof, ignores the rest of the
    text.
    """
    found = FLOAT.match(text)
    if not found:
        raise BadNumber("stof")
    exact = real(found[1])
    value = float32(exact)
    is_too_large = math.isinf(value) and "inf" not in found[1].lower()
    if is_too_large or (exact != 0 and abs(value) < LEAST_FLOAT):
        raise BadNumber("stof")
    return value


def quotient(number: int, divisor: int) -> int:
    """Divides integers like C, rounding towards 0."""
    whole = abs(number) // divisor
    return whole if number >= 0 else -whole


def parts_sum(text: str) -> int | None:
    """Parses a sum of sizes such as `1.5M 32K 512`. Returns bytes, or None if the text is
    malformed.
    """
    joined = "".join(it for it in text if it not in SPACES).lower()
    is_negative = joined[:1] == "-"
    rest = joined[1:] if joined[:1] in ("+", "-") else joined
    total = 0
    for number, unit in re.findall(r"([^kmgt]*)([kmgt]|$)", rest):
        if not number and not unit:
            continue
        found = FLOAT.match(number)
        if not found or found.end() != len(number) or not 0 <= real(found[1]) < math.inf:
            return None
        # oomd adds in 64-bit floats, and stores an integer after each part.
        total = int(float(total) + real(found[1]) * UNITS[unit])
    return -total if is_negative else total


def size(text: str, total: int) -> int:
    """Parses a size, or a percentage of `total` bytes. Returns bytes. A number without a unit is in
    MiB.
    """
    fault = BadNumber(f"Failed to parse threshold: {text}")
    if text.endswith("%"):
        try:
            percent = stoi(text[:-1])
        except BadNumber:
            raise fault from None
        if not 0 <= percent <= 100:
            raise fault
        return quotient(total * percent, 100)
    found = WHOLE.match(text)
    if not found or not LONG_MIN <= int(found[1]) <= LONG_MAX:
        raise fault
    if found.end() == len(text):
        return int(found[1]) << MEBIBYTE_BITS
    count = parts_sum(text)
    if count is None:
        raise fault
    return count


def signed32(number: int) -> int:
    """Returns the low 32 bits of a number as a signed number."""
    return (number - INT_MIN) % (1 << 32) + INT_MIN
