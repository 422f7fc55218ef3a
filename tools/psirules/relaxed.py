"""Parses JSON with comments and trailing commas, which oomd's parser JsonCpp accepts."""
import json
import re
from typing import Any

from psicli.fault import Fault
from psicli.wording import quoted

TOKEN = re.compile(r'"(?:[^"\\]|\\.)*"|//[^\n]*|/\*.*?\*/|[^"/,]+|.', re.DOTALL)
BEHIND_A_COMMA = re.compile(r"(?:\s|//[^\n]*|/\*.*?\*/)*[\]}]", re.DOTALL)
BYTE_ORDER_MARK = "\ufeff"
TAKEN_OUT = "it is taken out"


class Reading:
    """The parsed data of a rules file. `changes` lists the places that aren't JSON according to RFC
    8259, and how they were corrected. `doubles` lists keys that occur twice in an object.
    """

    def __init__(self, data: bytes) -> None:
        self.changes: list[tuple[str, str]] = []
        self.doubles: list[str] = []
        self.data: Any = self.parsed(self.strict(self.text(data)))

    def text(self, data: bytes) -> str:
        try:
            text = data.decode("utf-8")
        except UnicodeDecodeError as fault:
            line = data[: fault.start].count(b"\n") + 1
            self.changes.append((f"line {line}: a byte isn't UTF-8", "such bytes become U+FFFD"))
            text = data.decode("utf-8", "replace")
        if text.startswith(BYTE_ORDER_MARK):
            self.changes.append(("line 1: a byte order mark", TAKEN_OUT))
        return text.removeprefix(BYTE_ORDER_MARK)

    def strict(self, text: str) -> str:
        """Returns the text without comments, and without a comma after the last item of a list or
        an object.
        """
        parts, line = [], 1
        for found in TOKEN.finditer(text):
            token = found[0]
            if token.startswith(("//", "/*")):
                self.changes.append((f"line {line}: a comment", TAKEN_OUT))
                parts.append(" ")
            elif token == "," and BEHIND_A_COMMA.match(text, found.end()):
                self.changes.append((f"line {line}: a comma after the last item", TAKEN_OUT))
            else:
                parts.append(token)
            line += token.count("\n")
        return "".join(parts)

    def parsed(self, text: str) -> Any:
        text = text.lstrip(" \t\r\n")
        try:
            data, end = self.decoded(text, True)
        except json.JSONDecodeError as fault:
            if not fault.msg.startswith("Invalid control character"):
                raise Fault(place_of(fault)) from fault
            self.changes.append(("a control character in a text", "it is written as its escape"))
            try:
                data, end = self.decoded(text, False)
            except json.JSONDecodeError as other:
                raise Fault(place_of(other)) from other
        if text[end:].strip():
            self.changes.append((f"{quoted(text[end:].strip()[:40])} after the whole", TAKEN_OUT))
        return data

    def decoded(self, text: str, is_strict: bool) -> tuple[Any, int]:
        """Parses the JSON value at the start of the text. Returns the value, and the offset of its
        end. With `is_strict`, control characters in strings are errors.
        """
        self.doubles = []
        words: dict[str, Any] = {
            "parse_int": whole,
            "parse_constant": refused,
            "object_pairs_hook": self.joined,
        }
        try:
            return json.JSONDecoder(**words, strict=is_strict).raw_decode(text)
        except RecursionError as fault:
            raise Fault("lists and objects are too deep") from fault

    def joined(self, pairs: list[tuple[str, Any]]) -> dict[str, Any]:
        names = [name for name, _ in pairs]
        self.doubles += dict.fromkeys(name for name in names if names.count(name) > 1)
        return dict(pairs)


def place_of(fault: json.JSONDecodeError) -> str:
    return f"line {fault.lineno} column {fault.colno}: {fault.msg}"


def whole(digits: str) -> int | float:
    """Converts the digits of a whole number. -0 becomes a float, since psi_oomd doesn't accept it
    as a whole number.
    """
    return -0.0 if digits == "-0" else int(digits)


def refused(word: str) -> float:
    raise Fault(f"{word} is no JSON")
