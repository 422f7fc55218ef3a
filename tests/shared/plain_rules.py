"""The reference parser of rules files and drop-in files, which follows docs/RULES.md.

`read` parses a file into rulesets, whose arguments have their printed form. It raises Refused with
the first fault in the file. `joined` replaces parts of rulesets by the parts in a drop-in file, and
`text_of` returns the line that `rules` prints.
"""
from __future__ import annotations

import json
import re
from collections.abc import Callable, Iterator
from typing import Any, NamedTuple, Optional

LONGEST, DEEPEST = 1_048_576, 127
MOST_RULESETS, MOST_ITEMS, MOST_PATTERNS = 64, 16, 16
MOST_SECONDS, MOST_BYTES, MOST_WHOLE = 1_000_000, 2**60, 2**64 - 1
# A decimal number. No number may have more than 20 digits.
NUMBER = "(0|[1-9][0-9]{0,19})"
PART = r"(?:\.([0-9]{1,3}))?"
UNITS = "KMGT"
Place = tuple[tuple[str, int], ...]


class Refused(Exception):
    """Raised for the first fault in a file, with its place and its cause."""

    def __init__(self, place: Place, cause: str) -> None:
        super().__init__(f"{''.join(f' {word} {number}' for word, number in place)}: {cause}")


class Token(NamedTuple):
    """A number in a JSON file, with its original spelling."""

    text: str


class Plugin(NamedTuple):
    """A detector or an action: its name, and the printed text of each of its arguments."""

    name: str
    args: dict[str, str]


class Group(NamedTuple):
    """A group of detectors: its name and its detectors."""

    name: str
    detectors: list[Plugin]


class Ruleset(NamedTuple):
    """A ruleset. In a drop-in file, its groups or its actions may be omitted."""

    name: str
    groups: Optional[list[Group]]
    actions: Optional[list[Plugin]]


# ---------------------------------------------------------------- parsing arguments

Form = Callable[[str], Optional[str]]


def number(most: int) -> Form:
    """Returns a parser of a decimal number without leading zeros that is at most `most`."""
    return lambda text: text if re.fullmatch(NUMBER, text, re.ASCII) and int(text) <= most else None


def ratio(text: str) -> Optional[str]:
    """Parses a number that is at most 1000, with up to three decimals. Returns it with three
    decimals, or None if it is malformed.
    """
    found = re.fullmatch(NUMBER + PART, text, re.ASCII)
    return (
        f"{found[1]}.{(found[2] or '').ljust(3, '0')}" if found and int(found[1]) <= 1000 else None
    )


def size(text: str) -> Optional[str]:
    """Parses a percentage, a size in bytes, or a number with a suffix for a power of 1024. Returns
    its printed form: the percentage, or whole bytes. Returns None if the text is malformed.
    """
    percent = re.fullmatch(f"{NUMBER}%", text, re.ASCII)
    if percent:
        return text if int(percent[1]) <= 100 else None
    found = re.fullmatch(f"{NUMBER}(?:{PART}([{UNITS}{UNITS.lower()}]))?", text, re.ASCII)
    if not found:
        return None
    thousandths = int(found[1] + (found[2] or "").ljust(3, "0"))
    power = 1 + UNITS.index(found[3].upper()) if found[3] else 0
    value = thousandths * 1024**power // 1000
    return str(value) if value <= MOST_BYTES else None


def truth(text: str) -> Optional[str]:
    return {
        "true": "true", "True": "true", "1": "true", "false": "false", "False": "false",
        "0": "false",
    }.get(text)


def resource(text: str) -> Optional[str]:
    return text if text in ("io", "memory") else None


def pattern(text: str) -> Optional[str]:
    """Parses a cgroup pattern: the root, or components separated by slashes. Returns it without a
    leading slash, or None if it is malformed.
    """
    parts = text.removeprefix("/").split("/")
    is_good = all(
        re.fullmatch(r"[A-Za-z0-9_.@:\\*-]+", part, re.ASCII) and part not in (".", "..")
        for part in parts
    )
    return text if text == "/" else text.removeprefix("/") if is_good else None


def patterns(text: str) -> Optional[str]:
    found = [pattern(it) for it in text.split(",")]
    return None if None in found else ",".join(filter(None, found))


PERCENT, SECONDS = number(100), number(MOST_SECONDS)
MATCHES = ("cgroup", patterns, None)
WATCHED = (MATCHES, ("resource", resource, None), ("threshold", PERCENT, None),
           ("duration", SECONDS, None))
Arguments = tuple[tuple[str, Form, Optional[str]], ...]
DETECTORS: dict[str, Arguments] = {
    "pressure_above": WATCHED,
    "pressure_rising_beyond": (*WATCHED, ("fast_fall_ratio", ratio, "0.85")),
    "memory_above": (MATCHES, ("threshold", size, None), ("duration", SECONDS, None)),
    "memory_reclaim": (MATCHES, ("duration", SECONDS, None)),
    "swap_free": (("threshold_pct", PERCENT, None),),
    "exists": (MATCHES, ("negate", truth, "false")),
}
ACTIONS: dict[str, Arguments] = {
    "kill_by_memory_size_or_growth": (
        MATCHES, ("size_threshold", PERCENT, "50"), ("growing_size_percentile", PERCENT, "80"),
        ("min_growth_ratio", ratio, "1.25"),
    ),
    "kill_by_swap_usage": (MATCHES, ("threshold", size, "1")),
    "kill_by_pressure": (MATCHES, ("resource", resource, None)),
    "kill_by_pg_scan": (MATCHES,),
}  # fmt: skip


def of_each_action(delay: str) -> Arguments:
    """Returns the arguments that every action accepts besides its own. The default of
    `post_action_delay` is `delay`, the ruleset's own delay (s).
    """
    truths: Arguments = tuple((name, truth, "false") for name in ("recursive", "always_continue"))
    return (*truths, ("post_action_delay", SECONDS, delay))


# ---------------------------------------------------------------- JSON


def refuse(_: str) -> None:
    raise ValueError("no JSON")


def float_token(text: str) -> Token:
    """Parses a number as a Token. Raises ValueError if it exceeds a 64-bit float."""
    if float(text) in (float("inf"), float("-inf")):
        raise ValueError("no number")
    return Token(text)


def texts_in(value: Any) -> Iterator[str]:
    """Yields all strings of a JSON value, keys included."""
    if isinstance(value, str):
        yield value
    elif isinstance(value, dict):
        for key, it in value.items():
            yield key
            yield from texts_in(it)
    elif isinstance(value, list):
        for it in value:
            yield from texts_in(it)


def depth_of(value: Any) -> int:
    """Returns the nesting depth of lists and objects in a JSON value."""
    if not isinstance(value, (dict, list)):
        return 0
    return 1 + max(map(depth_of, value.values() if isinstance(value, dict) else value), default=0)


def json_of(data: bytes) -> Any:
    """Parses a file as JSON, with Tokens for numbers. If a key is repeated, the last value counts.
    """
    try:
        value = json.loads(data.decode("utf-8"), parse_int=float_token, parse_float=float_token,
                           parse_constant=refuse)
        for text in texts_in(value):
            text.encode("utf-8")
    except (ValueError, RecursionError):
        raise Refused((), "BadJson") from None
    if depth_of(value) > DEEPEST:
        raise Refused((), "BadJson")
    return value


# ---------------------------------------------------------------- reading a file


def member(value: dict[str, Any], key: str, kind: type, place: Place) -> Any:
    """Returns the value of a required key. Raises Refused if it is missing or of the wrong type."""
    if key not in value:
        raise Refused(place, "MissingKey")
    return of_kind(value[key], kind, place)


def of_kind(value: Any, kind: type, place: Place) -> Any:
    if not isinstance(value, kind):
        raise Refused(place, "WrongKind")
    return value


def short(items: list[Any], most: int, place: Place) -> list[Any]:
    if len(items) > most:
        raise Refused(place, "TooMany")
    return items


def argument(value: Any, form: Form, place: Place) -> str:
    """Returns the printed form of an argument. In the file, the argument is a string, a whole
    number or a boolean.
    """
    if isinstance(value, bool):
        value = "true" if value else "false"
    if isinstance(value, Token):
        if not re.fullmatch(NUMBER, value.text, re.ASCII) or int(value.text) > MOST_WHOLE:
            raise Refused(place, "WrongKind")
        value = value.text
    found = form(of_kind(value, str, place))
    if found is None:
        raise Refused(place, "BadArg")
    if form is patterns and found.count(",") >= MOST_PATTERNS:
        raise Refused(place, "TooMany")
    return found


def plugin(value: Any, known: dict[str, Arguments], more: Arguments, place: Place) -> Plugin:
    """Parses a plugin, whose name must be in `known`. It may have the arguments that `known` lists
    for it and those in `more`.
    """
    value = of_kind(value, dict, place)
    name = member(value, "name", str, place)
    if name not in known:
        raise Refused(place, "UnknownPlugin")
    arguments = of_kind(value.get("args", {}), dict, place)
    args = {}
    for key, form, default in (*known[name], *more):
        if key not in arguments and default is None:
            raise Refused(place, "MissingKey")
        args[key] = argument(arguments.get(key, default), form, place)
    return Plugin(name, args)


def group(value: Any, place: Place) -> Group:
    items = short(of_kind(value, list, place), 1 + MOST_ITEMS, place)
    if not items:
        raise Refused(place, "MissingKey")
    name = of_kind(items[0], str, place)
    return Group(
        name, [plugin(it, DETECTORS, (), (*place, ("item", k))) for k, it in enumerate(items[1:])]
    )


def ruleset(value: Any, is_part: bool, place: Place) -> Ruleset:
    """Parses a ruleset: its name, its delay, its groups and its actions, in this order. In a
    drop-in file, groups or actions may be omitted.
    """
    value = of_kind(value, dict, place)
    name = member(value, "name", str, place)
    delay = argument(
        value["post_action_delay"], SECONDS, place
    ) if "post_action_delay" in value else "15"
    groups = actions = None
    if not is_part or "detectors" in value:
        items = short(member(value, "detectors", list, place), MOST_ITEMS, place)
        groups = [group(it, (*place, ("group", j))) for j, it in enumerate(items)]
    if not is_part or "actions" in value:
        items = short(member(value, "actions", list, place), MOST_ITEMS, place)
        more = of_each_action(delay)
        actions = [plugin(it, ACTIONS, more, (*place, ("action", k))) for k, it in enumerate(items)]
    return Ruleset(name, groups, actions)


def read(data: bytes, is_drop_in: bool = False) -> list[Ruleset]:
    """Parses a rules file or a drop-in file, and returns its rulesets."""
    if len(data) > LONGEST:
        raise Refused((), "TooLong")
    rulesets = short(member(of_kind(json_of(data), dict, ()), "rulesets", list, ()), MOST_RULESETS,
                     ())
    return [ruleset(it, is_drop_in, (("ruleset", i),)) for i, it in enumerate(rulesets)]


# ---------------------------------------------------------------- drop-in parts and output


def joined(base: list[Ruleset], parts: list[Ruleset]) -> list[Ruleset]:
    """Returns the rulesets after the parts of a drop-in file are applied. The groups and actions of
    a part replace those of the first ruleset with the part's name.
    """
    rulesets = list(base)
    for i, part in enumerate(parts):
        if part.groups is None and part.actions is None:
            raise Refused((("ruleset", i),), "NoParts")
        place = next((at for at, it in enumerate(rulesets) if it.name == part.name), None)
        if place is None:
            raise Refused((("ruleset", i),), "UnknownRule")
        old = rulesets[place]
        rulesets[place] = old._replace(
            groups=old.groups if part.groups is None else part.groups,
            actions=old.actions if part.actions is None else part.actions,
        )
    return rulesets


def value_of(it: Ruleset) -> dict[str, Any]:
    """Returns a ruleset as a JSON object."""
    groups = [
        [group.name, *(one._asdict() for one in group.detectors)] for group in it.groups or []
    ]
    return {
        "name": it.name, "detectors": groups, "actions": [one._asdict() for one in it.actions or []]
    }


def text_of(rulesets: list[Ruleset]) -> str:
    """Returns the line that `rules` must print, without its newline."""
    value = {"rulesets": [value_of(it) for it in rulesets]}
    return json.dumps(value, ensure_ascii=False, sort_keys=True, separators=(",", ":"))


def run(rules: bytes, drop_in: Optional[bytes]) -> tuple[int, str, str]:
    """Returns the exit status, the output and the standard error that `rules` must have for these
    files.
    """
    try:
        base = read(rules)
    except Refused as fault:
        return 3, "", f"rules{fault}\n"
    try:
        return 0, text_of(base if drop_in is None else joined(base, read(drop_in, True))) + "\n", ""
    except Refused as fault:
        return 9, "", f"drop-in{fault}\n"
