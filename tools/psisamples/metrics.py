"""Reads samples from metrics: JSON responses of Prometheus, the output of `promtool tsdb dump`, and
OpenMetrics text with timestamps.
"""
from __future__ import annotations

import json
import re
from collections import Counter
from collections.abc import Iterable
from typing import NamedTuple, Optional, Protocol, TextIO


from .block import LEVELS, MS
from .rows import HOST, MEMORY, ROOT, SWAP, Put, ns_of, us_of, whole

# A placeholder path for the root's samples from cAdvisor. They are used only if node_exporter has
# no samples of the root.
SECOND_ROOT = "/\0"
PIECE = 1 << 16
KINDS = {"some": "waiting", "full": "stalled"}
PRESSURE = {
    f"{who}_pressure_{resource}_{KINDS[level]}_seconds_total": number
    for number, (resource, level) in enumerate(LEVELS) for who in ("container", "node")
}  # fmt: skip
SIZES = {
    "container_memory_usage_bytes": MEMORY, "container_memory_swap": SWAP,
    "node_memory_MemTotal_bytes": HOST,
    "node_memory_SwapTotal_bytes": HOST + 1, "node_memory_SwapFree_bytes": HOST + 2,
}  # fmt: skip
LABEL = re.compile(r'\s*([a-zA-Z_][a-zA-Z0-9_]*)\s*=\s*"((?:[^"\\]|\\.)*)"\s*,?')
LINE = re.compile(r"([a-zA-Z_:][a-zA-Z0-9_:]*)?\s*(?:\{(.*)\})?\s+(\S+)\s+([0-9.eE+-]+)(?:\s+#.*)?")
POINT = re.compile(r'\s*,?\s*\[\s*([0-9.eE+]+)\s*,\s*"([^"]*)"\s*\]')
# The value that marks the end of a series in a dump.
STALE = "NaN"
# Matches a timestamp in ms, which has 12 to 14 digits.
MILLISECONDS = re.compile("[0-9]{12,14}")


class Column(NamedTuple):
    """The group and the field to which a series belongs. Totals in a series are in seconds."""

    group: str
    field: int


class Metrics:
    """Recognizes the series that are samples of pressure or memory. Each field of a group must have
    a single series, since a second series comes from another machine.
    """

    def __init__(self, labels: tuple[str, ...]) -> None:
        self.labels = labels
        self.series: dict[Column, str] = {}
        self.unknown: Counter[str] = Counter()

    def column(self, name: str, labels: dict[str, str]) -> Optional[Column]:
        """Returns the group and field of a series, or None if the series isn't a sample."""
        field = PRESSURE.get(name, SIZES.get(name))
        if field is None:
            if len(self.unknown) < 1000:
                self.unknown[name] += 1
            return None
        group = self.group_of(name, labels)
        if group is None:
            return None
        if group == ROOT and name.startswith("container_pressure"):
            group = SECOND_ROOT
        found = Column(group, field)
        text = (
            name
            + "{"
            + ", ".join(f'{key}="{labels[key]}"' for key in sorted(labels) if key != "__name__")
            + "}"
        )
        if self.series.setdefault(found, text) != text:
            raise ValueError(
                f"two series of one group: {self.series[found]} and {text}: query those of one"
                " machine"
            )
        return found

    def group_of(self, name: str, labels: dict[str, str]) -> Optional[str]:
        """Returns the group of a series, from the labels that --labels names or from cAdvisor's
        label `id`. Returns None if the series has no group.
        """
        if name.startswith("node_"):
            return ROOT
        if self.labels and all(labels.get(it) for it in self.labels):
            return "/" + "/".join(labels[it] for it in self.labels)
        if self.labels and labels.get("id") != ROOT:
            return None
        if "id" not in labels:
            raise ValueError(f"{name} has no label id, which is the group's path: see --labels")
        return labels["id"]

    def others(self) -> str:
        """Returns the end of an error message that names other metrics in the input."""
        names = ", ".join(name for name, _ in self.unknown.most_common(3))
        return (
            f": it has {names}, and container_pressure_.. or node_pressure_.. are needed"
            if names
            else ""
        )


def put_value(put: Put, column: Column, time: int, text: str, line: int) -> None:
    """Parses `text`, a value of a series at `time` (ns), and stores the value. Ignores NaN, which
    marks the end of a series.
    """
    if text == STALE:
        return
    put(
        time,
        column.group,
        column.field,
        (us_of(text) if column.field < MEMORY else whole(text),),
        line,
    )


def labels_of(text: str) -> dict[str, str]:
    """Parses the text between the braces of a metric. Returns the labels by name."""
    found, at = {}, 0
    while at < len(text):
        label = LABEL.match(text, at)
        if not label:
            raise ValueError(f"these are no labels: {text[at:at + 40]!r}")
        found[label[1]] = re.sub(
            r"\\(.)", lambda it: "\n" if it[1] == "n" else str(it[1]), label[2]
        )
        at = label.end()
    return found


def read_dump(lines: Iterable[tuple[int, str]], metrics: Metrics, put: Put) -> None:
    """Reads lines of metrics: `NAME{LABELS} VALUE TIME` with the time in s, as in OpenMetrics, or
    `{__name__="NAME", ..} VALUE TIME` with the time in ms, as promtool prints them.
    """
    known: dict[str, Optional[Column]] = {}
    for number, line in lines:
        if not line or line.startswith("#"):
            continue
        head, _, rest = line.rpartition("} ") if "}" in line else line.partition(" ")
        column = known.get(head)
        if head not in known:
            found = LINE.fullmatch(line)
            if not found:
                raise ValueError(f"no value with a timestamp: {line[:80]!r}")
            labels = labels_of(found[2] or "")
            column = known[head] = metrics.column(found[1] or labels.pop("__name__", ""), labels)
            if len(known) > 100_000:
                known.clear()
        if column is not None:
            value, time = rest.split(" # ")[0].split()
            put_value(
                put,
                column,
                int(time) * MS if MILLISECONDS.fullmatch(time) else ns_of(time),
                value,
                number,
            )


# ---------------------------------------------------------------- JSON


class Lined(Protocol):
    """An object that stores the number of the current line, for error messages."""

    line: int


class Text:
    """A JSON file that is read in pieces. `text` is the part in memory, and `at` the current
    position in it.
    """

    def __init__(self, file: TextIO, lined: Lined) -> None:
        self.file, self.lined, self.text, self.at = file, lined, "", 0
        self.lined.line = 1

    def more(self) -> bool:
        """Reads another piece, and returns True. Returns False at the end of the file."""
        piece = self.file.read(PIECE)
        self.lined.line += self.text.count("\n", 0, self.at)
        self.text, self.at = self.text[self.at :] + piece, 0
        return bool(piece)

    def find(self, pattern: re.Pattern[str]) -> Optional[re.Match[str]]:
        """Finds the next match of a pattern, moves to its end, and returns it. Returns None if
        there is no further match. A match that continues in the next piece must have at most 200
        characters.
        """
        while True:
            found = pattern.search(self.text, self.at)
            if found and (found.end() < len(self.text) or not self.more()):
                self.at = found.end()
                return found
            if found:
                continue
            self.at = max(self.at, len(self.text) - 200)
            if not self.more():
                return None

    def value(self) -> object:
        """Parses the JSON value at the current position."""
        while True:
            try:
                found, end = json.JSONDecoder().raw_decode(self.text, self.at)
            except json.JSONDecodeError:
                if len(self.text) - self.at > 100 * PIECE or not self.more():
                    raise ValueError("the JSON ends here, or isn't any") from None
                continue
            self.at = end
            return found

    def points(self, put: Put, column: Optional[Column]) -> None:
        """Reads the points of a series. Stores them, unless `column` is None."""
        line = self.lined.line
        while True:
            found = POINT.match(self.text, self.at)
            if found and found.end() < len(self.text):
                self.at = found.end()
                if column is not None:
                    put_value(put, column, ns_of(found[1]), found[2], line)
            elif re.match(r"\s*\]", self.text[self.at : self.at + 20]):
                return
            elif len(self.text) - self.at > PIECE or not self.more():
                raise ValueError(f"no point of a series: {self.text[self.at:self.at + 40]!r}")


METRIC = re.compile(
    r'"metric"\s*:\s*|"status"\s*:\s*"error"|"resultType"\s*:\s*"(?:vector|scalar|string)"'
)
VALUES = re.compile(r'"values"\s*:\s*\[|"value"\s*:')


def read_json(file: TextIO, metrics: Metrics, put: Put, lined: Lined) -> None:
    """Reads the JSON with which Prometheus responds to a range query, such as `name[6h]`, or to a
    request to query_range.
    """
    text = Text(file, lined)
    while found := text.find(METRIC):
        if "error" in found[0]:
            raise ValueError("Prometheus answered with an error")
        if "resultType" in found[0]:
            raise ValueError(
                "one value of each series: query with a range, as"
                " container_pressure_io_waiting_seconds_total[6h]"
            )
        labels = text.value()
        if not isinstance(labels, dict):
            raise ValueError("a metric without labels")
        values = text.find(VALUES)
        if not values or values[0].startswith('"value"'):
            raise ValueError(
                "one value of each series: query with a range, as"
                " container_pressure_io_waiting_seconds_total[6h]"
            )
        name = str(labels.pop("__name__", ""))
        text.points(
            put, metrics.column(name, {str(key): str(value) for key, value in labels.items()})
        )
