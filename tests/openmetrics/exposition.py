"""A strict parser of OpenMetrics text, limited to what tools/openmetrics writes: counters with
timestamps.
"""
from __future__ import annotations

import re
from decimal import Decimal
from typing import NamedTuple, Optional

from harness import Wrong, must, must_be

Labels = frozenset[tuple[str, str]]
Point = tuple[Decimal, Decimal]

NAME = "[a-zA-Z_][a-zA-Z0-9_]*"
TEXT = r'"((?:[^"\\\n]|\\[\\"n])*)"'
NUMBER = r"[0-9]+(?:\.[0-9]+)?"
SAMPLE = re.compile(rf"({NAME})(?:\{{({NAME}={TEXT}(?:,{NAME}={TEXT})*)\}})? ({NUMBER}) ({NUMBER})")
ABOUT = re.compile(rf"# (TYPE|UNIT|HELP) ({NAME}) (.+)")
ESCAPED = re.compile(r"\\.")
ESCAPES = {r"\\": "\\", r"\"": '"', r"\n": "\n"}


class Family:
    """A metric family: its metadata, and the points of each of its metrics. A point is a time (s
    since 1970) and a value.
    """

    def __init__(self, name: str) -> None:
        self.name = name
        self.about: dict[str, str] = {}
        self.metrics: dict[Labels, list[Point]] = {}


class Sample(NamedTuple):
    """A line of the text that contains one point. `moment` is its time (s since 1970)."""

    name: str
    labels: Labels
    value: Decimal
    moment: Decimal


def unescaped(found: re.Match[str]) -> str:
    return ESCAPES[found[0]]


def labels_of(text: Optional[str]) -> Labels:
    """Parses the labels between braces. Raises if a label occurs twice."""
    found = re.findall(rf"({NAME})={TEXT}", text or "")
    must_be(f"names of {text}, how many", len({name for name, _ in found}), len(found))
    return frozenset((name, ESCAPED.sub(unescaped, value)) for name, value in found)


def sample_of(line: str) -> Sample:
    found = SAMPLE.fullmatch(line)
    if not found:
        raise Wrong(f"{line!r} is no sample")
    return Sample(found[1], labels_of(found[2]), Decimal(found[5]), Decimal(found[6]))


class Exposition:
    """The parsed families of a text. Raises if the text violates the format."""

    def __init__(self, text: str) -> None:
        self.families: dict[str, Family] = {}
        self.open: Optional[Family] = None
        self.last: Optional[Labels] = None
        lines = text.split("\n")
        must_be("the end of the text", lines[-2:], ["# EOF", ""])
        for line in lines[:-2]:
            about = ABOUT.fullmatch(line)
            if about:
                self.take_about(about[1], about[2], about[3])
            else:
                self.take_sample(sample_of(line))

    def take_about(self, what: str, name: str, text: str) -> None:
        """Adds a line of metadata. All metadata of a family must be in consecutive lines before its
        samples.
        """
        if not self.open or self.open.name != name:
            must(name not in self.families, f"the family {name} stands together")
            self.open = self.families[name] = Family(name)
            self.last = None
        must(what not in self.open.about and not self.open.metrics,
             f"{what} of {name} stands once, before its samples")
        self.open.about[what] = text
        must(what != "TYPE" or text == "counter", f"{name} is a counter")
        must(what != "UNIT" or name.endswith(f"_{text}"), f"the name {name} ends with its unit")

    def take_sample(self, sample: Sample) -> None:
        """Adds a point. Raises unless the points of each metric are consecutive and in order of
        time.
        """
        family = self.open
        if not family:
            raise Wrong("a sample stands before all families")
        must_be("the name of a counter's sample", sample.name, f"{family.name}_total")
        if sample.labels != self.last:
            must(sample.labels not in family.metrics,
                 f"{dict(sample.labels)} of {family.name} stands together")
        self.last = sample.labels
        points = family.metrics.setdefault(sample.labels, [])
        must(not points or points[-1][0] < sample.moment, f"time goes on in {family.name}")
        points.append((sample.moment, sample.value))

    def points(self, name: str, **labels: str) -> list[Point]:
        """Returns the points of the metric with this sample name and exactly these labels."""
        family = self.families.get(name[: -len("_total")], Family(name))
        return family.metrics.get(frozenset(labels.items()), [])
