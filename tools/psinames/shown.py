"""Replaces the ids of containers by names in the output of a tool."""
from __future__ import annotations

import io
import sys
from collections.abc import Iterable, Mapping
from typing import Any, TextIO

from .groups import GroupNames
from .known import known_of


class Output(io.TextIOBase):
    """A stream that replaces the ids of containers and pods by their names."""

    def __init__(self, stream: TextIO, names: GroupNames) -> None:
        self.stream, self.names = stream, names

    def write(self, text: str) -> int:
        """Writes `text`. A path must not be split between two calls."""
        self.stream.write(self.names.in_text(text))
        return len(text)

    def flush(self) -> None:
        """Flushes the underlying stream."""
        self.stream.flush()


def show_containers(traces: Iterable[str], values: Mapping[str, Any]) -> None:
    """Replaces standard output by a stream that shows container names. The names come from the
    companions of `traces`, and from the options of `add_names`.
    """
    containers: dict[str, str] = {}
    for trace in traces:
        containers.update(known_of(trace, values).groups.containers)
    if containers:
        sys.stdout = Output(sys.stdout, GroupNames(containers))  # type: ignore[assignment]
