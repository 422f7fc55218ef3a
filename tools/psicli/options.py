"""Defines the options that several tools share, so that each has the same help text and type
everywhere.
"""
from __future__ import annotations

from collections.abc import Callable

from .parser import Parser
from .times import WallTime, wall_time
from .values import point, whole_number

EXAMPLE = "2026-11-28T13:58:12Z"


def add_span(
    parser: Parser,
    whole: str,
    start: int | None = 0,
    reader: Callable[[str], int | WallTime] = point,
) -> None:
    """Adds --from and --to, which select a part of a trace, a chart or a recording. Their values,
    `start` and `end`, are in ns or are times of day. The parameter `start` is the default of
    --from. `whole` names in the help text what they select from.
    """
    forms = f"seconds, or a time such as {EXAMPLE}" if reader is point else "seconds"
    parser.add_argument("--from", dest="start", metavar="S", type=reader, default=start,
                        help=f"begin at this time of the {whole}: {forms}")  # fmt: skip
    parser.add_argument("--to", dest="end", metavar="S", type=reader, help="end at this time")


def add_start(parser: Parser, use: str, is_required: bool = False) -> None:
    """Adds --start, the time of day at which the trace began. Its value is `wall`."""
    parser.add_argument("--start", dest="wall", metavar="TIME", type=wall_time,
    required=is_required,
                        help=f"when the trace began, such as {EXAMPLE}{use}")  # fmt: skip


def add_tick(parser: Parser) -> None:
    """Adds --tick-ms, the length of a tick (ms), as in `psi_oomd replay`."""
    parser.add_argument("--tick-ms", metavar="N", type=whole_number(1, 60000),
                        help="the length of a tick, as in `psi_oomd replay` (2000)")  # fmt: skip


def add_interval(parser: Parser, condition: str = "") -> None:
    """Adds --interval-s, the interval (s) between evaluations of rules, as in `psi_oomd replay`."""
    parser.add_argument("--interval-s", metavar="N", type=whole_number(1, 3600),
                        help=f"{condition}the interval of evaluations, as in `psi_oomd "
                             f"replay` (5)")  # fmt: skip


def add_json(parser: Parser) -> None:
    """Adds --json, which prints JSON for programs. Its value is `is_json`."""
    parser.add_argument("--json", dest="is_json", action="store_true",
    help="print JSON, for programs")  # fmt: skip
