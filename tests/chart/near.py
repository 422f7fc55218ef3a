"""Compares coordinates and numbers with a tolerance."""
from __future__ import annotations

from collections.abc import Sequence

from harness import must, must_be

# The tolerance in pixels. It is needed because coordinates in a chart have only two decimals.
NEAR = 0.02


def must_be_near(
    what: str, found: Sequence[Sequence[float]], wanted: Sequence[Sequence[float]]
) -> None:
    """Fails unless each number differs from its expected value by at most NEAR."""
    must_be(f"{what}, how many", len(found), len(wanted))
    for place, (one, other) in enumerate(zip(found, wanted)):
        is_near = all(abs(a - b) <= NEAR for a, b in zip(one, other))
        must(is_near, f"{what}, number {place}: actual {one}, expected {other}")
