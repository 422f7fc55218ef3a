"""Rounds fractional times to whole ns. The rounding error of each sum is carried over to the next
window, and reduced there. So the error of a sum stays bounded over any number of windows.
"""
from __future__ import annotations

from collections import Counter
from collections.abc import Callable, Iterable

from .basis import Share
from .sums import Sum
from .world import bits_of

# The shortfall of each sum in ns: by how much it is too small.
Left = Counter[Sum]
# If the error of a sum exceeds MOST_LEFT ns, single ns are moved between joint states: first
# between those with fractional times, and then between all if that isn't enough. Each of these two
# passes moves at most MOST_STEPS ns.
MOST_LEFT = 2
MOST_STEPS = 20


class Rounding:
    """Rounds the times of joint states. Times in `shares` are in units of 1/`divisor` ns, and
    `columns` has for each joint state the bits of the sums that it contributes to. `shortfalls` has
    the current shortfall (ns) of each sum, by its bit.
    """

    def __init__(
        self, shares: list[Share], divisor: int, columns: list[int], shortfalls: dict[int, int]
    ) -> None:
        self.divisor, self.columns = divisor, columns
        self.times = {number: time // divisor for number, time in shares}
        self.remainders = {number: time % divisor for number, time in shares if time % divisor}
        # The shortfall of each sum, by its bit in a column, in units of 1/`divisor` ns.
        self.shortfalls = Counter({bit: left * divisor for bit, left in shortfalls.items()})
        for number, remainder in self.remainders.items():
            for bit in bits_of(columns[number]):
                self.shortfalls[bit] += remainder
        # The sum of the shortfalls of each joint state's sums, by the joint state's number, in
        # units of 1/`divisor` ns.
        self.lags = {
            number: sum(self.shortfalls[bit] for bit in bits_of(columns[number]))
            for number in self.times
        }

    def round(self) -> None:
        """Rounds all times. The remainders add up to a whole number of ns. These ns are added to
        joint states with fractional times, so that the sum of squared errors stays small.
        """
        short = set(self.remainders)
        for _ in range(sum(self.remainders.values()) // self.divisor):
            number = min(sorted(short), key=self.growth)
            short.remove(number)
            self.give(number, 1)
        if self.is_far():
            self.improve(set(self.remainders) - short, short)
        if self.is_far():
            self.improve({number for number, time in self.times.items() if time}, set(self.times))

    def is_far(self) -> bool:
        """Whether the error of some sum is too large to be carried into the next window."""
        return any(abs(left) > MOST_LEFT * self.divisor for left in self.shortfalls.values())

    def growth(self, number: int) -> int:
        """Returns the growth of the sum of squared errors, in units of 1/`divisor`, if the time of
        this joint state grows by 1 ns.
        """
        return self.divisor * self.columns[number].bit_count() - 2 * self.lags[number]

    def give(self, number: int, length: int) -> None:
        """Adds `length` ns to the time of a joint state."""
        self.times[number] += length
        gain, sums = length * self.divisor, self.columns[number]
        for bit in bits_of(sums):
            self.shortfalls[bit] -= gain
        for other in self.lags:
            self.lags[other] -= gain * (sums & self.columns[other]).bit_count()

    def improve(self, givers: Iterable[int], takers: Iterable[int]) -> None:
        """Moves single ns from joint states in `givers` to joint states in `takers` while this
        reduces the total of the squared errors. A move changes this total by the number of sums to
        which only one of the two joint states contributes, plus twice the difference of their
        `lags`.
        """
        lags, sums, takers = self.lags, self.columns, sorted(takers)
        pairs = [
            (self.divisor * (sums[giver] ^ sums[taker]).bit_count(), giver, taker)
            for giver in sorted(givers) for taker in takers if giver != taker
        ]  # fmt: skip
        for _ in range(MOST_STEPS if pairs else 0):
            growth, giver, taker = min(
                (alone + 2 * (lags[giver] - lags[taker]), giver, taker)
                for alone, giver, taker in pairs
            )
            if growth >= 0:
                return
            self.give(giver, -1)
            self.give(taker, 1)
            pairs = [it for it in pairs if self.times[it[1]]]


def whole_times(
    shares: list[Share], divisor: int, columns: list[int], sum_of: Callable[[int], Sum], left: Left
) -> dict[int, int]:
    """Returns the rounded time (ns) of each joint state, by its number. Updates the rounding errors
    in `left`.
    """
    if divisor == 1 and not any(left.values()):
        return {number: time for number, time in shares}
    used = 0
    for number, _ in shares:
        used |= columns[number]
    sums = {bit: sum_of(bit) for bit in bits_of(used)}
    rounding = Rounding(shares, divisor, columns, {bit: left[one] for bit, one in sums.items()})
    rounding.round()
    for bit, one in sums.items():
        left[one] = rounding.shortfalls[bit] // divisor
    return {number: time for number, time in rounding.times.items() if time}
