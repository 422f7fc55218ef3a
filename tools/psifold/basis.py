"""Reduces a set of weighted joint states to a small subset with other weights but the same weighted
sums. A joint state (see joint.py) says in which states each group has tasks on a processor. The
weight of a joint state is the time for which it lasts. By Caratheodory's theorem for cones, the
subset needs at most as many joint states as there are independent sums.

The joint states that remain are the *basis*. The column of a joint state has a 1 for each sum to
which the joint state contributes, and the columns of the basis are linearly independent. A further
joint state is added to the basis if its column is independent of the others. If not, its column is
a combination of the columns in the basis, and its time is distributed among their joint states
until the time of one of them is 0. That joint state leaves the basis, and the new one enters it
with the rest of its time (a step of the simplex method, called a *pivot*). Usually the basis can
absorb all of the time, even of many joint states at once. So the sums of many joint states are
tried together first, and then of fewer, down to one.

All arithmetic is exact, in integers. The inverse of the basis is stored multiplied by its
determinant, the *divisor* (Edmonds' pivots), and so are the times. The numbers of a column of the
inverse are packed into one large integer, each in a *field* of its own, so that one operation adds
two columns, or compares all times with 0. A number is always below half of what its field can hold.
An upper bound on the inverse says when the numbers must be checked, and fields are widened if
necessary.
"""
from __future__ import annotations

from collections.abc import Sequence
from operator import getitem
from typing import NamedTuple

from .world import bits_of

FIELD_BITS = 64
# The largest number of joint states that one attempt adds to the basis.
TOGETHER = 64


class Share(NamedTuple):
    """A joint state of the basis: its number, and its time (ns) multiplied by the basis's divisor.
    """

    number: int
    time: int


class Fields:
    """The layout of a packed column: `rows` signed numbers in one integer, each in a field of
    `bits` bits. `signs` has the highest bit of each field set. Adding `signs` to a column makes all
    its numbers positive.
    """

    def __init__(self, rows: int, bits: int) -> None:
        self.rows, self.bits, self.half, self.mask = rows, bits, 1 << bits - 1, (1 << bits) - 1
        self.signs = sum(self.half << row * bits for row in range(rows))

    def numbers(self, packed: int) -> list[int]:
        """Returns the numbers that are packed into a column."""
        size, half = self.bits // 8, self.half
        data = (packed + self.signs).to_bytes(size * self.rows, "little")
        if size == 8:
            return [number - half for number in memoryview(data).cast("Q").tolist()]
        return [
            int.from_bytes(data[at : at + size], "little") - half
            for at in range(0, len(data), size)
        ]

    def packed(self, numbers: Sequence[int]) -> int:
        """Packs numbers into one column."""
        size, half = self.bits // 8, self.half
        return (
            int.from_bytes(
                b"".join((number + half).to_bytes(size, "little") for number in numbers), "little"
            )
            - self.signs
        )

    def number(self, packed: int, row: int) -> int:
        """Returns the number in one row of a packed column."""
        return (packed + self.signs >> row * self.bits & self.mask) - self.half


class Units:
    """Packs columns of zeros and ones that are stored as bits, byte by byte. `used` has the bits
    that are set in some column. Each used bit becomes a row, in ascending order.
    """

    def __init__(self, used: int, fields: Fields) -> None:
        self.fields, self.size = fields, (used.bit_length() + 7) // 8
        self.bytes = [
            ByteFields(value, fields.bits // 8) for value in used.to_bytes(self.size, "little")
        ]

    def packed(self, column: int) -> int:
        """Returns the packed column that has a 1 in each row whose bit is set, and a 0 in all other
        rows.
        """
        return int.from_bytes(
            b"".join(map(getitem, self.bytes, column.to_bytes(self.size, "little"))), "little"
        )


class ByteFields(dict[int, bytes]):
    """Caches the packed fields for each value of one byte of a column. `used` has the byte's used
    bits. The field of a used bit has `size` bytes, and is 1 if the bit is set.
    """

    def __init__(self, used: int, size: int) -> None:
        self.places, self.size = list(bits_of(used)), size

    def __missing__(self, value: int) -> bytes:
        found = self[value] = b"".join(
            (value >> place & 1).to_bytes(self.size, "little") for place in self.places
        )
        return found


class Basis:
    """A basis of joint states whose columns have `rows` numbers. The sum of their times is at most
    `longest` (ns).
    """

    def __init__(self, rows: int, longest: int) -> None:
        self.longest, self.fields = longest, Fields(rows, FIELD_BITS)
        # The number of the joint state in each row of the inverse, or None if the row is free.
        self.numbers: list[int | None] = [None] * rows
        self.columns = [1 << row * FIELD_BITS for row in range(rows)]
        self.divisor, self.times = 1, 0
        self.free = (1 << rows * FIELD_BITS) - 1
        # An upper bound on the absolute values of the numbers in the basis's inverse matrix.
        self.most = 1

    def take_all(self, columns: Sequence[int], times: Sequence[int]) -> int:
        """Adds joint states to the basis, numbered by their index. Each has a column, packed into
        fields of FIELD_BITS, and a time (ns). Returns the packed sums of time of all joint states.
        """
        total = 0
        for start in range(0, len(columns), TOGETHER):
            sums = [0]
            for column, time in zip(
                columns[start : start + TOGETHER], times[start : start + TOGETHER]
            ):
                sums.append(sums[-1] + time * column)
            self.take_some(start, columns, times, sums)
            total += sums[-1]
        return total

    def take_some(
        self, start: int, columns: Sequence[int], times: Sequence[int], sums: Sequence[int]
    ) -> None:
        """Adds the joint states from index `start` on; `sums` has their cumulative sums. Tries to
        add all of them at once, then half as many, until the basis can absorb their sums. After an
        attempt with all of them failed, a part of them may be added. The rest isn't tried in one
        attempt again until a pivot changes the basis, since it would fail too.
        """
        end = wanted = len(sums) - 1
        taken, is_full = 0, False
        while taken < end:
            if wanted - taken > 1:
                if not (is_full and wanted == end) and self.give(sums[wanted] - sums[taken]):
                    taken, wanted = wanted, end
                else:
                    is_full = is_full or wanted == end
                    wanted = taken + (wanted - taken) // 2
            else:
                is_full &= not self.take(
                    start + taken, columns[start + taken], times[start + taken]
                )
                taken, wanted = taken + 1, min(taken + 3, end)

    def made_of(self, packed: int) -> int:
        """Returns the coefficients of the basis's columns in the linear combination that equals a
        column of sums. They are packed and multiplied by the divisor.
        """
        size = FIELD_BITS // 8
        data = packed.to_bytes(size * self.fields.rows, "little")
        numbers = memoryview(data).cast("Q").tolist()
        return sum(number * column for number, column in zip(numbers, self.columns) if number)

    def give(self, sums: int) -> bool:
        """Distributes sums among the times of the basis, and returns True. Returns False, and
        changes nothing, if a time would become negative or a free row would be needed.
        """
        parts = self.made_of(sums)
        times = self.times + parts
        signs = self.fields.signs
        if times & signs or (parts + signs ^ signs) & self.free:
            return False
        self.times = times
        return True

    def take(self, number: int, column: int, time: int) -> bool:
        """Adds the joint state `number` with its column and its time (ns). Returns whether a pivot
        was needed.
        """
        parts = self.made_of(column)
        times, signs = self.times + time * parts, self.fields.signs
        if (parts + signs ^ signs) & self.free:
            found = self.fields.numbers(parts)
            rows = [row for row, at in enumerate(self.numbers) if at is None and found[row]]
            self.pivot(min(rows, key=lambda row: abs(found[row])), number, parts, time)
        elif times & signs:
            self.pivot(
                first_at_zero(self.fields.numbers(self.times), self.fields.numbers(parts)),
                number,
                parts,
                time,
            )
        else:
            self.times = times
            return False
        return True

    def pivot(self, row: int, number: int, parts: int, time: int) -> None:
        """Replaces the joint state of `row` by the joint state `number`. Its column is the
        combination of the basis's columns with the coefficients `parts`, and its time is `time`
        (ns).
        """
        fields, divisor = self.fields, self.divisor
        found, times = fields.numbers(parts), fields.numbers(self.times)
        factor = found[row]
        sign = 1 if factor > 0 else -1
        change = parts - (divisor << row * fields.bits)
        owns = [fields.number(column, row) for column in self.columns]
        if abs(factor) == divisor == 1:
            self.columns = [
                column - sign * own * change if own else column
                for column, own in zip(self.columns, owns)
            ]
        else:
            pairs = zip(self.columns, owns)
            self.columns = [
                sign * (factor * column - own * change) // divisor for column, own in pairs
            ]
        # The times are computed one by one, since intermediate results are much larger than a
        # field.
        row_time = times[row] + time * factor
        times = [
            (
                sign * (factor * (at + time * part) - row_time * part) // divisor
                if place != row
                else sign * row_time
            )
            for place, (at, part) in enumerate(zip(times, found))
        ]
        self.times, self.divisor, self.numbers[row] = fields.packed(times), abs(factor), number
        self.free &= ~(fields.mask << row * fields.bits)
        self.most = (
            abs(factor) * self.most + max(abs(it) for it in found) * max(abs(it) for it in owns)
        ) // divisor + 1
        if not self.fits():
            self.make_room()

    def fits(self) -> bool:
        """Whether all numbers of the next step are below half of a field's range. If M is the
        largest number in the inverse, the coefficients of a column are at most P = rows * M, and
        those of sums at most P times the longest time. A pivot computes numbers up to P * M, and up
        to the divisor times M.
        """
        parts = max(self.fields.rows * self.most, self.divisor)
        return 3 * parts * max(self.longest, self.most) < self.fields.half

    def make_room(self) -> None:
        """Computes the largest number in the inverse, and widens the fields if they are too narrow
        for it.
        """
        self.most = max(
            abs(number) for column in self.columns for number in self.fields.numbers(column)
        )
        while not self.fits():
            before, self.fields = self.fields, Fields(self.fields.rows, 2 * self.fields.bits)
            self.columns = [self.fields.packed(before.numbers(column)) for column in self.columns]
            self.times = self.fields.packed(before.numbers(self.times))
            rows = (row for row, number in enumerate(self.numbers) if number is None)
            self.free = sum(self.fields.mask << row * self.fields.bits for row in rows)

    def shares(self) -> list[Share]:
        """Returns the joint states of the basis with their times."""
        times = zip(self.numbers, self.fields.numbers(self.times))
        return [Share(number, time) for number, time in times if number is not None and time]


def first_at_zero(times: list[int], parts: list[int]) -> int:
    """Returns the row whose time is the first to reach 0 if multiples of `parts` are added to the
    times.
    """
    row, time, least = -1, 1, 0
    for place, part in enumerate(parts):
        # Compares the ratios times[place] / -part and time / -least without a division. The latter
        # is the smallest ratio so far.
        if part < 0 and (row < 0 or times[place] * -least < time * -part):
            row, time, least = place, times[place], part
    return row
