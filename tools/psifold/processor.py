"""Folds the windows of one processor: replaces its joint states (see joint.py) by fewer joint
states with the same sums of time, and writes lines for them.
"""
from __future__ import annotations

from collections import Counter
from collections.abc import Sequence
from typing import NamedTuple

from psiworld.limits import MOST_INTERRUPTS

from .basis import FIELD_BITS, Basis, Fields, Units
from .joint import JointState
from .lines import Interrupt, Line, Writer, is_within
from .rounding import Left, whole_times
from .sums import Sum, Sums
from .world import Catalog, Interrupts, bits_of


class Few(NamedTuple):
    """The joint states that replace the original ones of a window, with their times (ns); the
    window's original sums of time (ns); and its original number of joint states.
    """

    times: dict[int, int]
    sums: dict[Sum, int]
    states_before: int


def few_of(spent: dict[int, int], sums: Sums, left: Left) -> Few:
    """Returns fewer joint states than `spent`, with times that add up to the same sums except for
    rounding. `spent` has the time (ns) of each original joint state. Joint states with the longest
    times are added to the basis first, since the basis can then absorb most of the others. Updates
    `left`, the rounding errors so far.
    """
    columns: dict[int, int] = {}
    states: dict[int, int] = {}
    for state, time in spent.items():
        column = sums.of(state)
        columns[column] = columns.get(column, 0) + time
        known = states.get(column)
        if known is None or (state.bit_count(), state) < (known.bit_count(), known):
            states[column] = state
    used = sums.total
    for column in columns:
        used |= column
    order = sorted(columns, key=lambda it: (-columns[it], it))
    length, rows = sum(spent.values()), used.bit_count()
    units = Units(used, Fields(rows, FIELD_BITS))
    packed, times = [units.packed(column | sums.total) for column in order], [
        columns[column] for column in order
    ]
    basis = Basis(rows, length)
    totals = units.fields.numbers(basis.take_all(packed, times))
    whole = whole_times(basis.shares(), basis.divisor, order, sums.sum_of, left)
    found = {
        sums.least(states[order[number]], order[number]): time for number, time in whole.items()
    }
    own = {sums.sum_of(bit): time for bit, time in zip(bits_of(used), totals) if bit != sums.size}
    return Few(found, own, len(spent))


def interrupt_lines(
    interrupts: Interrupts, paths: Sequence[str], last: int, first: int
) -> list[Interrupt]:
    """Returns the interrupt lines of a window with their times (ns). Each line is as early as
    possible, so the last line isn't later than in the original. The time of a line is at least
    `first`, and at least the time of the previous line plus its own length (ns). `last` is the time
    (ns) of the processor's last interrupt line before the window.
    """
    placed: list[Interrupt] = []
    time_ns = last
    parts = [interrupts.first] if interrupts.first else []
    for slot, length in [*parts, *sorted(interrupts.others.items())]:
        while length:
            part = min(length, MOST_INTERRUPTS)
            time_ns = max(time_ns + part, first)
            placed.append(Interrupt(time_ns, paths[slot], part))
            length -= part
    return placed


class Turn(NamedTuple):
    """The input for folding one processor's window: `start` and `end` (ns), the time (ns) `spent`
    in each joint state, and the interrupt lines. `first` is the joint state at the start.

    At the end no task may be in the groups `removed` nor, if `populated` isn't None, in a group
    outside `populated`. Each group in `needs` must then have at least `needs[path]` tasks. If the
    window starts at a possible tick, `present` has the groups with tasks at that time: no other
    group may have a task in the first ns.
    """

    start: int
    end: int
    spent: dict[int, int]
    interrupts: list[Interrupt]
    removed: set[str]
    populated: set[str] | None
    needs: dict[str, int]
    first: int = 0
    present: set[str] | None = None


class Piece(NamedTuple):
    """The result of folding one processor's window: its lines with their times (ns), its original
    sums of time (ns), and the number of joint states before and after.
    """

    lines: list[Line]
    sums: dict[Sum, int]
    states_before: int
    states_after: int


def states_of(few: Few, catalog: Catalog) -> dict[JointState, int]:
    """Returns the joint states as sets of elements, with their times (ns)."""
    return {catalog.joint_state(state): time for state, time in few.times.items()}


def with_first(turn: Turn, sums: Sums, left: Left) -> Few:
    """Returns fewer joint states for a window, with the original first one for at least 1 ns. So
    the window can begin with tasks only in groups that have tasks at its start.
    """
    spent = dict(turn.spent)
    spent[turn.first] -= 1
    few = few_of({state: time for state, time in spent.items() if time}, sums, left)
    column = sums.of(turn.first)
    first = sums.least(turn.first, column)
    few.times[first] = few.times.get(first, 0) + 1
    for bit in bits_of(column):
        one = sums.sum_of(bit)
        few.sums[one] = few.sums.get(one, 0) + 1
    return few._replace(states_before=len(turn.spent))


class FoldedProcessor:
    """Folds the windows of one processor. Keeps the rounding errors between windows."""

    def __init__(self, processor: int, processors: int) -> None:
        self.writer = Writer(processor, processors)
        self.left: Left = Counter()

    def fold(self, turn: Turn, sums: Sums, catalog: Catalog) -> Piece:
        """Folds a time window of this processor. Returns its folded lines, its original sums of
        time (ns), and its numbers of joint states.
        """
        before = Counter(self.left)
        few = few_of(turn.spent, sums, self.left)
        durations = states_of(few, catalog)
        if durations and not any(is_within(state, turn.present) for state in durations):
            self.left = before
            few = with_first(turn, sums, self.left)
            durations = states_of(few, catalog)
        lines = self.writer.write(turn.start, durations, turn.interrupts, turn.present)
        groups = self.writer.groups()
        lines += self.writer.empty(
            turn.end, groups & turn.removed if turn.populated is None else groups - turn.populated
        )
        lines += self.writer.keep(turn.end, turn.needs)
        return Piece(
            [(time_ns, f"{time_ns} {words}") for time_ns, words in lines],
            few.sums,
            few.states_before,
            len(durations),
        )
