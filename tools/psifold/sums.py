"""Computes the sums of time to which a joint state (see joint.py) contributes. Each group has a sum
for each of its seven states. Further sums exclude groups that might be killed.

The states are described in docs/TRACES.md. A set of groups is an integer with a bit for each group,
and a set of sums is an integer with a bit for each sum. So a few operations find all sums of a
joint state, even if there are thousands.
"""
from __future__ import annotations

from collections.abc import Sequence
from typing import NamedTuple

from .joint import KINDS, STALLED, WAY, Kind
from .world import Catalog, FoldWorld, bits_of

STATES = 7
# The indices of the sets of groups of a joint state. A group is in a set if it or a descendant has
# a task that, in this order: waits for IO; is in a memory stall; is ready; is ready or runs, but
# not in a memory stall; runs; runs in a memory stall.
WAITS, STALLS, IS_READY, UNSTALLED, RUNS, RUNS_STALLED = range(6)
BY_WAY = {
    int(Kind.WAITING): (WAITS,),
    int(Kind.READY): (IS_READY,),
    int(Kind.RUNNING): (RUNS,),
    int(Kind.ASLEEP): (),
}


def sets_of(kind: int) -> tuple[int, ...]:
    """Returns the indices of the sets to which a task of this kind adds its group and all
    ancestors.
    """
    way = kind & WAY
    if kind & STALLED:
        return (*BY_WAY[way], STALLS, *((RUNS_STALLED,) if way == Kind.RUNNING else ()))
    return (*BY_WAY[way], *((UNSTALLED,) if way in (Kind.READY, Kind.RUNNING) else ()))


class Sum(NamedTuple):
    """The key of a sum of time: the group's number, its state (0 to 6), and the groups that are
    excluded.
    """

    slot: int
    state: int
    without: tuple[int, ...]


class View:
    """The sums of time of `groups`, without the tasks of the groups `without` and their
    descendants. The sum of state S of the group with index I has the bit number S * len(groups) +
    I.
    """

    def __init__(self, catalog: Catalog, groups: Sequence[int], without: tuple[int, ...]) -> None:
        self.catalog, self.groups, self.without = catalog, groups, without
        self.size = STATES * len(groups)
        self.place = {slot: place for place, slot in enumerate(groups)}
        # For each byte of a joint state, a cache: the sets of groups to which the byte's elements
        # contribute, by the byte's value.
        self.bytes: list[dict[int, int]] = []

    def sum_of(self, bit: int) -> Sum:
        """Returns the key of the sum with this bit number."""
        state, place = divmod(bit, len(self.groups))
        return Sum(self.groups[place], state, self.without)

    def chain(self, slot: int) -> int:
        """Returns the set of the group and its ancestors as a bit mask. Groups whose sums aren't
        computed are left out. The set is empty if the group is excluded.
        """
        chain = 0
        at: int | None = slot
        while at is not None:
            if at in self.without:
                return 0
            if at in self.place:
                chain |= 1 << self.place[at]
            at = self.catalog.parents[at]
        return chain

    def sets_of_byte(self, place: int, value: int) -> int:
        """Returns the sets of groups to which the elements of a joint state's byte contribute,
        packed into one integer. `place` is the index of the byte, and `value` its value.
        """
        sets, keys = 0, self.catalog.keys
        for bit in range(8):
            if value >> bit & 1:
                slot, kind = divmod(keys[8 * place + bit], KINDS)
                chain = self.chain(slot)
                for one in sets_of(kind):
                    sets |= chain << one * len(self.groups)
        self.bytes[place][value] = sets
        return sets

    def sums(self, state: int) -> int:
        """Returns the set of sums to which a joint state contributes, as a bit mask."""
        sets, tables = 0, self.bytes
        data = state.to_bytes((state.bit_length() + 7) // 8, "little")
        while len(tables) < len(data):
            tables.append({})
        for place, value in enumerate(data):
            if value:
                found = tables[place].get(value)
                sets |= self.sets_of_byte(place, value) if found is None else found
        width = len(self.groups)
        every = (1 << width) - 1
        waits, stalls, ready = sets & every, sets >> width & every, sets >> 2 * width & every
        unstalled, runs, runs_stalled = (
            sets >> 3 * width & every,
            sets >> 4 * width & every,
            sets >> 5 * width,
        )
        active = ready | runs
        some = (
            waits,
            waits & ~active,
            stalls,
            stalls & ~(unstalled & ~runs_stalled),
            ready,
            ready & ~runs,
            waits | stalls | active,
        )
        found = 0
        for one in reversed(some):
            found = found << width | one
        return found


# A plan is a list of pairs: the groups whose sums of time are computed, and the groups whose tasks
# these sums exclude.
Plan = list[tuple[list[int], tuple[int, ...]]]


def plan_of(world: FoldWorld, removals: Sequence[tuple[int, ...]]) -> Plan:
    """Returns the plan of the sums to preserve. These are the sums of all accounted groups and, for
    each set of groups in `removals`, the sums of their common ancestors without the tasks of the
    set.
    """
    accounted = [slot for slot in sorted(world.live.values()) if slot not in world.off]
    plan: Plan = [(accounted, ())]
    for removal in removals:
        above = set.intersection(*(world.catalog.above(slot) for slot in removal))
        plan.append(([slot for slot in accounted if slot in above], removal))
    return plan


class Sums:
    """All sums that are preserved, each with a bit. `total` is the mask of an extra sum to which
    each joint state contributes.
    """

    def __init__(self, catalog: Catalog, plan: Plan) -> None:
        self.views = [View(catalog, groups, without) for groups, without in plan]
        self.size = sum(view.size for view in self.views)
        self.total = 1 << self.size

    def of(self, state: int) -> int:
        """Returns the set of sums to which a joint state contributes, as a bit mask."""
        found, at = 0, 0
        for view in self.views:
            found |= view.sums(state) << at
            at += view.size
        return found

    def sum_of(self, bit: int) -> Sum:
        """Returns the key of the sum with this bit number."""
        for view in self.views:
            if bit < view.size:
                return view.sum_of(bit)
            bit -= view.size
        raise IndexError(bit)

    def least(self, state: int, column: int) -> int:
        """Returns the joint state without the elements that don't affect its sums. `column` has the
        sums of the joint state.
        """
        for bit in bits_of(state):
            fewer = state ^ 1 << bit
            if self.of(fewer) == column:
                state = fewer
        return state
