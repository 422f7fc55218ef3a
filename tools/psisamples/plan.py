"""Arranges the blocks of a tick on processors, so that each group has the wanted shares.

A group's share of a level is `sum(weight * time) // sum(weight)` over processors, with its non-idle
time (weight) and stall time on each. A group without blocks of descendants needs a single block,
since its share is then the block's time. The shares of any other group are corrected in three ways:
by overlays, which have no weight; by further blocks; and by ballast, blocks in which only a task of
the group runs, which lower its shares. The deepest groups are placed first, so the blocks of all
descendants are known.
"""
from __future__ import annotations

from collections.abc import Iterator
from itertools import islice
from math import isqrt
from operator import add
from typing import AbstractSet, NamedTuple, Optional, Sequence

from .block import (
    MS,
    NONE,
    TICK,
    Span,
    Times,
    easy_length,
    fitted,
    least_length,
    possible,
    spans_of,
)
from .overlays import LESS_FULL, LESS_OF_BOTH, MORE_OF_BOTH, MORE_SOME, Overlay, segments_of

# The length of a tick (ms), the number of processors for blocks (a 64th creates and ends tasks),
# the number that groups without descendants try first, the most further blocks, the levels.
ROOM = TICK // MS
MOST_PROCESSORS = 63
SPREAD = 24
MOST_OWN = 24
SIX = range(6)
# The levels of the root. The kernel shows no full pressure of CPU for it.
ROOT_LEVELS = range(5)
ROUNDS = 12


class Block:
    """A block of a group on a processor: its start in the tick (ns), its length (ns), the states of
    its own tasks (`spans`) and of overlays (`others`), and its segments.
    """

    __slots__ = ("group", "start", "length", "spans", "others", "segments", "has")

    def __init__(self, group: int, start: int, length: int, times: Times) -> None:
        self.group, self.start, self.length = group, start, length
        self.spans = spans_of(times, length) if times is not NONE else [Span(0, length, "r", "x")]
        self.others: list[tuple[int, Span]] = []
        self.segments = segments_of(self.spans, length)
        # A bit mask of the statuses that segments of the block have or had.
        self.has = 0
        for segment in self.segments:
            self.has |= 1 << segment[2]


class Offer(NamedTuple):
    """An option for further blocks of a group: `blocks` blocks of `length` ms with the stall times
    `times` (ns), on `processor` or, if that is None, on processors without blocks of the group.
    With these blocks the group's weight is `heavy` (ms), and its shares differ from the wanted
    shares by `off` ns in total.
    """

    off: int
    heavy: int
    length: int
    times: Times
    blocks: int
    processor: Optional[int]


class Tree(NamedTuple):
    """The tree of groups: the chain from each group up to the root, as a tuple and as a set."""

    chains: dict[int, tuple[int, ...]]
    above: dict[int, frozenset[int]]


class Plan:
    """The blocks of a tick, by processor. `before` has the processors of each group's blocks in the
    previous tick. Groups in `late` are created 1 ns after the start of the tick, so their blocks
    start 1 ms later.
    """

    def __init__(
        self, tree: Tree, before: dict[int, list[int]], late: AbstractSet[int] = frozenset()
    ) -> None:
        self.tree, self.before, self.late = tree, before, late
        self.blocks: list[list[Block]] = []
        self.used: list[int] = []
        # The weight (ms) and six stall times (ns) by group and processor, including descendants.
        self.has: dict[int, dict[int, list[int]]] = {}
        self.where: dict[int, list[int]] = {}

    # ---------------------------------------------------------------- placing blocks

    def room(self, processor: int, group: int) -> int:
        """Returns the time (ms) on a processor that is free for a block of the group."""
        used = self.used[processor] if processor < len(self.used) else 0
        return ROOM - (used or int(group in self.late))

    def place(self, group: int, processor: int, length: int, times: Times) -> None:
        """Appends a block of `length` ms to the blocks of a processor."""
        while processor >= len(self.used):
            self.used.append(0)
            self.blocks.append([])
        if not self.used[processor] and group in self.late:
            self.used[processor] = 1
        self.blocks[processor].append(Block(group, self.used[processor] * MS, length * MS, times))
        self.used[processor] += length
        self.where.setdefault(group, []).append(processor)
        added = (length, *times)
        for one in self.tree.chains[group]:
            places = self.has.setdefault(one, {})
            before = places.get(processor)
            places[processor] = list(map(add, before, added)) if before else list(added)

    def empty_places(self, group: int) -> Iterator[int]:
        """Yields processors without blocks of the group or descendants, first those of `before`."""
        known, last = self.has.get(group, {}), self.before.get(group, ())
        yield from (it for it in last if it not in known)
        yield from (it for it in range(MOST_PROCESSORS) if it not in known and it not in last)

    def free_rooms(self, group: int) -> list[int]:
        """Returns the free times (ms) on processors without blocks of the group, descending."""
        known = self.has.get(group, {})
        late = int(group in self.late)
        found = [
            ROOM - (it or late) for processor, it in enumerate(self.used) if processor not in known
        ]
        return [ROOM - late] * (MOST_PROCESSORS - len(self.used)) + sorted(found, reverse=True)

    def place_alone(self, group: int, times: Times) -> None:
        """Places the block of a group without blocks of descendants. Chooses the processor with the
        least weight of the parent, since the parent's stall times on a processor add up.
        """
        if group in self.late:
            times = fitted(times, (ROOM - 1) * MS)
        length = max(1, -(-easy_length(times) // MS))
        chain = self.tree.chains[group]
        beside = self.has.get(chain[1], {}) if len(chain) > 1 else {}
        last = self.before.get(group, [0])[0] if group in self.before else -1
        if last >= 0 and last not in beside and self.room(last, group) >= length:
            return self.place(group, last, length, times)
        places = range(min(MOST_PROCESSORS, max(len(self.used), SPREAD)))
        order = sorted((beside[it][0] if it in beside else 0, it) for it in places)
        found = next((it for _, it in order if self.room(it, group) >= length), None)
        if found is None:
            found = next(
                (
                    it
                    for it in range(len(places), MOST_PROCESSORS)
                    if self.room(it, group) >= length
                ),
                None,
            )
        if found is not None:
            self.place(group, found, length, times)

    def put_ballast(self, group: int, weight: int) -> None:
        """Adds blocks of `weight` ms in total, in which a task of the group only runs, on
        processors without blocks of the group or its descendants.
        """
        for processor in list(self.empty_places(group)) if weight > 0 else ():
            if weight <= 0:
                return
            part = min(weight, self.room(processor, group))
            if part > 0:
                self.place(group, processor, part, NONE)
                weight -= part

    # ---------------------------------------------------------------- adding overlays to blocks

    def lay(self, group: int, over: Overlay, amount: int) -> int:
        """Adds overlays of the group to blocks of its descendants. Returns the sum, at most
        `amount`, of the length (ns) of each times the group's weight (ms) on its processor.
        """
        done, known = 0, self.has[group]
        for processor in sorted(known, key=lambda it: -known[it][0]):
            weight = known[processor][0]
            for block in self.blocks[processor]:
                if amount - done < weight:
                    break
                if block.has & over.takes and group in self.tree.above[block.group]:
                    done += weight * self.lay_over(
                        group, processor, block, over, (amount - done) // weight
                    )
        return done

    def lay_over(self, group: int, processor: int, block: Block, over: Overlay, most: int) -> int:
        """Adds an overlay to a block for up to `most` ns. Returns the time (ns) that it covers."""
        done, place = 0, 0
        while place < len(block.segments) and done < most:
            segment = block.segments[place]
            place += 1
            after = over.after[segment[2]]
            length = min(segment[1] - segment[0], most - done)
            if after is None or length <= 0:
                continue
            if length < segment[1] - segment[0]:
                block.segments.insert(place, [segment[0] + length, segment[1], segment[2]])
                segment[1] = segment[0] + length
            for one in self.tree.chains[group]:
                sums = self.has[one][processor]
                for level, sign in over.changes[segment[2]]:
                    sums[level + 1] += sign * length
            segment[2] = after
            block.has |= 1 << after
            block.others.append((group, Span(segment[0], segment[1], over.kind, over.state)))
            done += length
        return done

    # ---------------------------------------------------------------- groups with descendants

    def sums(self, group: int) -> tuple[int, list[int]]:
        """Returns the group's weight (ms), and each level's sum of weight * time."""
        weight = io_some = io_full = memory_some = memory_full = cpu_some = cpu_full = 0
        for heavy, *times in self.has.get(group, {}).values():
            weight += heavy
            io_some += heavy * times[0]
            io_full += heavy * times[1]
            memory_some += heavy * times[2]
            memory_full += heavy * times[3]
            cpu_some += heavy * times[4]
            cpu_full += heavy * times[5]
        return weight, [io_some, io_full, memory_some, memory_full, cpu_some, cpu_full]

    def shares(self, group: int) -> list[int]:
        """Returns the group's shares (ns) of the six levels, as psi_oomd will compute them."""
        weight, found = self.sums(group)
        return [it // max(1, weight) for it in found]

    def give(self, group: int, wanted: Sequence[int]) -> None:
        """Changes the group's shares (ns) to the wanted ones, as nearly as possible."""
        times = possible(tuple(wanted))
        if group not in self.has:
            if any(times):
                self.place_alone(group, times)
            return
        weight, sums = self.sums(group)
        levels = ROOT_LEVELS if len(self.tree.chains[group]) == 1 else SIX
        if all(abs(times[it] * weight - sums[it]) <= weight for it in levels):
            return
        heavy = self.least_weight(group, times, weight, sums, (0, 2, 4))
        self.lower(group, times, heavy, levels)
        weight, sums = self.sums(group)
        heavy = max(heavy, self.least_weight(group, times, weight, sums, levels))
        self.lift(group, times, heavy, levels)
        weight, sums = self.sums(group)
        lacks = [times[it] * heavy - sums[it] for it in levels]
        if any(it > heavy for it in lacks):
            offer = self.best_offer(group, times, heavy, levels)
            if offer is not None:
                self.take(group, offer)
                heavy = max(heavy, offer.heavy)
        self.put_ballast(group, heavy - self.sums(group)[0])

    def least_weight(
        self, group: int, times: Times, weight: int, sums: list[int], levels: Sequence[int]
    ) -> int:
        """Returns the smallest weight (ms) with which no share is too high, if there is room."""
        found = weight
        for level in levels:
            if times[level] and sums[level] > times[level] * found:
                found = -(-sums[level] // times[level])
        if found > weight:
            found = min(found, weight + sum(self.free_rooms(group)))
        return found

    def lower(self, group: int, times: Times, heavy: int, levels: Sequence[int]) -> None:
        """Adds overlays that reduce the group's shares of full."""
        sums = self.sums(group)[1]
        io, memory = sums[1] - times[1] * heavy, sums[3] - times[3] * heavy
        if io > heavy and memory > heavy and self.lay(group, LESS_OF_BOTH, min(io, memory)):
            sums = self.sums(group)[1]
        for level, overlays in LESS_FULL.items():
            for over in overlays if level in levels else ():
                excess = sums[level] - times[level] * heavy
                if excess > heavy and self.lay(group, over, excess):
                    sums = self.sums(group)[1]

    def lift(self, group: int, times: Times, heavy: int, levels: Sequence[int]) -> None:
        """Adds overlays that increase the group's shares of some and, if needed, of full."""
        sums = self.sums(group)[1]
        for level, overlays in MORE_SOME.items():
            some = times[level] * heavy - sums[level]
            full = max(0, times[level + 1] * heavy - sums[level + 1]) if level + 1 in levels else 0
            if some <= heavy:
                continue
            if level in MORE_OF_BOTH and full > heavy:
                done = self.lay(group, MORE_OF_BOTH[level], min(some, full))
                some, full = some - done, full - done
            for over in overlays:
                if some - full > heavy:
                    some -= self.lay(group, over, some - full)
            sums = self.sums(group)[1]

    # ---------------------------------------------------------------- further blocks of a group

    def best_offer(
        self, group: int, times: Times, heavy: int, levels: Sequence[int]
    ) -> Optional[Offer]:
        """Returns the further blocks that bring the group's shares nearest to the wanted ones, with
        the least weight. Returns None if no blocks improve the shares.
        """
        known = self.has[group]
        weight, sums = self.sums(group)
        now = sum(abs(times[it] * weight - sums[it]) for it in levels) // max(1, weight)
        free = self.free_rooms(group)
        need = Need(times, levels, weight, sums, heavy, weight + sum(free), [0] * 7, 0, None)
        offers = []
        for processor in sorted(known, key=lambda it: -known[it][0])[:2]:
            room = self.room(processor, group)
            if room:
                offers.append(
                    need._replace(base=known[processor], room=room, processor=processor).offer(1)
                )
        for count in range(1, 1 + min(MOST_OWN, len(free))):
            room = free[count - 1]
            if room < (ROOM - 1 if count > 1 else 1) or any(not it.off for it in offers):
                break
            offers.append(need._replace(room=room).offer(count))
        found = min(offers, key=lambda it: (it.off, it.heavy), default=None)
        return found if found is not None and found.off < now else None

    def take(self, group: int, it: Offer) -> None:
        """Places the blocks of an offer on processors."""
        places = [it.processor] if it.processor is not None else self.empty_places(group)
        fitting = (place for place in places if self.room(place, group) >= it.length)
        for processor in list(islice(fitting, it.blocks)):
            self.place(group, processor, it.length, it.times)


class Need(NamedTuple):
    """The parameters of a search for further blocks of a group: the wanted shares (ns); the group's
    weight (ms) and its sums of weight * time; the bounds of its new weight (ms); the weight (ms)
    and six stall times (ns) that it already has on the processor of the new blocks (`base`); and
    the length (ms) of the longest possible block.
    """

    wanted: Times
    levels: Sequence[int]
    weight: int
    sums: list[int]
    least: int
    limit: int
    base: list[int]
    room: int
    processor: Optional[int]

    def at(self, length: int, count: int) -> tuple[int, int, list[int], Times]:
        """Computes the effect of `count` new blocks of `length` ms. Returns the group's weight with
        ballast (ms), the weight (ms) with which the blocks' stall times count in the group's sums,
        the sums that these times must add, and the blocks' stall times (ns). A block adds (base
        weight + length) * times + length * base times to the group's sums.
        """
        wanted, added = self.wanted, count * length
        heavy = least = max(self.least, self.weight + added)
        more = [self.sums[it] + added * self.base[it + 1] for it in self.levels]
        for level, it in zip(self.levels, more):
            if wanted[level] and it > wanted[level] * heavy:
                heavy = -(-it // wanted[level])
        heavy = max(least, min(heavy, self.limit))
        share = count * (self.base[0] + length)
        rest = [wanted[level] * heavy - it for level, it in zip(self.levels, more)]
        raw = [max(0, (it + share // 2) // share) for it in rest] + [0] * (6 - len(rest))
        return (
            heavy,
            share,
            rest,
            (raw[0], min(raw[1], raw[0]), raw[2], min(raw[3], raw[2]), raw[4], min(raw[5], raw[4])),
        )

    def offer(self, count: int) -> Offer:
        """Returns an offer of `count` blocks. A single block is as long as it needs to be to give
        the group its shares, but at most `room` ms. Several blocks are `room` ms long each.
        """
        length, base = 1 if count == 1 else self.room, self.base[0]
        for turn in range(ROUNDS):
            heavy, share, rest, times = self.at(length, count)
            lack = -(-least_length(times) // MS) - length
            if lack <= 0 or length >= self.room:
                break
            # The length at which a block is exactly as long as its times need, if the sums that it
            # must add don't change. The sums grow with it, so later rounds increase it by more.
            better = (isqrt(base * base + 4 * (length + lack) * (base + length)) - base) // 2
            length = min(
                self.room, max(better + 1, length + 1 + turn * lack) if turn else better + 1
            )
        else:
            length = self.room
            heavy, share, rest, times = self.at(length, count)
        times = fitted(times, length * MS)
        off = sum(abs(it - time * share) for it, time in zip(rest, times)) // heavy
        return Offer(off if off > 6 else 0, heavy, length, times, count, self.processor)
