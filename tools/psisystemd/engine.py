"""Implements systemd-oomd's rules: when it checks pressure and swap, and which group it kills.

This follows systemd 252 and 257, which have the same rules and differ only in settings.
systemd-oomd checks the pressure of groups each second, and the machine's swap each 0.15 s.
docs/SYSTEMD.md lists the differences between this module and systemd-oomd.
"""
from __future__ import annotations

from collections.abc import Iterable
from dataclasses import dataclass, replace

from psicli.times import SECOND, seconds
from psireplay.groups import Group
from psireplay.world import World, Task
from psisystemd.candidates import candidates_of, gathered, is_avoided, memory_of
from psisystemd.settings import Settings
from psisystemd.told import MEMORY_PRESSURE, SWAP, Candidate, Course, Decision, size
from psisystemd.values import WHOLE, percent
from psiworld.groups import ROOT

SWAP_INTERVAL = 150 * SECOND // 1000
RECLAIM = 30 * SECOND
"""After a scan, a group counts as reclaiming memory for this time (ns)."""
PAUSE = 15 * SECOND
LEAST_SWAP_PERCENT = 5


@dataclass
class Look:
    """The state of a watched group between checks. `limit` (hundredths of a percent) and `duration`
    (ns) are its settings. `since` is the time (ns) at which its pressure rose above the limit, or
    None if it is not above. `scanned` is the number of scanned pages at the previous check, and
    `last_scan` the time (ns) of the check that last found new scans. `is_told` says whether it was
    reported that no group is killed.
    """

    group: Group
    limit: int
    duration: int
    since: int | None = None
    scanned: int = 0
    last_scan: int | None = None
    is_told: bool = False


class Scans:
    """The number of pages that were scanned for each group between the last two samples (`risen`).
    A check without a new sample uses the numbers of the previous check.
    """

    def __init__(self) -> None:
        self.samples = 0
        self.times = (0, 0)
        self.totals: dict[Group, int] = {}
        self.risen: dict[Group, int] = {}

    def take(self, now: int, world: World[Task]) -> None:
        """Reads the latest samples at `now` (ns), if there are new ones."""
        if world.samples == self.samples:
            return
        self.samples = world.samples
        self.times = (self.times[1], now)
        before, self.totals, self.risen = self.totals, {}, {}
        for group in world.live.values():
            sample = memory_of(group)
            if sample:
                self.totals[group] = sample.scanned
                # Pages that a group had scanned before the trace started don't count, because the
                # time of these scans is unknown.
                old = before.get(group, sample.scanned if group.made == 0 else 0)
                self.risen[group] = sample.scanned - (old if old <= sample.scanned else 0)

    def span(self) -> str:
        return f" in {seconds(self.times[1] - self.times[0])} s"


class PressureRule:
    """The rule for memory pressure, which is checked every second."""

    def __init__(self, world: World[Task], settings: Settings) -> None:
        self.world, self.settings = world, settings
        self.looks: dict[str, Look] = {}
        self.lost: set[Group] = set()
        self.unread: set[str] = set()
        """The paths of watched groups that had no memory sample at some check."""
        self.courses: dict[str, Course] = {}
        self.scans = Scans()
        self.candidates: dict[str, Group] = {}
        """The candidates at the previous check if some group was above its limit then, and empty if
        not.
        """
        self.rests_until = 0
        self.paused: list[tuple[int, str, int]] = []
        """The kills that a pause prevented: the time (ns) of the check, the path of the group whose
        pressure had been above its limit for its duration, and the end of the pause (ns).
        """

    def look(self, now: int, averages: dict[str, int]) -> list[Decision]:
        """Checks memory pressure at `now` (ns), and returns the decisions. `averages` contains the
        full memory pressure over 10 s (hundredths of a percent) of each watched group.
        """
        self.scans.take(now, self.world)
        self.update(now, averages)
        above = [it for it in self.looks.values() if it.since is not None]
        targets = sorted(
            (it for it in above if now - (it.since or 0) >= it.duration),
            key=lambda it: it.group.path,
        )
        found = candidates_of(self.world, self.settings, self.looks) if above else {}
        known, self.candidates = set(self.candidates.values()), found
        if not targets or now < self.rests_until:
            self.paused += [(now, it.group.path, self.rests_until) for it in targets]
            return []
        decisions = []
        self.candidates = {}
        for target in targets:
            if target.last_scan is None or now - target.last_scan > RECLAIM:
                decisions += self.told_once(now, target, averages)
                continue
            self.candidates = found
            self.rests_until = now + PAUSE
            target.is_told = False
            return [*decisions, self.decided(now, target, averages, known)]
        return decisions

    def update(self, now: int, averages: dict[str, int]) -> None:
        """Updates the state of each watched group. A group whose accounting was ever off isn't
        watched until it is created again.
        """
        before, self.looks = self.looks, {}
        for path, group in self.world.live.items():
            watched = self.settings.watched(path)
            if not watched.pressure:
                continue
            sample = memory_of(group)
            if not group.is_accounted:
                self.lost.add(group)
            elif sample is None:
                self.unread.add(path)
            if sample is None or group in self.lost:
                continue
            look = before.get(path)
            if not look or look.group is not group:
                look = Look(
                    group,
                    watched.limit,
                    watched.duration,
                    scanned=sample.scanned if group.made == 0 else 0,
                )
            self.looks[path] = look
            if sample.scanned != look.scanned and (
                sample.scanned > look.scanned or sample.scanned > 0
            ):
                look.last_scan = now
            look.scanned = sample.scanned
            self.judge(now, look, averages[path])

    def judge(self, now: int, look: Look, pressure: int) -> None:
        """Updates the time since which the group's pressure (hundredths of a percent) is above its
        limit.
        """
        if pressure > look.limit:
            look.since = now if look.since is None else look.since
        else:
            look.since, look.is_told = None, False
        path = look.group.path
        self.courses.setdefault(path, Course(path, look.limit, look.duration)).take(
            now, pressure, look.since
        )

    def why(self, now: int, target: Look, averages: dict[str, int]) -> str:
        path = target.group.path
        pressure = f"{percent(averages[path])} > {percent(target.limit)}"
        return f"memory pressure of {path} {pressure} for {seconds(now - (target.since or 0))} s"

    def told_once(self, now: int, target: Look, averages: dict[str, int]) -> list[Decision]:
        """Returns a decision that no group is killed, because no page was scanned. Returns an empty
        list if an earlier check has already reported this.
        """
        if target.is_told:
            return []
        target.is_told = True
        reason = (
            "the root's scans aren't looked at"
            if target.group.path == ROOT
            else f"no scan was seen for {seconds(RECLAIM)} s"
        )
        why = f"{self.why(now, target, averages)}; but {reason}"
        return [Decision(now, None, MEMORY_PRESSURE, target.group.path, why)]

    def decided(
        self, now: int, target: Look, averages: dict[str, int], known: set[Group]
    ) -> Decision:
        """Returns the decision about the watched group of `target`: the victim, or why there is
        none. `known` contains the candidates of the previous check. For other groups, all pages
        that they ever scanned count.
        """
        path = target.group.path
        risen = {group: count for group, count in self.scans.risen.items() if group in known}
        found = gathered(self.candidates, self.settings, path, risen)
        ranked = sorted(
            found,
            key=lambda it: (
                it.preference == "omit",
                is_avoided(it),
                -it.scanned,
                -it.memory,
                it.path,
            ),
        )
        why = self.why(now, target, averages)
        return chosen(
            self.world, Decision(now, None, MEMORY_PRESSURE, path, why, ranked, self.scans.span())
        )


class SwapRule:
    """The rule for swap, which is checked every 0.15 s."""

    def __init__(self, world: World[Task], settings: Settings) -> None:
        self.world, self.settings = world, settings
        self.samples = 0
        self.is_told = False
        self.most = (-1, -1, 0)
        """At the check with the largest share of swap in use: this share, the share of memory in
        use (both in hundredths of a percent, -1 if unknown), and the time (ns).
        """
        self.was_watched = self.is_absent = False

    def is_due(self) -> bool:
        """Returns whether there is a new sample. Without a new sample, a check would have the
        result of the previous check.
        """
        return self.world.samples != self.samples

    def look(self, now: int) -> list[Decision]:
        """Checks swap at `now` (ns), and returns the decisions."""
        self.samples = self.world.samples
        watched = [path for path in self.world.live if self.settings.watched(path).swap]
        host, root = self.world.host, self.world.live[ROOT].sample
        self.was_watched = self.was_watched or bool(watched)
        self.is_absent = host is not None and host.swap == 0
        if not watched or not host or not host.swap or not root:
            return []
        limit = self.settings.limits.swap_used
        available, used = max(0, host.memory - root.memory), host.swap - host.swap_free
        memory = (host.memory - available) * WHOLE // host.memory if host.memory else 0
        shares = (used * WHOLE // host.swap, memory)
        self.most = max(self.most, (*shares, now), key=lambda it: it[:2])
        free = WHOLE - limit
        has_memory = available >= host.memory * free // WHOLE
        if has_memory or host.swap_free >= host.swap * free // WHOLE:
            self.is_told = False
            return []
        found = gathered(candidates_of(self.world, self.settings, watched), self.settings, ROOT, {})
        least = host.swap * LEAST_SWAP_PERCENT // 100
        little = f"not above {LEAST_SWAP_PERCENT} % of swap"
        judged = []
        for it in found:
            why = "omit" if it.preference == "omit" else little if it.swap <= least else ""
            judged.append(replace(it, passed_over=why))
        ranked = sorted(
            judged, key=lambda it: (it.preference == "omit", is_avoided(it), -it.swap, it.path)
        )
        why = (
            f"memory used {percent(shares[1])} and swap used {percent(shares[0])} of"
            f" {size(host.swap)}, both > {percent(limit)}"
        )
        decision = chosen(self.world, Decision(now, None, SWAP, ROOT, why, ranked))
        was_told, self.is_told = self.is_told, decision.victim is None
        return [] if was_told and self.is_told else [decision]


def chosen(world: World[Task], decision: Decision) -> Decision:
    """Returns the decision with its victim, which is the first candidate that isn't skipped. If
    that candidate has no tasks, systemd-oomd kills nothing and tries no other candidate.
    """
    first: Candidate | None = next((it for it in decision.candidates if not it.passed_over), None)
    if not first:
        return replace(decision, why=f"{decision.why}; but there is no candidate")
    if not world.live[first.path].has_tasks():
        return replace(
            decision,
            why=f"{decision.why}; but in {first.path}, which it would choose, nothing runs",
        )
    return replace(decision, victim=first.path)


class Engine:
    """Applies the rules for memory pressure and for swap to a trace."""

    def __init__(self, settings: Settings) -> None:
        self.world = World(Task)
        self.pressure, self.swap = PressureRule(self.world, settings), SwapRule(
            self.world, settings
        )
        self.decisions: list[Decision] = []
        self.next_look = SWAP_INTERVAL

    def look_at_swap(self, until: int) -> None:
        """Checks swap up to `until` (ns). Checks only once per new sample, since further checks
        would have the same result.
        """
        if self.next_look < until:
            if self.swap.is_due():
                self.decisions += self.swap.look(self.next_look)
            self.next_look = -(-until // SWAP_INTERVAL) * SWAP_INTERVAL

    def take(self, time_ns: int, verb: str, fields: list[str]) -> None:
        """Applies an event of the trace. First makes the swap checks that are due before the
        event's time.
        """
        self.look_at_swap(time_ns)
        self.world.take(time_ns, verb, fields)

    def look_at_pressure(self, now: int, averages: dict[str, int]) -> None:
        """Checks pressure at a full second `now` (ns), after the events of that time."""
        self.look_at_swap(now + 1)
        self.decisions += self.pressure.look(now, averages)

    def kills(self) -> Iterable[Decision]:
        """Returns the decisions that kill a group."""
        return (it for it in self.decisions if it.victim is not None)
