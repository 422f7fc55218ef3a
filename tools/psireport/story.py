"""Chooses the group and resource that the page is about, and writes its first sentences: what
happened on the machine.
"""
from __future__ import annotations

from typing import NamedTuple, Optional

from psichart.replay import Replay, Series
from psicli.times import SECOND, seconds
from psireplay.lines import Kill
from psireplay.rules import Rules
from psiwhy.nearness import share

from .reading import LEAST, Peaks

# The time (ns) between a kill and the report that shows its effect on other groups.
LATER = 30 * SECOND
# Times (ns) before which averages mean little, since averages begin at 0. The first time is for
# averages over 10 s, and the second for averages over 60 and 300 s.
SETTLED, ALL_SETTLED = 30 * SECOND, 180 * SECOND
NAMES = {"io": "IO", "memory": "memory", "cpu": "a processor", "irq": "interrupts"}


class Subject(NamedTuple):
    """The group and the resource that the page is about."""

    path: str
    resource: str

    @property
    def level(self) -> str:
        """Returns the level of the pressure. Interrupts have no `some`, so their level is `full`.
        The root's `full` of cpu is always 0, so all other resources have the level `some`.
        """
        return "full" if self.resource == "irq" else "some"


class Stretch(NamedTuple):
    """The worst stretch of time, from `start` to `end` (ns): the longest stretch in which the share
    over 10 s was at least half of its highest value. `highest` is that value, and `at` its time
    (ns).
    """

    start: int
    end: int
    highest: int
    at: int


class After(NamedTuple):
    """The subject's pressure some time after a kill: the time (ns), the recorded share, and the
    highest possible share without the victim (hundredths of a percent). `was_over` says that the
    recorded share never rose between the kill and that time.
    """

    time_ns: int
    was: int
    most: int
    was_over: bool


def watched(rules: Rules, kill: Kill, peaks: Peaks) -> Optional[Subject]:
    """Returns the group and resource with the highest pressure among those that the killing ruleset
    checks. If that group is the victim or a descendant of the victim, returns the victim's parent,
    since the group doesn't exist after the kill.
    """
    found = [
        (
            peaks.highest(path, detector.args["resource"], "full").share,
            path,
            detector.args["resource"],
        )
        for detector in rules.rulesets[kill.ruleset].detectors
        if "resource" in detector.args
        for path in {path for path, _, _ in peaks.found}
        if detector.covers(path)
    ]
    share_, path, resource = max(found, default=(0, "", ""))
    if not share_:
        return None
    is_gone = f"{path}/".startswith(f"{kill.path}/")
    return Subject(kill.path.rpartition("/")[0] or "/" if is_gone else path, resource)


def subject_of(peaks: Peaks, rules: Optional[Rules], kills: list[Kill]) -> Subject:
    """Returns the group and resource that the page is about. After a kill, `watched` chooses them
    from those that the ruleset of the first kill checks. Without rules or kills, or if `watched`
    finds no pressure, `worst_of` chooses them.
    """
    return (watched(rules, kills[0], peaks) if rules and kills else None) or worst_of(peaks)


def worst_of(peaks: Peaks) -> Subject:
    """Returns the group below the root with the highest `full` pressure. If all groups hardly
    stalled, returns the root with its `some` pressure. If the root hardly stalled too, returns the
    group that interrupts delayed most.
    """
    best: Optional[tuple[int, Subject]] = None
    for found in (ranked(peaks, False), ranked(peaks, True), interrupted(peaks)):
        if found and found[0] >= LEAST:
            return found[1]
        if found and found[0] and not best:
            best = found
    return best[1] if best else Subject("/", "cpu")


def ranked(peaks: Peaks, is_root: bool) -> Optional[tuple[int, Subject]]:
    """Returns the highest share, in hundredths of a percent, with its group and resource. Considers
    either the root only, or all groups below the root.
    """
    levels = ("some", "full") if is_root else ("full", "some")
    order = [
        ([peaks.highest(path, resource, it).share for it in levels], path, resource)
        for path, resource, level in peaks.found
        if level == "some" and (path == "/") == is_root
    ]
    shares, path, resource = max(order, key=lambda it: it[0], default=([0], "", ""))
    return (max(shares), Subject(path, resource)) if path else None


def interrupted(peaks: Peaks) -> Optional[tuple[int, Subject]]:
    """Returns the group that interrupts delayed for the largest share of time, and this share. If
    several groups have this share, the root is preferred.
    """
    order = [
        (peaks.highest(path, "irq", "full").share, path == "/", path)
        for path, resource, _ in peaks.found
        if resource == "irq"
    ]
    share_, _, path = max(order, default=(0, False, ""))
    return (share_, Subject(path, "irq")) if path else None


def greater_than(subject: Subject, peaks: Peaks) -> Optional[Subject]:
    """Returns the worst stall if it is worse than the subject's, and None if not. Also returns None
    if both are the same stall: the same resource, and the same group or an ancestor or descendant
    of it.
    """
    worst = worst_of(peaks)
    paths = [f"{it.path.rstrip('/')}/" for it in (worst, subject)]
    is_same = worst.resource == subject.resource and (
        paths[0].startswith(paths[1]) or paths[1].startswith(paths[0])
    )
    is_more = max(
        peaks.highest(worst.path, worst.resource, it).share for it in ("some", "full")
    ) > max(peaks.highest(subject.path, subject.resource, it).share for it in ("some", "full"))
    return worst if is_more and not is_same else None


def stretch_of(series: Series, level: str) -> Stretch:
    """Returns the longest stretch of reports in which the average over 10 s is at least half of its
    highest value.
    """
    shares = series.shares[level, "avg10"]
    highest = max(shares, default=0)
    at = series.times_ns[list(shares).index(highest)] if shares else 0
    best = Stretch(at, at, highest, at)
    start: Optional[int] = None
    for time_ns, value in zip(series.times_ns, shares):
        start = (time_ns if start is None else start) if 2 * value >= max(1, highest) else None
        if start is not None and time_ns - start > best.end - best.start:
            best = Stretch(start, time_ns, highest, at)
    return best


def value_at(series: Series, level: str, time_ns: int) -> tuple[int, int]:
    """Returns the time (ns) and the share over 10 s of the first report at or after `time_ns`. If
    there is none, uses the last report.
    """
    times_ns = series.times_ns
    place = next((place for place, it in enumerate(times_ns) if it >= time_ns), len(times_ns) - 1)
    return times_ns[place], series.shares[level, "avg10"][place]


def after(subject: Subject, kill: Kill, recorded: Replay, supposed: Replay) -> Optional[After]:
    """Returns the subject's pressure some time after a kill, both as recorded and without the
    killed group. Returns None unless both replays have reports on the subject after the kill.
    """
    one, other = (it.series.get(subject) for it in (recorded, supposed))
    if not one or not other or min(one.times_ns[-1], other.times_ns[-1]) <= kill.time_ns:
        return None
    time_ns, was = value_at(one, subject.level, kill.time_ns + LATER)
    same, most = value_at(other, subject.level, time_ns)
    shares = [
        share_
        for at, share_ in zip(one.times_ns, one.shares[subject.level, "avg10"])
        if kill.time_ns <= at <= time_ns
    ]
    was_over = all(later <= before for before, later in zip(shares, shares[1:]))
    return After(time_ns, was, most, was_over) if same == time_ns else None


def percent(hundredths: int) -> str:
    """Formats a percentage with one decimal. As in pressure files, it is truncated and not rounded.
    """
    return f"{hundredths // 100}.{hundredths % 100 // 10}"


def caveat(end: int) -> str:
    """Returns a clause for the first sentence of the report. If the trace is short, it says which
    averages mean little. For a long trace it is empty.
    """
    if end < SETTLED:
        return "; averages mean little before 30 s, those over 60 and 300 s before 3 min"
    return "; averages over 60 and 300 s mean little before 3 min" if end < ALL_SETTLED else ""


def early(time_ns: int) -> str:
    """Returns a clause for a kill early in a trace. It says that averages mean little at that time.
    """
    return ", which says little before 30 s" if time_ns < SETTLED else ""


def machine_sentence(
    subject: Subject, stretch: Stretch, end: int, caveat_: str = "", aside: str = ""
) -> str:
    """Returns the sentence on the worst stall of a group or of the machine. Times are in ns.
    `aside` follows the group's name in the sentence.
    """
    if not stretch.highest:
        return f"No group stalled in the {seconds(end)} s of this trace{caveat_}."
    who = "The machine" if subject.path == "/" else subject.path
    what = (
        f"waited for {NAMES[subject.resource]}"
        if subject.resource in ("io", "cpu")
        else f"stalled for {NAMES[subject.resource]}"
    )
    what = "was held up by interrupts" if subject.resource == "irq" else what
    when = f"from {seconds(stretch.start)} s to {seconds(stretch.end)} s"
    return (
        f"{who}{aside} {what}, at its worst {when}: up to {share(stretch.highest)} percent of the"
        f" time over 10 s (at {seconds(stretch.at)} s){caveat_}."
    )
