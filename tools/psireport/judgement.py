"""The section of the report on rules: when detectors were true, and what the kills would have
changed.
"""
from __future__ import annotations

from typing import Any, Optional

from psichart.axes import time_axis
from psichart.svg import add
from psicli.times import seconds
from psireplay.lines import Kill
from psiwhy.explanation import MOST_FIRINGS, firing_lines
from psiwhy.judged import Judged
from psiwhy.truths import Place, longest, spans

from .facts import Facts, Supposed
from .html import Element, Words, folded, say, table, word
from .pictures import Album, Picture, spans_text, strip
from .sections import RESOURCES, SHOWN, in_seconds, killer, nearness, rest, source
from .story import percent


def rules(page: Element, facts: Facts) -> Optional[Picture]:
    judged = facts.judged
    if not judged:
        return None
    section = add(page, "section", id="rules")
    say(section, "h2", "What the rules would have done")
    asked: list[Words] = []
    for run in judged.asked:
        asked += [" ", source(run)]
    kills: list[Words] = ["; kills ", source(judged.run), "."]
    say(section, "p", f"At {len(judged.evaluations)} evaluations", *asked, *kills, class_="soft")
    key = add(section, "p", class_="soft key")
    for look, text in (
        ("held", "its condition held"),
        ("true", "true, for its duration"),
        ("killed", "kill"),
    ):
        add(key, "span", "\N{NO-BREAK SPACE}", class_=look).tail = text
    for number_ in range(len(judged.json)):
        ruleset(section, facts, judged, number_)
    if not facts.supposed:
        return None
    return supposed_kills(section, facts)


def ruleset(section: Element, facts: Facts, judged: Judged, number_: int) -> None:
    """Adds the part on one ruleset: when its detectors were true, and how near each detector came
    to its threshold.
    """
    axis = time_axis(0, facts.replay.end.time_ns, None)
    name = judged.rules.rulesets[number_].name
    kills = [it for it in facts.replay.kills if it.ruleset == number_]
    fired = judged.truths[Place(number_)]
    say(section, "h3", f"Ruleset {number_} ‘{name}’")
    say(section, "p", fired_text(judged, number_, fired, kills))
    marks = [it.time_ns for it in kills]
    section.append(strip("it fires", axis, judged.evaluations, {"true": fired}, marks))
    if facts.parts[number_].firings:
        lines = firing_lines(facts.parts[number_].firings, is_all=False)[:MOST_FIRINGS]
        say(folded(section, "Why it killed, and whom not"), "pre", "\n".join(lines))
    for place, (group, *detectors) in enumerate(judged.json[number_]["detectors"]):
        for which, detector in enumerate(detectors):
            one = Place(number_, place, which)
            watch = judged.watches[number_, place, which]
            condition_times = judged.truths.get(one._replace(held=True), [])
            rest_ = condition_text(judged, condition_times, detector) + truth_text(judged, one)
            what, came = f" in ‘{group}’: {watch.wanted()}. ", watch.came(judged.host)
            say(section, "p", word("code", detector["name"]), what, word("strong", came), rest_)
            kinds = {"held": condition_times} if condition_times else {}
            kinds["true"] = judged.truths[one]
            section.append(strip(watch.wanted(), axis, judged.evaluations, kinds, []))


def fired_text(judged: Judged, number_: int, fired: list[int], kills: list[Kill]) -> str:
    if not fired:
        true, many, _ = nearness(judged, number_)
        none = "no detector of it was ever true" if many else "it has no detectors"
        what = f"at most {true} of {many} detectors were true at once" if true else none
        return f"It never fired: {what}."
    killed = ", ".join(f"{it.path} at {seconds(it.time_ns)} s" for it in kills[:SHOWN])
    killed += f" and {len(kills) - SHOWN} more" if len(kills) > SHOWN else ""
    when = spans_text(spans(fired, judged.evaluations))
    nobody = "It would have killed nobody, since it found no victim."
    return f"It fired {when}. " + (f"It would have killed {killed}." if kills else nobody)


def condition_text(judged: Judged, condition_times: list[int], detector: dict[str, Any]) -> str:
    if not condition_times:
        return "; "
    most = seconds(longest(condition_times, judged.evaluations))
    duration = detector["args"]["duration"]
    return f"; its condition held for {most} s at most, where {duration} s are asked; "


def truth_text(judged: Judged, place: Place) -> str:
    found = spans(judged.truths[place], judged.evaluations)
    return f"true {spans_text(found)}." if found else "never true."


def supposed_kills(section: Element, facts: Facts) -> Picture:
    """Adds the part on the time after the kills, from the output of `psi_oomd whatif`. Returns its
    picture.
    """
    supposed = facts.supposed
    assert supposed
    say(section, "h3", "Had the kills happened ", source(supposed.run))
    rows = [
        [
            seconds(kill.time_ns), kill.path, killer(facts, kill),
            *((seconds(it.time_ns), percent(it.was), percent(it.most)) if it else ("-", "-", "-")),
        ]
        for kill, it in supposed.after
    ]  # fmt: skip
    what = f"{facts.subject.path} {RESOURCES[facts.subject.resource]}"
    heads = ["kill at, s", "victim", "by", "looked at, s", f"{what}, % as recorded", "% at most"]
    table(section, "Half a minute after each kill", heads, rows[:SHOWN], 3)
    rest(section, len(rows), "kills")
    axis = time_axis(0, facts.replay.end.time_ns, facts.wall)
    album = Album(supposed.replay, axis, facts.judged.rules if facts.judged else None, None)
    found = album.pressure(*facts.subject, recorded=facts.replay)
    box = add(section, "figure", class_="whatif")
    add(box, "div", class_="scroll").append(album.legend(facts.subject.path, facts.replay))
    add(box, "div", class_="scroll").append(found.svg)
    caption = (
        "Thick what would have been at most: others do what they did, when they did it; thin what"
        " was."
    )
    say(box, "figcaption", caption)
    if supposed.blame:
        shorter_waits(section, supposed, facts.replay.kills[0])
    return found


def shorter_waits(section: Element, supposed: Supposed, victim: Kill) -> None:
    """Adds a table of the waits for a processor that would have been shorter without the victim."""
    keys = ("waited_ns", "while_victim_ran_ns", "less_at_least_ns")
    rows = [[it["group"], *(in_seconds(it[key]) for key in keys)] for it in supposed.blame]
    text = (
        f"Of waits for a processor from {seconds(victim.time_ns)} s on, this much less at least"
        f" without {victim.path} "
    )
    say(section, "p", text, source(supposed.blame_run), ":")
    heads = ["group", "waited", f"while {victim.path} ran", "at least less"]
    table(section, "In s", heads, rows[:SHOWN])
