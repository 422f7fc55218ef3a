"""The title, the first sentences and the time lines of the report, and what all sections share."""
from __future__ import annotations

from typing import NamedTuple

from psichart.axes import time_axis
from psichart.svg import add
from psicli.times import seconds
from psireplay.lines import Kill
from psireplay.runs import Done
from psireplay.sampled import Sampled
from psiwhy.by_rules import verdict
from psiwhy.judged import Judged
from psiwhy.nearness import share
from psiwhy.truths import Place

from .facts import Facts
from .html import Element, Words, folded, say, table, word
from .pictures import Album, Picture
from .story import After, caveat, early, machine_sentence, percent

SHOWN = 8
# The number of pictures of each resource that are printed on paper.
PRINTED = 2
# The number of rows in a picture's table.
ROWS = 12
RESOURCES = {
    "io": "IO", "memory": "memory", "cpu": "CPU", "irq": "interrupts", "use": "memory in use"
}  # fmt: skip
PRESSURES = {
    "io": "IO pressure", "memory": "memory pressure", "cpu": "CPU pressure",
    "irq": "interrupt pressure",
}  # fmt: skip


def source(run: Done) -> Element:
    """Returns a link to the command whose output supports a statement."""
    number_ = run.number
    label = f"by command {number_}"
    return word("a", f"[{number_}]", href=f"#command-{number_}", class_="from", aria_label=label)


def in_seconds(ns: int) -> str:
    return f"{(ns + 500_000) // 10**6 / 1000:.3f}"


def rest(section: Element, many: int, what: str) -> None:
    if many > SHOWN:
        say(section, "p", f"and {many - SHOWN} more {what}", class_="soft")


def killer(facts: Facts, kill: Kill) -> str:
    """Returns a text that names the ruleset which made a kill."""
    name = f" ‘{facts.judged.rules.killer(kill).ruleset}’" if facts.judged else ""
    return f"Ruleset {kill.ruleset}{name}"


# ---------------------------------------------------------------- 1. the first sentences


def sampling(mark: Sampled) -> str:
    """Returns the start of the first sentence for a trace that was made from samples. It says what
    such a trace can't show.
    """
    what = "so that short stalls may be missed and nobody knows who ran when: "
    return f"By {mark.interval()}, {what}"


def lead(facts: Facts) -> list[Words]:
    """Returns the first sentences of the page: what happened on the machine, and what the rules
    would have done about it.
    """
    end, run = facts.replay.end.time_ns, facts.replay_run
    found: list[Words] = [sampling(facts.sampled)] if facts.sampled else []
    if facts.greatest:
        found += [machine_sentence(*facts.greatest, end, caveat(end)) + " ", source(run), " "]
        aside = ", which the rules watch,"
        said = machine_sentence(facts.subject, facts.stretch, end, "", aside)
    else:
        said = machine_sentence(facts.subject, facts.stretch, end, caveat(end))
    found += [said + " ", source(run)]
    kills = facts.replay.kills
    if not facts.judged:
        return found
    if not kills:
        nobody = f" The rules would have killed nobody{early(end)} "
        why = f"; {verdict(facts.judged, facts.parts)}."
        return [*found, nobody, source(facts.judged.run), why]
    first = kills[0]
    more = f" (the first of {len(kills)} kills)" if len(kills) > 1 else ""
    at = f"{seconds(first.time_ns)} s{more}{early(first.time_ns)}"
    who = killer(facts, first)
    found += [f" {who} would have killed {first.path} at {at} ", source(facts.judged.run)]
    later = facts.supposed.after[0][1] if facts.supposed and facts.supposed.after else None
    if not later or not facts.supposed:
        return [*found, "."]
    return [*found, f"; {outcome(facts.subject.path, later)} ", source(facts.supposed.run), "."]


def outcome(path: str, later: After) -> str:
    """Returns a sentence that says how the first kill would have changed a group's pressure."""
    was, most, at = percent(later.was), percent(later.most), f"at {seconds(later.time_ns)} s"
    if was != most:
        return f"without it {path} would have had at most {most} percent in place of {was} {at}"
    if later.was_over:
        return "the kill would have changed nothing: the stall was over"
    same = f"{path} would have had {was} percent {at} all the same"
    return f"the kill would have changed nothing: {same}"


def title(facts: Facts) -> str:
    """Returns the title of the page. It names the group that stalled most, and the group that the
    rules check.
    """
    subjects = [facts.greatest[0], facts.subject] if facts.greatest else [facts.subject]
    kinds = [PRESSURES[it.resource] for it in subjects]
    if len(subjects) == 2 and kinds[0] == kinds[1]:
        return f"Incident: {kinds[0]} of {subjects[0].path} and {subjects[1].path}"
    return "Incident: " + ", ".join(f"{kind} of {it.path}" for kind, it in zip(kinds, subjects))


def notes(page: Element, facts: Facts) -> None:
    """Adds a warning for each pattern in the rules that matches no group of the trace."""
    for what in facts.unmatched:
        text = f"No group of the trace matches {what}: there the rules can do nothing."
        say(page, "p", text, class_="note")


class Near(NamedTuple):
    """How near a ruleset came to firing: the largest number of detectors in a group that were true
    at once, the number of detectors in that group, and the first time (ns) at which this happened.
    """

    true: int
    many: int
    time_ns: int

    @property
    def part(self) -> float:
        return self.true / self.many if self.many else 0.0


def nearness(judged: Judged, number_: int) -> Near:
    """Returns how near a ruleset came to firing. A group without detectors is always true, so each
    group of a ruleset that never fired has detectors.
    """
    best = Near(0, 0, 0)
    for place, (_, *detectors) in enumerate(judged.json[number_]["detectors"]):
        true = [set(judged.truths[Place(number_, place, which)]) for which in range(len(detectors))]
        found = [
            Near(sum(time_ns in it for it in true), len(detectors), time_ns)
            for time_ns in judged.evaluations
        ]
        best = max([best, *found], key=lambda it: (it.part, it.many > 0))
    return best


# ---------------------------------------------------------------- 2. the time lines


def stretches_of(picture: Picture) -> list[list[str]]:
    """Returns the rows of a picture's table. Each row contains the highest values in one of several
    equal parts of the time.
    """
    times_ms = [(place, it) for place, it in enumerate(picture.data["t"]) if it is not None]
    if not times_ms:
        return []
    start, end = times_ms[0][1], times_ms[-1][1] + 1
    rows = []
    for row in range(ROWS):
        low, high = (start + (end - start) * it // ROWS for it in (row, row + 1))
        places = [place for place, time_ms in times_ms if low <= time_ms < high]
        if places:
            series = picture.data["s"].values()
            cells = [number(max(values[it] for it in places), picture) for values in series]
            rows.append([f"{low / 1000:g} to {high / 1000:g}", *cells])
    return rows


def number(value: int, picture: Picture) -> str:
    return f"{value / 2**20:.1f}" if picture.resource == "use" else share(value)


def figure(parent: Element, picture: Picture, number_: int, is_printed: bool) -> None:
    """Adds a picture and a table of its values. Between them is a line in which the script shows
    the values at a certain time.
    """
    found = add(parent, "figure", class_="" if is_printed else "more", data_panel=str(number_))
    found.attrib.update({"data-group": picture.path, "data-resource": picture.resource})
    box = add(found, "div", class_="scroll")
    box.append(picture.svg)
    add(found, "p", "", class_="values", aria_live="polite")
    unit = "MiB" if picture.resource == "use" else "percent"
    heads = ["seconds", *(look.replace("-use", "") for look in picture.data["s"])]
    caption = f"{picture.name}: highest of each stretch, in {unit}"
    table(folded(found, f"Table: {picture.name}"), caption, heads, stretches_of(picture))


def controls(parent: Element, pictures: list[Picture], first: set[str]) -> None:
    """Adds the controls that select the groups and resources of the pictures. The controls are
    hidden until the script shows them.
    """
    box = add(parent, "div", class_="controls")
    for legend, name, values in (
        ("Groups", "group", {it.path: it.path for it in pictures}),
        ("Resources", "resource", {it.resource: RESOURCES[it.resource] for it in pictures}),
    ):
        fields = add(box, "fieldset")
        say(fields, "legend", legend)
        for value, text in values.items():
            label = add(fields, "label")
            box_ = add(label, "input", type="checkbox", name=name, value=value)
            box_.tail = f" {text}"
            if name == "resource" or value in first:
                box_.set("checked", "")
    line = say(box, "span", "Time: ", word("output", "", id="time"), " ")
    add(line, "button", "all of it", type="button", id="whole")
    hint = (
        " Drag to zoom. On a picture: arrow keys move to a moment, + and − zoom, Escape shows all."
    )
    say(line, "span", hint, class_="hint")


def time_lines(page: Element, facts: Facts) -> list[Picture]:
    """Adds the section with the time lines, and returns its pictures. The first pictures show the
    pressure of the drawn groups for each resource, and the others show these groups' memory.
    """
    axis = time_axis(0, facts.replay.end.time_ns, facts.wall)
    album = Album(facts.replay, axis, facts.judged.rules if facts.judged else None, facts.samples)
    pictures = [album.pressure(*which) for which in facts.drawn if which in facts.replay.series]
    for path in dict.fromkeys(path for path, _ in facts.drawn):
        if facts.samples and any(life.samples for life in facts.samples.lives[path]):
            pictures.append(album.memory(path))
    section = add(page, "section", id="time-lines")
    say(section, "h2", "What happened when")
    if not pictures:
        say(section, "p", "The trace has no tick, so there is no report to draw.")
        return []
    what = " by the clock" if facts.wall else " in seconds since the start of the trace"
    text = f"The groups that stalled most{what}: shares of time over 10, 60 and 300 seconds "
    say(section, "p", text, source(facts.replay_run), ".", class_="soft")
    controls(section, pictures, {facts.subject.path, *(it.path for it in facts.replay.kills)})
    add(add(section, "figure"), "div", class_="scroll").append(album.legend(facts.subject.path))
    box = add(section, "div", class_="pictures")
    seen: dict[str, int] = {}
    for place, picture in enumerate(pictures):
        seen[picture.resource] = seen.get(picture.resource, 0) + 1
        figure(box, picture, place, seen[picture.resource] <= PRINTED)
    return pictures
