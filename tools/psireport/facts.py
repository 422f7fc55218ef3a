"""Collects the contents of the report from the output of psi_oomd and of the other tools."""
from __future__ import annotations

import hashlib
import json
import os
import re
from collections.abc import Iterator
from datetime import datetime, timezone
from typing import Any, NamedTuple, Optional

from psichart.replay import Replay, read_replay
from psicli.fault import Fault
from psicli.status import ProgramStatus
from psicli.times import SECOND, WallTime, seconds
from psinames.clock import in_zone
from psinames.groups import GroupNames
from psinames.known import known_of
from psireplay.kinds import folder_message
from psireplay.lines import RESOURCES, Kill
from psireplay.rules import unmatched
from psireplay.runs import Done, Runs
from psireplay.sampled import Sampled, sampled
from psireplay.samples import Samples
from psiwhy.by_rules import parts
from psiwhy.explanation import Part
from psiwhy.judged import Asked, Judged
from psiwhy.judged import judge as judged_of

from .reading import Peaks, read_peaks, thin
from .story import After, Stretch, Subject, after, greater_than, stretch_of, subject_of

BEGAN = re.compile(r"psitrace: 0 is (\d{4}-\d\d-\d\d \d\d:\d\d:\d\d)\.(\d{3}) UTC")
# The exit status of tools/compare if a total exceeds its limit, and the exit status of
# tools/psitrace if events were lost.
BEYOND, LOST = 1, 3


class Options(NamedTuple):
    """The parsed command line. Times are in ms or s, as in the names of the options."""

    trace: str
    rules: Optional[str]
    drop_in: Optional[str]
    recording: Optional[str]
    start: Optional[str]
    groups: list[str]
    wall: Optional[WallTime]
    tick_ms: Optional[int]
    interval_s: Optional[int]
    output: Optional[str]
    oomd: Optional[str]
    values: dict[str, Any]

    def rules_words(self) -> list[str]:
        words = [f"--rules={self.rules}"] if self.rules is not None else []
        return words + ([f"--drop-in={self.drop_in}"] if self.drop_in is not None else [])

    def names_words(self) -> list[str]:
        """Returns the command line's options about names, for tools/blame."""
        words = (
            [f"--containers={self.values['containers']}"]
            if self.values["containers"] is not None
            else []
        )
        return words + ["--no-names"] * self.values["no_names"]

    def pace(self) -> list[str]:
        options = (("--tick-ms", self.tick_ms), ("--interval-s", self.interval_s))
        return [f"{name}={value}" for name, value in options if value is not None]


class Recorded(NamedTuple):
    """The results of tools/compare and tools/psitrace on the recording from which the trace was
    made. `is_same` says whether psitrace makes exactly this trace.
    """

    compared: Done
    summary: Done
    is_same: bool


class Supposed(NamedTuple):
    """A replay without the killed groups, by `psi_oomd whatif`, and the output of tools/blame on
    the groups that waited while the first victim ran.
    """

    run: Done
    replay: Replay
    after: list[tuple[Kill, Optional[After]]]
    blame_run: Done
    blame: list[dict[str, Any]]


class Blamed(NamedTuple):
    """The output of tools/blame on the whole trace, and on the subject in its worst stretch of
    time.
    """

    run: Done
    all: dict[str, Any]
    worst_run: Done
    worst: dict[str, Any]


class Facts(NamedTuple):
    """The contents of the report. The replay contains the series of the drawn groups. `subject` is
    the group and the resource that the page is about. `greatest` is the worst stall on the machine
    if that is worse than the subject's, and None if not. `unmatched` contains the patterns that
    match no group.
    """

    options: Options
    replay_run: Done
    replay: Replay
    peaks: Peaks
    subject: Subject
    stretch: Stretch
    greatest: Optional[tuple[Subject, Stretch]]
    unmatched: list[str]
    drawn: list[tuple[str, str]]
    samples: Optional[Samples]
    wall: Optional[WallTime]
    # None for a trace that was made from samples, since samples don't show which tasks ran.
    blamed: Optional[Blamed]
    judged: Optional[Judged]
    # For each ruleset, the explanation of why it fired or didn't.
    parts: list[Part]
    supposed: Optional[Supposed]
    recorded: Optional[Recorded]
    sampled: Optional[Sampled]
    names: GroupNames


def sum_of(path: str) -> str:
    """Returns the SHA-256 of a file, in hexadecimal."""
    found = hashlib.sha256()
    with open(path, "rb") as file:
        while piece := file.read(1 << 20):
            found.update(piece)
    return found.hexdigest()


def sums(facts_of: Options) -> Iterator[tuple[str, str]]:
    """Yields the name and the SHA-256 of each input file."""
    for name in (facts_of.trace, facts_of.rules, facts_of.drop_in):
        if name is not None:
            yield name, sum_of(name)
    for entry in sorted(os.listdir(facts_of.recording)) if facts_of.recording is not None else ():
        name = os.path.join(facts_of.recording or "", entry)
        if os.path.isfile(name):
            yield name, sum_of(name)


def began(summary: str) -> Optional[WallTime]:
    """Returns the time of day at the start of the trace, as in the summary of psitrace. Returns
    None if the summary doesn't contain it.
    """
    found = BEGAN.search(summary)
    if not found:
        return None
    try:
        whole = datetime.strptime(found[1], "%Y-%m-%d %H:%M:%S").replace(tzinfo=timezone.utc)
    except ValueError:
        return None
    return WallTime(int(whole.timestamp()) * SECOND + int(found[2]) * 10**6, 0)


def recorded(runs: Runs, options: Options) -> Optional[Recorded]:
    if options.recording is None:
        return None
    words = [f"--from={options.start}"] if options.start is not None else []
    summary = runs.tool("psitrace", *words, "--", options.recording, taken=(0, LOST))
    found = hashlib.sha256()
    for line in summary.lines():
        found.update(line)
    compared = runs.tool(
        "compare", *words, "--", options.recording, options.trace, taken=(0, BEYOND)
    )
    return Recorded(compared, summary, found.hexdigest() == sum_of(options.trace))


def judge(runs: Runs, options: Options, run: Done) -> Optional[Judged]:
    """Returns the evaluations of the rules. Returns None if the command line names no rules."""
    if options.rules is None:
        return None
    return judged_of(
        runs,
        Asked(
            options.trace, options.rules, options.drop_in, options.tick_ms, options.interval_s
        ),
        run,
    )


def suppose(runs: Runs, options: Options, replay: Replay, subject: Subject) -> Optional[Supposed]:
    """Replays the trace without the killed groups. Returns the results, or None if no group is
    killed.
    """
    if not replay.kills:
        return None
    run = runs.program(
        "whatif", "--report-s=1", *options.rules_words(), *options.pace(), "--", options.trace
    )
    supposed = read_replay(run.lines(), replay.groups)
    kills = [(kill, after(subject, kill, replay, supposed)) for kill in supposed.kills]
    first = replay.kills[0]
    words = [f"--from={seconds(first.time_ns)}"] if first.time_ns < replay.end.time_ns else []
    blamed = runs.tool(
        "blame", *words, f"--victim={first.path}", *options.names_words(), "--json", "--",
        options.trace,
    )
    groups = [it for it in json.loads(blamed.text())["groups"] if it["while_victim_ran_ns"]]
    return Supposed(run, supposed, kills, blamed, groups)


def drawn_of(
    peaks: Peaks, subject: Subject, greatest: Optional[Subject], options: Options
) -> list[tuple[str, str]]:
    """Returns the groups and resources to draw, the subject's first. For each resource these are
    the subject's group, and the groups that the command line names, or those that stalled most if
    it names none.
    """
    resources = [it for it in RESOURCES if it in peaks.resources]
    resources.sort(key=lambda it: it != subject.resource)
    named = options.groups
    found = [
        (path, resource)
        for resource in resources
        for path in (subject.path, *(named or peaks.worst(resource)))
    ]
    first = [(subject.path, subject.resource)] if subject.resource in resources else []
    return list(
        dict.fromkeys([*first, *([(greatest.path, greatest.resource)] if greatest else []), *found])
    )


def stretch_in(replay: Replay, subject: Subject) -> Stretch:
    """Returns the worst stretch of time of the subject's pressure."""
    return (
        stretch_of(replay.series[subject], subject.level)
        if subject in replay.series
        else Stretch(0, 0, 0, 0)
    )


def blamed(runs: Runs, options: Options, *words: str) -> tuple[Done, dict[str, Any]]:
    done = runs.tool("blame", *words, *options.names_words(), "--json", "--", options.trace)
    return done, json.loads(done.text())


def blamed_of(runs: Runs, options: Options, subject: Subject, stretch: Stretch) -> Blamed:
    """Runs tools/blame on the whole trace, and on the subject in its worst stretch of time. Returns
    both results.
    """
    whole = blamed(runs, options)
    words = [f"--group={subject.path}"]
    if stretch.end > stretch.start:
        words += [f"--from={seconds(stretch.start)}", f"--to={seconds(stretch.end)}"]
    return Blamed(*whole, *blamed(runs, options, *words))


def samples_of(options: Options, groups: list[str], end: int) -> Optional[Samples]:
    """Returns the memory samples of the drawn groups. Returns None if the trace contains none."""
    samples = Samples(options.trace, groups, end)
    return (
        samples if any(life.samples for lives in samples.lives.values() for life in lives) else None
    )


def must_be_files(options: Options) -> None:
    """Checks that each input exists and isn't a folder. Raises a Fault that names the first input
    for which this isn't true.
    """
    for what, name in (
        ("trace", options.trace),
        ("rules file", options.rules),
        ("drop-in file", options.drop_in),
    ):
        if name is None:
            continue
        if not os.path.exists(name):
            raise Fault(f"there is no {what} {name}", ProgramStatus.NO_FILE)
        if os.path.isdir(name):
            is_trace = name == options.trace
            said = folder_message(name) if is_trace else f"the {what} {name} is a folder"
            raise Fault(said, ProgramStatus.READ_FAULT)
    if options.recording is not None and not os.path.isdir(options.recording):
        raise Fault(f"the recording {options.recording} isn't a folder", ProgramStatus.NO_FILE)


def zoned(wall: Optional[WallTime], options: Options) -> Optional[WallTime]:
    """Converts a time to the time zone that the command line names."""
    return in_zone(wall, options.values["tz"]) if wall else None


def with_paths(words: list[str], peaks: Peaks, names: GroupNames) -> list[str]:
    """Returns the group paths for the groups that the command line names."""
    paths = sorted({path for path, _, _ in peaks.found})
    return list(dict.fromkeys(names.find(word, paths, "in the replay") for word in words))


def collect(runs: Runs, options: Options) -> Facts:
    """Runs all commands, and returns the contents of the report."""
    must_be_files(options)
    known = recorded(runs, options)
    run = runs.program(
        "replay", "--report-s=1", *options.rules_words(), *options.pace(), "--", options.trace
    )
    peaks = read_peaks(run.lines())
    around = known_of(options.trace, options.values)
    options = options._replace(groups=with_paths(options.groups, peaks, around.groups))
    judged = judge(runs, options, run)
    subject = subject_of(peaks, judged.rules if judged else None, peaks.kills)
    greatest = greater_than(subject, peaks)
    drawn = drawn_of(peaks, subject, greatest, options)
    groups = list(dict.fromkeys(path for path, _ in drawn))
    replay = read_replay(run.lines(), groups)
    mark = sampled(options.trace)
    supposed = suppose(runs, options, replay, subject) if mark is None else None
    stretch = stretch_in(replay, subject)
    more = (greatest, stretch_in(replay, greatest)) if greatest else None
    missing = unmatched(judged.rules.rulesets, replay.rounds.paths | {"/"}) if judged else []
    thin(replay)
    if supposed:
        thin(supposed.replay)
    found = blamed_of(runs, options, subject, stretch) if mark is None else None
    wall = around.wall or (zoned(began(known.summary.said), options) if known else None)
    samples = samples_of(options, groups, replay.end.time_ns)
    why = parts(judged, peaks.kills) if judged else []
    return Facts(
        options, run, replay, peaks, subject, stretch, more, missing, drawn, samples, wall, found,
        judged, why, supposed, known, mark,
        around.groups,
    )  # fmt: skip
