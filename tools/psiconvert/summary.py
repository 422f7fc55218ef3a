"""Formats the report of a conversion: the size of the trace, how waits for IO were recognized, and
what was repaired or lost.
"""
from __future__ import annotations

from datetime import datetime, timezone

from psicli.times import SECOND, seconds_to_ms
from psiread.source import Source
from psiread.waits import Method
from psiread.window import Window
from psiworld.groups import ROOT
from psiworld.world import World

from .convert import Converted

# The time (s) after which an average that began at 0 is meaningful: three times its period.
SETTLED_10, SETTLED_60 = 30, 180


def utc_text(realtime: int) -> str:
    """Formats a time (ns since 1970) as date and time of day in UTC."""
    try:
        whole = datetime.fromtimestamp(realtime // SECOND, timezone.utc)
    except (OverflowError, ValueError, OSError):
        return "unknown: meta has a time of day that there isn't"
    return f"{whole:%Y-%m-%d %H:%M:%S}.{realtime % SECOND // 10**6:03} UTC"


def waits_text(method: Method, converted: Converted) -> str:
    """Returns the line that says how waits for IO were recognized, and how reliable that method is.
    """
    if method is Method.STATE:
        return (
            f"waits for IO by state D alone: all {converted.uninterruptible} such sleeps count, on"
            " a journaling file system up to 3.5 times too long"
        )
    way = "psi's own mark" if method is Method.PROBE else "sched_stat_iowait"
    return (
        f"waits for IO by {way}: {converted.waits}; sleeps in state D: {converted.uninterruptible}"
    )


def exact_seconds(time_ns: int) -> str:
    """Formats a time (ns) in seconds, with nine decimals."""
    return f"{time_ns // SECOND}.{time_ns % SECOND:09}"


def counted(found: dict[str, int]) -> str:
    """Formats counts by kind, the largest count first."""
    return ", ".join(
        f"{kind} {count}"
        for kind, count in sorted(found.items(), key=lambda it: (-it[1], it[0]))
        if count
    )


def whole_lines(source: Source, converted: Converted, window: Window, whole: Window) -> list[str]:
    """Returns the lines about the trace's size and time."""
    groups, count = converted.world.groups.made, len(
        converted.lines if converted.folded is None else converted.folded
    )
    lines = [
        f"{seconds_to_ms(converted.world.now)} s, processors {source.processors}, groups {groups},"
        f" lines {count}"
    ]
    if window != whole:
        start = window.start - whole.start
        end = start + converted.world.now - converted.begins
        lines.append(
            f"of {seconds_to_ms(whole.length())} s: --from {exact_seconds(start)} --to"
            f" {exact_seconds(end)}"
        )
    if source.realtime is not None:
        lines.append(f"0 is {utc_text(window.start - converted.begins + source.realtime)}")
    return lines


def accounting_lines(source: Source, world: World) -> list[str]:
    """Returns the lines about groups that weren't accounted."""
    lines = []
    if ROOT in source.snapshot.unaccounted:
        lines.append("the machine doesn't account the root, a trace does")
    if world.switches:
        version = "so it has version 2" + (
            "" if world.has_interrupts else ", without times of interrupts"
        )
        groups = ", ".join(sorted(world.switched))
        lines.append(
            f"not accounted all the time: {groups}: lines `pressure` {world.switches}, {version}"
        )
    return lines


def note_lines(source: Source, converted: Converted) -> list[str]:
    """Returns the lines about facts that a trace can't express, or expresses differently."""
    lines = list(source.notes)
    omitted = [
        path for path, preference in sorted(source.snapshot.groups.items()) if preference == "omit"
    ]
    if omitted:
        lines.append(f"omit is told as avoid: {', '.join(omitted)}")
    lines += accounting_lines(source, converted.world)
    if converted.counts["psi_account_irqtime"] and not converted.world.has_interrupts:
        lines.append(
            "times of interrupts are left out: --interrupts writes them, into a trace of version 2"
        )
    lines += [
        f"the kernel's own killer chose task {task} at {seconds_to_ms(time_ns)} s"
        for time_ns, task in converted.victims
    ]
    return lines


def summary_of(
    source: Source, converted: Converted, method: Method, window: Window, whole: Window
) -> list[str]:
    """Returns the whole report except the lines about losses and limits. If no line mentions
    repairs, nothing was repaired.
    """
    mended = {**source.mended, **converted.world.mended}
    return [
        *whole_lines(source, converted, window, whole),
        f"events: {counted(converted.counts)}",
        waits_text(method, converted),
        *note_lines(source, converted),
        *(f"mended: {kind}: {count}" for kind, count in sorted(mended.items()) if count),
        *past_lines(converted),
    ]


def other_way(converted: Converted) -> str:
    """Returns additional advice if the trace reached the limit of events, or else an empty string.
    """
    if not converted.limit or not converted.limit.endswith(" events"):
        return ""
    if converted.folded is not None:
        return ", and --fold with a longer window and --groups make it smaller"
    return (
        ", and --fold 1 makes a trace as long as the recording, with the same pressure at ticks of"
        " a second"
    )


def past_lines(converted: Converted) -> list[str]:
    """Returns the lines about the averages at the beginning of the recording."""
    if not converted.begins:
        settled = f"avg10 means something from {SETTLED_10} s on, avg60 from {SETTLED_60} s on"
        return [f"averages begin at 0, as the machine's didn't: {settled}"]
    lines = [
        f"the recording begins at {seconds_to_ms(converted.begins)} s: what is before is made up,"
        " so that averages begin as the machine's"
    ]
    if converted.without_past:
        lines.append(
            "lead-in: groups whose averages begin at 0, since there are too few processors for"
            f" more: {converted.without_past}"
        )
    return lines


def limit_lines(source: Source, converted: Converted) -> list[str]:
    """Returns the lines about limits of traces that were reached."""
    lines = [
        f"limit: {why}: {len(paths)} folded into the group above, first {paths[0]}; --groups sets"
        " how deep groups go"
        for why, paths in sorted(converted.world.groups.limits.items())
    ]
    if converted.limit:
        end = seconds_to_ms(converted.world.now)
        lines.append(
            f"limit: more than {converted.limit}: what comes after {end} s; --from and --to"
            f" cut{other_way(converted)}"
        )
    return lines
