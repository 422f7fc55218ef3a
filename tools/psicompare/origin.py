"""Checks that a trace was made from a recording, since a comparison with another machine is
meaningless. The processors, groups and length of the trace must be those of the recording, and its
switches must be at the times of the recording's switches.
"""
from __future__ import annotations

import os

from psicli.times import seconds_to_ms
from psiread.events import Attach, GroupMade, Switch
from psiread.kinds import is_trace
from psiread.source import Source, Unreadable
from psireplay.trace import cpus_in, events_of, groups_of
from psirec.layout import escaped_path
from psiworld.groups import ROOT, prefixes_of

# A trace may be longer than the rest of its recording by at most this time (ns).
SLACK = 10**9
# The smallest share of a trace's switches that must be at times of the recording's switches. Some
# switches have no event in the recording: the converter may run a task for zero time, so that the
# task can sleep, wait or exit.
LEAST_SHARE = 0.5


def must_be_in_order(folder: str, trace: str) -> None:
    """Raises a Fault if the folder and the trace are swapped on the command line."""
    if os.path.isdir(trace) and is_trace(folder):
        raise Unreadable(f"the words are swapped: compare {trace} {folder}")


def processors_of(trace: str) -> int:
    """Returns the number of a trace's processors, or 0 if the trace has no header."""
    try:
        with open(trace, "rb") as file:
            return cpus_in(file) or 0
    except OSError as fault:
        raise Unreadable(f"{trace}: {fault.strerror}") from None


def must_be_of(source: Source, trace: str, start: int, length: int, lead_in: int) -> None:
    """Raises Unreadable if the trace has a different number of processors, or groups that the
    recording doesn't have, or if it is longer than the rest of the recording from `start` on. A
    trace with a warm-up (`lead_in`) may have additional processors. Times are in ns.
    """
    processors = processors_of(trace)
    if processors < source.processors or (processors > source.processors and not lead_in):
        raise Unreadable(
            other(trace, f"it has {processors} processors, and the recording {source.processors}")
        )
    rest = source.stop - start
    if length > rest + SLACK:
        raise Unreadable(
            other(
                trace,
                (
                    f"it lasts {seconds_to_ms(length)} s, and the recording"
                    f" {seconds_to_ms(max(rest, 0))} s from there on"
                ),
            )
        )
    unknown = groups_of(trace) - groups_in(source)
    if unknown:
        raise Unreadable(other(trace, f"the recording has no group {min(unknown)}"))


def groups_in(source: Source) -> set[str]:
    """Returns the paths of all groups that a recording names, and of their ancestors."""
    created = {
        escaped_path(event.path)
        for event in source.events
        if isinstance(event, (GroupMade, Attach))
    }
    named = {
        *source.snapshot.groups,
        *(task.path for task in source.snapshot.tasks.values()),
        *created,
    }
    return {ROOT, *(above for path in named for above in prefixes_of(path))}


def must_have_switches_of(source: Source, trace: str, start: int, lead_in: int) -> None:
    """Rejects a trace if too few of its switches after the warm-up are at times of the recording's
    switches. Times are in ns.
    """
    times = {event.time_ns - start for event in source.events if isinstance(event, Switch)}
    found = count = 0
    for time_ns, verb, _ in events_of(trace):
        if verb == "switch" and time_ns > lead_in:
            count += 1
            found += time_ns in times
    if found < LEAST_SHARE * count:
        why = f"{found} of its {count} switches are at times of the recording's"
        raise Unreadable(
            other(
                trace,
                f"{why}. Was it made with --from, or folded (--tick-ms compares a folded one)?",
            )
        )


def other(trace: str, why: str) -> str:
    """Returns the message that a trace doesn't belong to this recording."""
    return f"{trace}: this trace isn't of this recording: {why}"
