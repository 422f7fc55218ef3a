"""Decodes the records of ring buffers to events, according to the recording's formats."""
from __future__ import annotations

from collections.abc import Callable
from typing import Any, Union

from psirec.layout import Probe

from .events import (
    Attach, AttachProbe, AverageProbe, Event, Exec, FirstWakeup, GroupMade, GroupRemoved,
    Interrupts, Marker, Migration, NewTask,
    ReadyProbe, ShowProbe, StallBegins, StallEnds, Switch, SwitchProbe, Victim, WaitEnds, Wakeup,
)  # fmt: skip
from .formats import Format, FormatFault, integers_of, state_letters, text_at

# A function that decodes a record to an event. Its arguments are the time (ns), the processor, the
# bytes of the pages, and the offsets of the record's start and end.
Decoder = Callable[[int, int, bytes, int, int], Event]

CURRENT = "common_pid"
# The fields that `sched_switch` has in addition to the common fields.
SWITCH = ("prev_pid", "prev_state", "next_pid")

# Creates an event from a tuple of its values. This is three times as fast as the constructor.
made: Any = tuple.__new__

# The events that have only integer fields: the class of each event, and its fields in addition to
# the common ones.
NUMBERS: dict[str, tuple[type, tuple[str, ...]]] = {
    "sched_wakeup": (Wakeup, ("pid", "target_cpu")),
    "sched_wakeup_new": (FirstWakeup, ("pid", "target_cpu")),
    "sched_migrate_task": (Migration, ("pid", "orig_cpu", "dest_cpu")),
    "task_newtask": (NewTask, ("pid", "clone_flags")),
    "sched_process_exec": (Exec, ("pid", "old_pid")),
    "sched_stat_iowait": (WaitEnds, ("pid",)),
    "mark_victim": (Victim, ("pid",)),
    Probe.SWITCH: (SwitchProbe, (Probe.PID, Probe.IO)),
    Probe.STALL_BEGINS: (StallBegins, ()),
    Probe.STALL_ENDS: (StallEnds, (Probe.FLAGS,)),
    Probe.INTERRUPT: (Interrupts, (Probe.DELTA,)),
    Probe.ATTACH: (AttachProbe, (Probe.PID, Probe.ALL)),
    Probe.SHOW: (ShowProbe, (Probe.GROUP, Probe.RES)),
    Probe.AVERAGE: (AverageProbe, (Probe.WORK,)),
    Probe.READY: (ReadyProbe, (Probe.PID,)),
}


def number_decoder(kind: type, form: Format, names: tuple[str, ...]) -> Decoder:
    """Returns a decoder for an event of the class `kind`. The fields `names`, besides the common
    ones, are integers.
    """
    read = integers_of(form, (CURRENT, *names))

    def decode(time_ns: int, processor: int, data: bytes, start: int, end: int) -> Event:
        event: Event = made(kind, (time_ns, processor, *read(data, start)))
        return event

    return decode


def switch_decoder(form: Format) -> Decoder:
    """Returns a decoder for `sched_switch`. It converts the state to its letter."""
    read = integers_of(form, (CURRENT, *SWITCH))
    letters, stays = state_letters(form.print_format)
    known: dict[int, str] = {0: "R"}

    def letter_of(state: int) -> str:
        # As in the kernel's print format, the letter of the lowest set bit counts. It is R if that
        # bit has no letter, or if the bit for `R+` is set.
        lowest = state & -state
        known[state] = "R" if state & stays else letters.get(lowest, "R")
        return known[state]

    def decode(time_ns: int, processor: int, data: bytes, start: int, end: int) -> Event:
        current, previous, state, following = read(data, start)
        letter = known.get(state) or letter_of(state)
        event: Event = made(Switch, (time_ns, processor, current, previous, letter, following))
        return event

    return decode


def group_decoder(kind: Union[type[GroupMade], type[GroupRemoved]], form: Format) -> Decoder:
    """Returns a decoder for `cgroup_mkdir` or `cgroup_rmdir`."""
    read = integers_of(form, (CURRENT, "root"))
    path = form.fields["path"]

    def decode(time_ns: int, processor: int, data: bytes, start: int, end: int) -> Event:
        current, hierarchy = read(data, start)
        return kind(time_ns, processor, current, hierarchy, text_at(data, start, end, path))

    return decode


def attach_decoder(form: Format) -> Decoder:
    """Returns a decoder for `cgroup_attach_task`. It reads the group's path as a text."""
    read = integers_of(form, (CURRENT, "dst_root", "pid"))
    path = form.fields["dst_path"]

    def decode(time_ns: int, processor: int, data: bytes, start: int, end: int) -> Event:
        current, hierarchy, task = read(data, start)
        return Attach(time_ns, processor, current, hierarchy, text_at(data, start, end, path), task)

    return decode


def marker_decoder(form: Format) -> Decoder:
    """Returns a decoder for `print`, the event of a write to `trace_marker`."""
    read = integers_of(form, (CURRENT,))
    text = form.fields["buf"]

    def decode(time_ns: int, processor: int, data: bytes, start: int, end: int) -> Event:
        return Marker(time_ns, processor, read(data, start)[0], text_at(data, start, end, text))

    return decode


def decoder_of(name: str, form: Format) -> Decoder | None:
    """Returns the decoder for the records of an event. Returns None if the event isn't needed."""
    if name in NUMBERS:
        return number_decoder(NUMBERS[name][0], form, NUMBERS[name][1])
    if name == "sched_switch":
        return switch_decoder(form)
    if name == "cgroup_attach_task":
        return attach_decoder(form)
    if name in ("cgroup_mkdir", "cgroup_rmdir"):
        return group_decoder(GroupMade if name == "cgroup_mkdir" else GroupRemoved, form)
    return marker_decoder(form) if name == "print" else None


def decoders_of(formats: dict[str, Format]) -> dict[int, Decoder]:
    """Returns the decoders of all needed events, keyed by the event's number."""
    decoders: dict[int, Decoder] = {}
    for name, form in formats.items():
        try:
            decoder = decoder_of(name, form)
        except KeyError as missing:
            raise FormatFault(f"{name} has no field {missing}") from None
        if decoder:
            decoders[form.number] = decoder
    return decoders
