"""Reads the names of tasks from a processor's records. A switch contains the name of the task that
leaves the processor, and an exec contains the name of the executed file.
"""
from __future__ import annotations

from typing import Any, NamedTuple, Optional

from .events import Event, Exec, Named
from .formats import Field, Format, text_at

# The largest length (bytes) of a task's name, without the terminating zero (TASK_COMM_LEN of
# Linux).
MOST_NAME = 15


class NameFields(NamedTuple):
    """The positions of names in records. `switch` is the number of the event `sched_switch`, and
    `start` and `end` are the offsets (bytes) of the name in its records. `exec` is the number of
    `sched_process_exec`, and `file` the field with the executed file's name.
    """

    switch: int
    start: int
    end: int
    exec: int
    file: Optional[Field]


def name_fields(forms: dict[str, Format]) -> NameFields:
    """Returns the positions of names, according to the recording's formats. The number of an event
    that the recording lacks is -1.
    """
    switch, exec_ = forms.get("sched_switch"), forms.get("sched_process_exec")
    name = switch.fields.get("prev_comm") if switch else None
    file = exec_.fields.get("filename") if exec_ else None
    numbers = switch.number if switch and name else -1, exec_.number if exec_ and file else -1
    start = name.offset if name else 0
    return NameFields(numbers[0], start, start + (name.size if name else 0), numbers[1], file)


class Names:
    """The names of tasks in one processor's records so far."""

    def __init__(self, fields: NameFields) -> None:
        self.fields = fields
        self.switch, self.exec = fields.switch, fields.exec
        self.start, self.end = fields.start, fields.end
        self.known: dict[int, bytes] = {}

    def of_switch(self, event: Any, data: bytes, at: int) -> Optional[Named]:
        """Returns the name of the task that leaves the processor by this switch. Returns None if
        the name is already known. `at` is the offset of the record in `data`.
        """
        name = data[at + self.start : at + self.end]
        task = event[3]
        if self.known.get(task) == name:
            return None
        self.known[task] = name
        if not task:
            return None
        text = name.partition(b"\0")[0]
        return Named(event.time_ns, event.processor, event.current, task, text)

    def of_exec(self, event: Event, data: bytes, at: int, end: int) -> Optional[Named]:
        """Returns the name that a task gets by exec: the name of the executed file. A script may
        get another name, which the task's next switch shows.
        """
        assert isinstance(event, Exec) and self.fields.file
        name = text_at(data, at, end, self.fields.file).rpartition(b"/")[2][:MOST_NAME]
        if not name:
            return None
        return Named(event.time_ns, event.processor, event.current, event.task, name)

    def of(self, number: int, event: Event, data: bytes, at: int, end: int) -> Optional[Named]:
        """Returns the new name in the record of an event. `number` identifies the kind of event.
        Returns None if there is no new name.
        """
        if number == self.switch:
            return self.of_switch(event, data, at)
        return self.of_exec(event, data, at, end) if number == self.exec else None
