"""Finds the groups whose pressure the machine didn't account, and each change of that setting. The
snapshot lists the groups that weren't accounted. Markers of the recorder report each change since
the previous sample.
"""
from __future__ import annotations

from collections.abc import Sequence
from typing import NamedTuple

from psiread.events import Event, GroupMade, GroupRemoved, Marker
from psiread.source import Snapshot
from psirec.layout import MARK, SNAPSHOT_ENDS, escaped_path


class Account(NamedTuple):
    """A group's path as in a trace, and whether the machine accounted the group's pressure."""

    path: str
    is_on: bool


class Accounts(NamedTuple):
    """`off` contains the groups that weren't accounted when the recording began. `found` contains
    the changes that events report, keyed by the event's index.
    """

    off: set[str]
    found: dict[int, list[Account]]


def account_in(event: Event) -> Account | None:
    """Returns the change that a marker reports. Returns None if the event isn't such a marker."""
    text = event.text if isinstance(event, Marker) else b""
    words = (
        text.decode("utf-8", "surrogateescape")[len(MARK) :].split()
        if text.startswith(MARK.encode())
        else []
    )
    if len(words) != 3 or words[0] != "accounting" or words[2] not in ("on", "off"):
        return None
    return Account(escaped_path(words[1].encode("utf-8", "surrogateescape")), words[2] == "on")


def is_end_of(snapshot: Snapshot, event: Event) -> bool:
    """Returns whether this event is the marker that the recorder wrote at the end of `snapshot` or
    of a later snapshot.
    """
    is_end = isinstance(event, Marker) and event.text.startswith((MARK + SNAPSHOT_ENDS).encode())
    return is_end and event.time_ns >= snapshot.time_ns


def accounts_of(events: Sequence[Event], snapshot: Snapshot) -> Accounts:
    """Returns the groups that weren't accounted, and all changes in a recording.

    The snapshot may be up to a minute younger than the start of the recording. If the first event
    that names a group reports a change, the group had the opposite setting at the start. A group
    that was created during the recording was accounted at first.
    """
    unaccounted, off = set(snapshot.unaccounted), set(snapshot.unaccounted)
    found: dict[int, list[Account]] = {}
    named: set[str] = set()
    is_listed = False
    for place, event in enumerate(events):
        account = account_in(event)
        if account:
            found[place] = [account]
            if account.path not in named:
                (off.add if account.is_on else off.discard)(account.path)
            named.add(account.path)
        elif isinstance(event, (GroupMade, GroupRemoved)) and not event.hierarchy:
            named.add(escaped_path(event.path))
        elif not is_listed and is_end_of(snapshot, event):
            is_listed = True
            found[place] = [Account(path, path not in unaccounted) for path in snapshot.groups]
    return Accounts(off, found)
