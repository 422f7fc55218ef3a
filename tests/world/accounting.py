"""Checks of groups whose pressure accounting is switched on and off."""
from __future__ import annotations

from unittest import mock

from harness import must_be
from world.generated import MS, times, played, source_of
from psiconvert import convert as conversion
from psiconvert.convert import Converted, Wanted
from psiread import events as kinds
from psiread.events import Event
from psiread.source import Snapshot
from psiread.waits import Method
from psiread.window import Window


def check_too_many_switches(program: str) -> None:
    """If accounting would be switched too often, the trace ends before that, and the summary says
    so.
    """
    events = [accounting(place * MS, "/a", place % 2 == 0) for place in range(1, 20)]
    with mock.patch.object(conversion, "MOST_SWITCHES", 7):
        found = played(program, source_of(events, Snapshot(0, {"/a": "none"})))
        must_be("the limit", (found.limit, switches_of(found)[-1]),
                ("7 switches of accounting", "6000000 pressure /a off"))
        must_be("the end", found.lines[-1], "6000000 end")


def accounting(time_ns: int, path: str, is_on: bool) -> Event:
    """Returns a marker of the recorder: a sample at `time_ns` found that a group's accounting
    is on or off.
    """
    return kinds.Marker(time_ns, 0, 1,
                        f"psirec accounting {path} {'on' if is_on else 'off'}\n".encode())


def switches_of(found: Converted) -> list[str]:
    """Returns the lines of the trace that switch accounting. Raises unless the trace's version is 2
    if there are such lines, and 1 if not.
    """
    lines = [line for line in found.lines if " pressure " in line]
    must_be("the header", found.lines[0].split(" ")[:2], ["psitrace", "2" if lines else "1"])
    return lines


def check_accounting(program: str) -> None:
    """If a group isn't accounted at the start, its accounting is switched off directly after its
    creation. Each later change has the time of the sample that found it.
    """
    events = [
        accounting(5 * MS, "/a", True),
        accounting(6 * MS, "/a", True),
        accounting(6 * MS, "/a", False),
        accounting(7 * MS, "/nowhere", False),
        accounting(8 * MS, "/", False),
        accounting(9 * MS, "/a/b", False),
        kinds.Wakeup(10 * MS, 0, 1, 1, 0),
    ]
    source = source_of(events,
                       Snapshot(0, {"/": "none", "/a": "none", "/a/b": "none"}, ["/", "/a"]))
    found = played(program, source)
    must_be("lines", found.lines[1:4], ["0 group /a", "0 pressure /a off", "0 group /a/b"])
    of_above = ["0 pressure /a off", "0 pressure /a on", "1000000 pressure /a off"]
    must_be("switches", switches_of(found), [*of_above, "4000000 pressure /a/b off"])
    must_be("which groups", (found.world.switched, found.world.switches), ({"/a", "/a/b"}, 4))
    for start, wanted in (
        (6, ["0 pressure /a off"]), (8, ["0 pressure /a off", "1000000 pressure /a/b off"])
    ):
        part = played(program, source, Wanted(Window(start * MS, 9 * MS), Method.STATE, None, {}))
        must_be(f"of a part from {start} ms on", switches_of(part)[: len(wanted)], wanted)
    part = played(program, source, Wanted(Window(10 * MS, 10 * MS), Method.STATE, None, {}))
    must_be("of a part where both are off", switches_of(part),
            ["0 pressure /a off", "0 pressure /a/b off"])
    of_depth: dict[int, list[str]] = {0: [], 1: of_above}
    for deepest, wanted in of_depth.items():
        folded = played(program, source,
                        Wanted(Window(source.start, source.stop), Method.STATE, deepest, {}))
        must_be(f"of groups down to {deepest}", switches_of(folded), wanted)


def check_accounting_of_groups_that_come(program: str) -> None:
    """A group that is created, or created again, is accounted until a sample finds its accounting
    off.
    """
    at = times()
    events: list[Event] = [
        kinds.GroupRemoved(next(at), 0, 1, 0, b"/a"),
        kinds.GroupMade(next(at), 0, 1, 0, b"/a"),
        accounting(next(at), "/a", False),
        kinds.GroupMade(next(at), 0, 1, 0, b"/a/b"),
        kinds.GroupRemoved(next(at), 0, 1, 0, b"/a"),
        kinds.GroupMade(next(at), 0, 1, 0, b"/a"),
        kinds.Wakeup(next(at), 0, 1, 1, 0),
    ]
    found = played(program, source_of(events, Snapshot(0, {"/a": "none"}, ["/a"])))
    lines = [line for line in found.lines if "/a" in line]
    again = ["0 rmgroup /a", "1000000 group /a", "2000000 pressure /a off", "3000000 group /a/b"]
    must_be("the first", lines[:-1], ["0 group /a", "0 pressure /a off", *again])
    must_be("a group that can't go stands for the next of its path", lines[-1],
            "5000000 pressure /a on")


def check_accounting_before_the_snapshot(program: str) -> None:
    """The snapshot of a flight recorder is later than the recording's start. A group's state at the
    start is computed from the snapshot and from the changes of accounting before it.
    """
    paths, end = ("/a", "/b", "/c", "/d"), kinds.Marker(9 * MS, 0, 1, b"psirec snapshot end\n")
    events: list[Event] = [
        kinds.Wakeup(MS, 0, 1, 1, 0),
        end._replace(time_ns=MS),
        accounting(2 * MS, "/a", True),
        accounting(3 * MS, "/b", False),
        kinds.GroupMade(4 * MS, 0, 1, 0, b"/d"),
        end,
        accounting(10 * MS, "/c", True),
        end._replace(time_ns=11 * MS),
    ]
    found = played(
        program,
        source_of(events, Snapshot(8 * MS, dict.fromkeys(paths, "none"), ["/b", "/c", "/d"])),
    )
    wanted = [
        "0 pressure /a off", "0 pressure /c off", "1000000 pressure /a on",
        "2000000 pressure /b off",
    ]
    must_be("switches", switches_of(found),
            [*wanted, "8000000 pressure /d off", "9000000 pressure /c on"])
