"""Defines joint states. The joint state of a processor is the part of its tasks' states that
determines the pressure.

Pressure doesn't depend on the number of ready tasks in a group, but only on whether the group has a
ready task. So the joint state is a set of pairs of a group and a kind: the group has at least one
task of that kind on the processor.
"""
from __future__ import annotations

from enum import IntEnum
from typing import NamedTuple

from psiworld.world import How


class Kind(IntEnum):
    """The state of a task, and whether the task is in a memory stall (the bit STALLED). A joint
    state doesn't contain tasks of the kind ASLEEP.
    """

    ASLEEP = 0
    READY = 1
    WAITING = 2  # for IO
    RUNNING = 3
    ASLEEP_STALLED = 4
    READY_STALLED = 5
    WAITING_STALLED = 6
    RUNNING_STALLED = 7


# Masks for a kind: STALLED says whether the task is in a memory stall, and WAY selects its state.
STALLED, WAY = 4, 3
KINDS = len(Kind)
# The state of a task after a switch, by the word in the line of the switch.
LEFT_BY = {
    How.PREEMPT.word: int(Kind.READY),
    How.SLEEP.word: int(Kind.ASLEEP),
    How.WAIT.word: int(Kind.WAITING),
}
# The word in the line of a switch, by the state of the task after the switch.
LEAVES_TO = {kind: word for word, kind in LEFT_BY.items()}


class Element(NamedTuple):
    """A group's path and a kind. The group itself has at least one task of this kind on the
    processor.
    """

    path: str
    kind: Kind


# The joint state of a processor. No element has the kind ASLEEP, and at most one element is
# running.
JointState = frozenset[Element]
IDLE: JointState = frozenset()
