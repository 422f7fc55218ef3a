"""Checks of folding on traces whose times are computed by hand, and of the number of joint states
in a folded trace.

A joint state is a set of task states, by group, that hold on a processor at the same time.
"""
from __future__ import annotations

import random
from typing import Any

from fold.common import folded, lines_between, must_replay_alike, printed
from harness import must, must_be
from psifold import processor
from shared.traces import MS, Maker

SECOND = 1000 * MS
# For a second, two tasks share a processor. They run alternately for 1 ms each, while the other
# task is ready.
IN_TURNS = "psitrace 1 cpus=1\n0 fork 1 / 0\n0 fork 2 / 0\n0 switch 0 1 idle\n" + "".join(
    f"{ms * MS} switch 0 {2 if ms % 2 else 1} preempt\n" for ms in range(1, 1000)
) + "1000000000 end\n"
# A trace in which a task of /a runs for 200 ms while a task of /b is ready. Then the task of /a
# waits for 300 ms, and the other task runs for the first 100 ms of this time. Finally /a is
# removed.
GOES = """psitrace 1 cpus=1
0 group /a
0 group /b
0 fork 1 /a 0
0 fork 2 /b 0
0 switch 0 1 idle
200000000 switch 0 2 iowait
300000000 switch 0 0 sleep
500000000 wake 1 0
500000000 switch 0 1 idle
500000000 switch 0 0 exit
500000000 rmgroup /a
600000000 mem /b 7 0 0
600000000 mem /b 8 0 0
1000000000 mem / 9 0 0
2000000000 end
"""
STALL_OF_GOES = (
    "stall cpu=0 / 300000000 200000000 0 0 200000000 0 500000000\n"
    "stall cpu=0 /b 0 0 0 0 200000000 200000000 300000000\n"
)


def check_windows_by_hand(program: str) -> None:
    """Traces are folded into windows of 1 and 2 s as computed by hand. A second in which tasks run
    alternately becomes one joint state. Times, samples and a removal stay in their windows.
    """
    other, fold = folded(IN_TURNS, SECOND)
    counts = fold.counts.states_before, fold.counts.states_after
    must_be("joint states, before and after", counts, (1, 1))
    must_be("the times of turns", printed(program, other, "stall"),
            b"stall cpu=0 / 0 0 0 0 1000000000 0 1000000000\n")
    must(len(other.splitlines()) <= 7, f"few lines: {other}")
    for window in (SECOND, 2 * SECOND):
        other, _ = folded(GOES, window)
        must_be("the times", printed(program, other, "stall").decode(), STALL_OF_GOES)
        lines = [line for line in other.splitlines() if " mem " in line or "group" in line]
        must_be("what isn't about tasks", lines,
                [line for line in GOES.splitlines() if " mem " in line or "group" in line])
        after = [line for line in lines_between(other, 500 * MS, 2 * SECOND) if " /a" in line]
        must_be("what is of a group after its removal", after, [])
        must_replay_alike("by hand", program, GOES, other, window)


def check_long_quiet(program: str) -> None:
    """Windows without events add no lines to the folded trace, and the states that continue through
    them keep their times.
    """
    trace = (
        "psitrace 1 cpus=2\n0 fork 1 / 0\n0 switch 0 1 idle\n0 switch 0 0 iowait\n"
        "90000000000000 end\n"
    )
    other, _ = folded(trace, SECOND)
    must(len(other.splitlines()) <= 6, other)
    must_be("the times", printed(program, other, "stall"), printed(program, trace, "stall"))


def check_as_many_groups_as_there_may_be(program: str) -> None:
    """A folded trace with 1,024 groups replays like the original. The groups are in nested chains
    whose sums depend on one another.
    """
    paths = [f"/{one}" + "/x" * below for one in range(33) for below in range(31)]
    lines = [f"0 group {path}" for path in paths]
    lines += [f"0 fork {number} {paths[number * 31 - 1]} {number % 4}" for number in range(1, 34)]
    draw, now = random.Random(1), 0
    running: dict[int, int] = {}
    for _ in range(600):
        now += draw.randrange(5 * MS)
        number = draw.randrange(1, 34)
        cpu = number % 4
        if running.get(cpu) != number:
            lines.append(f"{now} switch {cpu} {number} {'preempt' if cpu in running else 'idle'}")
            running[cpu] = number
    trace = "\n".join(["psitrace 1 cpus=4", *lines, f"{now} end\n"])
    other, _ = folded(trace, SECOND)
    must_replay_alike("1,024 groups", program, trace, other, SECOND)


def check_how_many_joint_states_there_are(_: str) -> None:
    """In each window of a processor there is at most one joint state more than there are sums, and
    each sum is off by less than 10 ns. A sum is the time for which a group was in one of its
    states.
    """
    few_of, most = processor.few_of, 0

    def counted(spent: dict[int, int], sums: Any, remainders: Any) -> Any:
        few = few_of(spent, sums, remainders)
        must(len(few.times) <= sums.size + 1, f"{len(few.times)} joint states of {sums.size} sums")
        must_be("the time of all", sum(few.times.values()), sum(spent.values()))
        return few

    setattr(processor, "few_of", counted)
    try:
        for number in range(12):
            for maker in (Busy(number, 1), Maker(number + 500, 2)):
                _, fold = folded(maker.trace(), 2 * maker.tick)
                most = max([most, *(abs(it) for it in fold.check.shortfalls.values())])
    finally:
        setattr(processor, "few_of", few_of)
    must(most < 10, f"a sum is off by {most} ns")


class Busy(Maker):
    """Makes traces of up to 8 processors, with thousands of events at short intervals."""

    TURNS = (2500, 2500)
    FIRST = {
        **Maker.FIRST, "fork": 4, "switch": 30, "wake": 20, "group": 1, "rmgroup": 0, "side": 0,
        "move": 0,
    }
    OFTEN = {1: FIRST, 2: FIRST}

    def pass_time(self) -> None:
        self.now += self.draw.randrange(200_000)
