"""Compares the sums over a whole trace with the stall times that psi_oomd prints."""
from __future__ import annotations

from collections.abc import Iterable

from psicli.fault import Fault
from psicli.status import Status
from psireplay.groups import Group

from .sums import Sums
from .trace import Stalls, States

WHAT = States("wait for IO", "memory stall", "wait for a processor")  # type: ignore[arg-type]
ADVICE = "one of the two is wrong: nothing is printed; please report it, with the trace"


def states_of(parts: list[Sums], processor: int, group: Group) -> States:
    """Returns a group's time (ns) in each state on a processor, summed over all parts of the trace.
    """
    place = processor, group.number
    return States(*(sum(sums.get(place, 0) for sums in kind) for kind in (
        [it.io for it in parts], [it.memory for it in parts], [it.waited for it in parts],
    )))  # fmt: skip


def must_add_up(parts: list[Sums], live: Iterable[Group], cpus: int, expected: Stalls) -> None:
    """Compares the sums of all parts of the trace with `expected`, the times that psi_oomd printed,
    for each processor and each group in `live`. Raises a Fault if a time differs. `live` contains
    the groups that exist at the end of the trace.
    """
    groups = {(processor, group.path): group for processor in range(cpus) for group in live}
    if groups.keys() != expected.keys():
        processor, path = min(groups.keys() ^ expected.keys())
        who = "psi_oomd stall has" if (processor, path) in expected else "this tool has"
        raise Fault(f"only {who} a group {path} on processor {processor}: {ADVICE}", Status.NO_SUM)
    for (processor, path), group in groups.items():
        for what, mine, other in zip(
            WHAT, states_of(parts, processor, group), expected[processor, path]
        ):
            if mine != other:
                where = f"{what} of {path} on processor {processor}"
                sums = f"add up to {mine} ns, and `psi_oomd stall` says {other} ns"
                raise Fault(f"the parts of the {where} {sums}: {ADVICE}", Status.NO_SUM)
