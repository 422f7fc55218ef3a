"""Lists the groups that systemd-oomd may kill, with the values by which it ranks them."""
from __future__ import annotations

from collections.abc import Iterable, Iterator

from psireplay.groups import Group, Sample
from psireplay.world import World, Task
from psisystemd.settings import Settings
from psisystemd.told import Candidate
from psiworld.groups import ROOT


def is_below(path: str, above: str) -> bool:
    """Returns whether `path` is `above` or a descendant of `above`."""
    return above == ROOT or path == above or path.startswith(f"{above}/")


def memory_of(group: Group) -> Sample | None:
    """Returns a group's memory as systemd-oomd reads it. Swap and scans of the root are 0. Returns
    None if systemd-oomd can't read it: the group has no memory controller, or has no pressure files
    because its accounting is off.
    """
    sample = group.whole_sample()
    if group.path == ROOT:
        return Sample(sample.memory if sample else 0, 0, 0)
    return sample if group.is_accounted else None


def leaves(group: Group, settings: Settings) -> Iterator[Group]:
    """Yields the candidates of a watched group: its descendants without children, and its
    descendants that are killed as a whole (memory.oom.group). A watched group without children is
    its own candidate.
    """
    if not group.children:
        yield group
    for child in group.children.values():
        if settings.is_whole(child.path):
            yield child
        else:
            yield from leaves(child, settings)


def preference(group: Group, settings: Settings, above: str) -> str:
    """Returns a candidate's preference. Returns `none` unless the candidate's owner is root, or
    also owns the watched group `above`.
    """
    if settings.owner(group.path) not in (0, settings.owner(above)):
        return "none"
    return settings.preference(group.path, group.preference)


def candidates_of(
    world: World[Task], settings: Settings, watched: Iterable[str]
) -> dict[str, Group]:
    """Returns the candidates of all watched groups, by path. Omits groups whose memory systemd-oomd
    can't read.
    """
    found = (
        it
        for path in watched
        if path in world.live
        for it in leaves(world.live[path], settings)
    )
    return {it.path: it for it in found if memory_of(it)}


def gathered(
    candidates: dict[str, Group], settings: Settings, above: str, risen: dict[Group, int]
) -> list[Candidate]:
    """Returns the candidates among the group `above` and its descendants, sorted by path. `risen`
    contains the number of scanned pages by which each group is ranked. For a group that isn't in
    `risen`, all pages that the group ever scanned count.
    """
    found = []
    for path, group in sorted(candidates.items()):
        sample = memory_of(group)
        if sample and is_below(path, above):
            wish = preference(group, settings, above)
            nothing = "neither memory nor scans" if not sample.memory and not sample.scanned else ""
            passed_over = "omit" if wish == "omit" else nothing
            is_new = group not in risen
            scanned = risen.get(group, sample.scanned)
            found.append(
                Candidate(path, scanned, sample.memory, sample.swap, wish, passed_over, is_new)
            )
    return found


def is_avoided(candidate: Candidate) -> bool:
    """Returns whether the candidate has the preference `avoid`. Such candidates rank after all
    others.
    """
    return candidate.preference == "avoid"
