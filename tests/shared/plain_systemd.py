"""Computes the kills of systemd-oomd according to docs/SYSTEMD.md, and makes random traces of
slices. This reference implementation parses the whole trace again at each evaluation. All slices
are watched for swap and for memory pressure, with the same limit.
"""
from __future__ import annotations

import random
import re
from collections.abc import Iterator
from dataclasses import dataclass

SECOND = 10**9
Line = tuple[int, list[str]]
Decision = tuple[int, "str | None", str]


@dataclass
class State:
    """The state of the machine at a time. These fields have a group's path as the key: `made` has
    the number of the trace line that created the group (0 for the root), `samples` its last sample,
    `gone` the scanned pages of removed groups below it, and `wishes` its preference.

    `off` has the groups whose pressure accounting is off, and `homes` the group of each task.
    `host` is the machine's last sample, and `count` the number of samples so far.
    """

    made: dict[str, int]
    samples: dict[str, list[int]]
    gone: dict[str, int]
    wishes: dict[str, str]
    off: set[str]
    homes: dict[str, str]
    host: list[int]
    count: int

    def below(self, path: str) -> list[str]:
        return [it for it in self.made if it != "/" and it.rpartition("/")[0] == path.rstrip("/")]

    def sample(self, path: str) -> list[int] | None:
        """Returns the memory (bytes), the swap (bytes) and the scanned pages of a group: its own
        sample, or the sum of its children's samples. Returns None if there is no sample.
        """
        if path in self.samples or path == "/":
            return self.samples.get(path)
        parts = [it for it in map(self.sample, self.below(path)) if it]
        return [sum(it) for it in zip(*parts, [0, 0, self.gone.get(path, 0)])] if parts else None

    def read(self, path: str) -> list[int] | None:
        """Returns the memory, the swap and the scanned pages of a group as systemd-oomd reads them,
        or None if it can't read them. For the root, only the memory is known.
        """
        found = self.sample(path)
        return [
            found[0] if found else 0, 0, 0
        ] if path == "/" else None if path in self.off else found

    def runs(self, path: str) -> bool:
        return any(path == "/" or f"{it}/".startswith(f"{path}/") for it in self.homes.values())

    def leaves(self) -> list[str]:
        return sorted(it for it in self.made if not self.below(it) and self.read(it) is not None)


def state_at(lines: list[Line], time_ns: int) -> State:
    state, runs = State({"/": 0}, {}, {}, {}, set(), {}, [], 0), "0"
    for number, (at, (verb, *words)) in enumerate(lines, 1):
        if at > time_ns:
            break
        if verb == "group":
            state.made[words[0]] = number
        elif verb == "rmgroup":
            last = state.sample(words[0])
            above = words[0].rpartition("/")[0] or "/"
            state.gone[above] = state.gone.get(above, 0) + (
                last[2] if last else state.gone.get(words[0], 0)
            )
            for table in (state.made, state.samples, state.gone, state.wishes):
                table.pop(words[0], None)  # type: ignore[attr-defined]
            state.off.discard(words[0])
        elif verb == "mem":
            state.samples[words[0]], state.count = [int(it) for it in words[1:]], state.count + 1
        elif verb == "host":
            state.host, state.count = [int(it) for it in words], state.count + 1
        elif verb == "prefer":
            state.wishes[words[0]] = words[1]
        elif verb == "pressure":
            (state.off.discard if words[1] == "on" else state.off.add)(words[0])
        elif verb in ("fork", "move"):
            state.homes[words[0]] = words[1]
        elif verb == "switch":
            if words[2] == "exit":
                del state.homes[runs]
            runs = words[1]
    return state


def first_of(state: State, ranked: list[str]) -> str | None:
    """Returns the first of the ranked candidates. Returns None if there is no candidate, or if the
    first one contains no task.
    """
    return ranked[0] if ranked and state.runs(ranked[0]) else None


def by_swap(lines: list[Line], end: int) -> Iterator[Decision]:
    """Yields the decisions about swap up to `end` (ns). Every 0.15 s there is an evaluation, if
    there is a new sample.
    """
    count, was_told = 0, False
    for now in range(SECOND * 15 // 100, end + 1, SECOND * 15 // 100):
        state = state_at(lines, now)
        if state.count == count:
            continue
        count, root = state.count, state.samples.get("/")
        if not state.host or not root:
            continue
        memory, swap, free = state.host
        if max(0, memory - root[0]) >= memory * 1000 // 10000 or free >= swap * 1000 // 10000:
            was_told = False
            continue
        swaps = {
            path: found[1]
            for path in state.leaves()
            if (found := state.read(path)) and found[1] > swap * 5 // 100
        }
        victim = first_of(
            state, sorted(swaps, key=lambda it: (state.wishes.get(it) == "avoid", -swaps[it], it))
        )
        if victim or not was_told:
            yield now, victim, "swap"
        was_told = victim is None


# The identity of a group: its path, and the number of the trace line that created it.
Key = tuple[str, int]


def rise(lines: list[Line], key: Key, before: dict[Key, int], total: int) -> int:
    """Returns the increase of a group's total of scanned pages since the previous sample, whose
    totals are in `before`. The whole total counts if it has decreased, or if the group was created
    during the trace and has no previous sample.
    """
    old = before.get(key, total if is_first(lines, key) else 0)
    return total - (old if old <= total else 0)


def followed(
    known: list[int | None], now: int, total: int, is_above: bool
) -> list[int | None]:
    """Returns a watched group's record after an evaluation at `now` (ns): the time (ns) since which
    its pressure is above the limit (None if it isn't), its total of scanned pages, and the time
    (ns) at which this total last changed to a value above 0.
    """
    since, scanned, last = known
    last = now if total != scanned and (total > (scanned or 0) or total > 0) else last
    return [(now if since is None else since) if is_above else None, total, last]


def leaves_inside(state: State, watched: dict[Key, int]) -> list[str]:
    """Returns all groups without children that are watched or that are descendants of a watched
    group.
    """
    return [it for it in state.leaves() if any(is_inside(it, key[0]) for key in watched)]


def by_pressure(
    lines: list[Line], end: int, averages: dict[tuple[int, str], int], limit: int, length: int
) -> Iterator[Decision]:
    """Yields the decisions about memory pressure up to `end` (ns), from one evaluation each second.
    """
    known: dict[Key, list[int | None]] = {}
    lost, announced, totals, risen = set[Key](), set[Key](), dict[Key, int](), dict[str, int]()
    count, rests, had = 0, 0, set[Key]()
    for now in range(SECOND, end + 1, SECOND):
        state = state_at(lines, now)
        reads = {key: found for key in state.made.items() if (found := state.read(key[0]))}
        if state.count != count:
            count, before = state.count, totals
            totals = {key: found[2] for key, found in reads.items()}
            risen = {key[0]: rise(lines, key, before, total) for key, total in totals.items()}
        lost |= {(path, number) for path, number in state.made.items() if path in state.off}
        watched = {key: found[2] for key, found in reads.items() if key not in lost}
        known = {
            key: followed(known.get(key) or [None, total if is_first(lines, key) else 0, None],
                          now, total, averages[now, key[0]] > limit)
            for key, total in watched.items()
        }
        announced -= {key for key, it in known.items() if it[0] is None}
        above = {key: it for key, it in known.items() if it[0] is not None}
        targets = sorted(key for key, it in above.items() if now - (it[0] or 0) >= length)
        here = {(it, state.made[it]) for it in leaves_inside(state, watched) if above}
        due = targets if now >= rests else []
        had_before, had = had, set() if due else here
        for key in due:
            last = known[key][2]
            if last is None or now - last > 30 * SECOND:
                if key not in announced:
                    yield now, None, "memory pressure"
                announced.add(key)
                continue
            had, rests = here, now + 15 * SECOND
            announced.discard(key)
            rises = {it: risen[it] for it, number in here & had_before}
            yield now, most_scanned(state, key[0], rises), "memory pressure"
            break


def most_scanned(state: State, above: str, risen: dict[str, int]) -> str | None:
    """Returns the victim among the groups without children that are `above` or below it, or None.
    The victim has the largest rise of scanned pages, or the largest total if its rise is unknown.
    Groups with the preference `avoid` come last.
    """
    inside = [it for it in state.leaves() if is_inside(it, above)]
    found = {it: state.read(it) or [0, 0, 0] for it in inside}
    ranks = {it: risen.get(it, all_[2]) for it, all_ in found.items() if all_[0] or all_[2]}
    return first_of(
        state,
        sorted(
            ranks, key=lambda it: (state.wishes.get(it) == "avoid", -ranks[it], -found[it][0], it)
        ),
    )


def is_inside(path: str, above: str) -> bool:
    return above == "/" or f"{path}/".startswith(f"{above}/")


def is_first(lines: list[Line], key: tuple[str, int]) -> bool:
    """Returns whether a group was created at the start of the trace (time 0), or is the root."""
    return not key[1] or lines[key[1] - 1][0] == 0


def decisions(text: str, printed: str, limit: int, length: int) -> list[Decision]:
    """Returns the decisions for a trace in order of time: the time (ns), the victim (None if there
    is none) and the reason. `printed` is psi_oomd's output for the trace, which contains the
    averages of pressure. A group is a target after its pressure has been above `limit`
    (hundredths of a percent) for `length` ns.
    """
    lines = [(int(it.split()[0]), it.split()[1:]) for it in text.splitlines()[1:-1]]
    end = int(text.splitlines()[-1].split()[0])
    found = re.findall(r"^report (\d+) (\S+) memory\nsome .*\nfull avg10=(\d+)\.(\d\d)", printed,
                       re.MULTILINE)
    averages = {(int(at), path): int(whole + part) for at, path, whole, part in found}
    return sorted([*by_swap(lines, end), *by_pressure(lines, end, averages, limit, length)],
                  key=lambda it: it[0])


def is_empty(path: str, others: list[str]) -> bool:
    """Returns whether the group `path` contains no other group and no task. `others` has the paths
    of all groups and of the groups of all tasks.
    """
    return sum(it.startswith(path) for it in others) == 1


def random_trace(seed: int) -> str:
    """Returns a random trace of slices with memory stalls. Many events occur at evaluations."""
    draw, time_ns, scanned, homes = random.Random(seed), 0, {"/": 0}, dict[int, str]()
    lines, runs, is_stalled, label = ["0 host 1000 1000 500", "0 mem / 500 0 0"], 0, False, 0
    for _ in range(200):
        time_ns += draw.choice((0, 0, 0, SECOND // 4, SECOND // 20 * 3, SECOND))
        kind, path = draw.random(), draw.choice(list(scanned))
        inner = f"{path.rstrip('/')}/{draw.choice('ab')}.slice"
        if kind < 0.15 and inner not in scanned and inner.count("/") < 4:
            scanned[inner] = 0
            lines.append(f"{time_ns} group {inner}")
        elif kind < 0.2 and path != "/" and is_empty(path, [*homes.values(), *scanned]):
            del scanned[path]
            lines.append(f"{time_ns} rmgroup {path}")
        elif kind < 0.32:
            label += 1
            homes[label] = path
            lines.append(f"{time_ns} fork {label} {path} 0")
        elif kind < 0.4 and homes and not runs:
            runs = draw.choice(list(homes))
            lines.append(f"{time_ns} switch 0 {runs} idle")
        elif kind < 0.5 and runs and (is_stalled or draw.random() < 0.8):
            is_stalled = not is_stalled
            lines.append(f"{time_ns} {'stall' if is_stalled else 'unstall'} {runs}")
        elif kind < 0.52 and runs and not is_stalled:
            lines.append(f"{time_ns} switch 0 0 exit")
            del homes[runs]
            runs = 0
        elif kind < 0.56 and path != "/":
            lines.append(f"{time_ns} pressure {path} {draw.choice(('on', 'off', 'on'))}")
        elif kind < 0.6:
            lines.append(f"{time_ns} prefer {path} {draw.choice(('avoid', 'none', 'prefer'))}")
        elif kind < 0.68:
            lines.append(f"{time_ns} host 1000 1000 {draw.choice((0, 50, 99, 100, 500))}")
            lines.append(f"{time_ns} mem / {draw.choice((899, 901, 950))} 0 0")
        elif kind < 0.97 and path != "/":
            scanned[path] += draw.randrange(3)
            sizes = f"{draw.randrange(5)} {draw.randrange(200)}"
            lines.append(f"{time_ns} mem {path} {sizes} {scanned[path]}")
    return "\n".join(["psitrace 2 cpus=1", *lines, f"{time_ns + SECOND} end\n"])
