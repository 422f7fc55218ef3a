"""Emulates oomd's engine: rulesets with their detectors, their chains of actions, and their pauses.
"""
from __future__ import annotations

from collections.abc import Callable, Sequence
from dataclasses import dataclass, field

from psioomd.arguments import ANON, ARGUMENTS, values
from psioomd.configuration import Configuration, PluginUse, RulesetUse
from psioomd.detectors import (
    Above,
    Constant,
    Dying,
    Exists,
    MemoryAbove,
    Reclaim,
    Rising,
    SwapFree,
)
from psicli.times import SECOND, time_text
from psicli.wording import quoted
from psioomd.faults import Crash, Refused
from psioomd.killers import ByPressure, ByScans, BySize, BySwap, Killer
from psioomd.machine import Machine
from psioomd.numbers import BadNumber, stoi
from psioomd.outcome import Act, Decision, Fired, Source
from psioomd.plugin import Look, Pauses, Plugin, Result
from psireplay.groups import Group, Host

DEFAULT_DELAY = 15
DECAY = 4.0
HOOKS = ("dummy_prekill_hook",)
SILENCED = ("engine", "plugins")
PLUGINS: dict[str, Callable[..., Plugin]] = {
    "pressure_above": Above,
    "pressure_rising_beyond": Rising,
    "memory_above": MemoryAbove,
    "swap_free": SwapFree,
    "exists": Exists,
    "nr_dying_descendants": Dying,
    "kill_by_memory_size_or_growth": BySize,
    "kill_by_swap_usage": BySwap,
    "kill_by_pressure": ByPressure,
    "kill_by_pg_scan": ByScans,
}
ALWAYS = {
    "continue": Result.CONTINUE, "stop": Result.STOP, "dump_cgroup_overview": Result.CONTINUE,
}  # fmt: skip
LEFT_OUT = {
    "kill_by_io_cost": "a trace has no io.stat: its kills, and the pause after each, are missing",
    "senpai": "it changes memory.high, which no trace shows: the memory may be other than recorded",
    "systemd_restart": "what it restarts isn't followed, and neither is the end of its chain",
}
"""The plugins of oomd 0.5.0 that need data which a trace lacks. In this emulation they do nothing
and return CONTINUE.
"""


@dataclass(frozen=True)
class Start:
    """The values that oomd reads only once, at its start: the machine's totals, and its uptime
    (ns).
    """

    totals: Host
    uptime: int


class Notes:
    """Notes for the operator about parts of a configuration that can't be emulated, and the
    consequences.
    """

    def __init__(self) -> None:
        self.texts: list[str] = []

    def add(self, place: str, what: str) -> None:
        text = f"{place}: {what}"
        if text not in self.texts:
            self.texts.append(text)


def plugin(use: PluginUse, start: Start, notes: Notes) -> Plugin:
    """Creates the plugin that the configuration describes. Raises Refused if oomd rejects it."""
    if not use.name:
        raise Refused(use.place, "Plugin is missing name")
    if use.name in LEFT_OUT:
        notes.add(use.place, f"left out: {LEFT_OUT[use.name]}")
        return Constant(use, {}, Result.CONTINUE)
    if use.name not in PLUGINS and use.name not in ALWAYS and use.name != "memory_reclaim":
        raise Refused(use.place, f"Could not locate plugin={use.name} in plugin registry")
    args = values(use, start.totals) if use.name in ARGUMENTS else {}
    if ANON in args:
        notes.add(use.place, "a trace has no anonymous memory: threshold_anon is held against all")
    if "meminfo_location" in use.args:
        notes.add(use.place, "meminfo_location isn't read: the trace has the machine's totals")
    if use.name == "nr_dying_descendants":
        notes.add(use.place, "a trace has no dying groups: they are 0 unless --given says more")
    if use.name in ALWAYS:
        return Constant(use, args, ALWAYS[use.name])
    if use.name == "memory_reclaim":
        return Reclaim(use, args, start.uptime)
    return PLUGINS[use.name](use, args)


def delay_of(text: str, what: str, place: str, default: int) -> int:
    """Parses a delay in seconds. Returns `default` if the text is empty. Raises Refused if oomd
    rejects the delay, or aborts because the text isn't a number.
    """
    if not text:
        return default
    try:
        delay = stoi(text)
    except BadNumber as fault:
        raise Refused(place, f"{fault}: {what} is {quoted(text)} (it aborts)") from fault
    if delay < 0:
        raise Refused(place, f"Ruleset {what} must be non-negative")
    return delay


def check_head(use: RulesetUse, is_drop_in: bool) -> None:
    """Makes the checks of a ruleset that oomd makes before it creates the plugins. Raises Refused
    if oomd rejects the ruleset.
    """
    if not use.name:
        raise Refused(use.place, "Ruleset is missing name")
    for part in filter(None, use.silenced.strip().split(",")):
        if part.strip() not in SILENCED:
            raise Refused(use.place, f"Unrecognized log source={part.strip()}")
    if not is_drop_in and not (use.groups and use.actions):
        raise Refused(use.place, "Ruleset is missing DetectorGroups or missing Actions")


def act_of(it: Plugin, number: int, result: Result, decisions: list[Decision]) -> Act:
    """Describes the outcome of an action, including its victim if it chose one."""
    victim = decisions[0].victim if decisions else None
    if victim:
        return Act(number, it.name, victim, "", victim.candidates)
    if result is Result.PAUSED:
        return Act(number, it.name, None, "it waits for the next look", [])
    if isinstance(it, Killer):
        return Act(number, it.name, None, it.nobody(), it.seen)
    return Act(number, it.name, None, "it kills nobody", [])


class Ruleset(Pauses):
    """A ruleset, its pause and its kills. `drop_in` is the name of the drop-in file that defines
    it, or empty.
    """

    def __init__(
        self, use: RulesetUse, number: int, start: Start, notes: Notes, drop_in: str = ""
    ) -> None:
        check_head(use, bool(drop_in))
        self.name, self.number, self.drop_in = use.name, number, drop_in
        self.delay = delay_of(use.delay, "post_action_delay", use.place, DEFAULT_DELAY)
        delay_of(use.hook_timeout, "prekill_hook_timeout", use.place, 0)
        self.groups: list[tuple[str, list[Plugin]]] = []
        for group in use.groups:
            if not group.name:
                raise Refused(group.place, "DetectorGroup is missing name")
            if not group.detectors:
                raise Refused(group.place, "DetectorGroup is missing Detectors")
            self.groups.append((group.name, [plugin(it, start, notes) for it in group.detectors]))
        self.actions = [plugin(it, start, notes) for it in use.actions]
        self.is_enabled = True
        self.rests_until: int | None = None
        self.now = 0
        self.is_paused_by_action = False
        self.resumed: tuple[int, list[str]] | None = None
        self.decisions: list[Decision] = []
        self.fired: list[Fired] = []

    def pause(self, seconds: int) -> None:
        self.rests_until = self.now + seconds * SECOND
        self.is_paused_by_action = True

    def run(self, look: Look) -> None:
        """Evaluates all detectors. Runs the actions if all detectors of some group are true and the
        ruleset isn't paused.
        """
        if not self.is_enabled:
            return
        self.now, look.ruleset = look.now, None
        fired: list[str] | None = None
        for number, (name, detectors) in enumerate(self.groups):
            results = [self.step(it, None, [], look) for it in detectors]
            if Result.STOP not in results and fired is None:
                group = f"group {number} {quoted(name)}"
                fired = [f"{group}: {it.why()}" for it in detectors]
                look.ruleset = self
        if self.rests_until is not None and look.now < self.rests_until:
            if fired is not None:
                self.fired.append(Fired(look.now, fired, self.rests_until))
            return
        if self.resumed:
            (first, why), self.resumed = self.resumed, None
            self.chain(first, why, look)
        elif fired is not None:
            self.chain(0, fired, look)

    def step(self, it: Plugin, action: int | None, why: list[str], look: Look) -> Result:
        """Runs a plugin, stores its kills, and returns its result."""
        result = it.run(look)
        source = Source(self.number, self.name, action, it.name, self.drop_in)
        self.decisions += [Decision(look.now, source, victim, why) for victim in look.victims]
        look.victims.clear()
        return result

    def chain(self, first: int, why: list[str], look: Look) -> None:
        """Runs the actions, starting at the index `first`, until an action stops the chain or waits
        for the next evaluation.
        """
        acts: list[Act] = []
        self.fired.append(Fired(look.now, why, None, acts))
        for number in range(first, len(self.actions)):
            before = len(self.decisions)
            result = self.step(self.actions[number], number, why, look)
            acts.append(act_of(self.actions[number], number, result, self.decisions[before:]))
            if result is Result.PAUSED:
                self.resumed = (number, why)
                return
            if result is Result.STOP:
                if not self.is_paused_by_action:
                    self.rests_until = look.now + self.delay * SECOND
                self.is_paused_by_action = False
                return


@dataclass
class Course:
    """A text that says how near a detector came to its limit, with the detector's position."""

    place: str
    text: str


@dataclass
class Engine:
    """All rulesets in the order in which they run, and the values of groups that oomd stores
    between evaluations.
    """

    machine: Machine
    rulesets: list[Ruleset]
    notes: Notes
    looks: int = 0
    last: int = 0
    crash: str = ""
    decisions: list[Decision] = field(default_factory=list)
    average: dict[Group, int] = field(default_factory=dict)
    scanned: dict[Group, int] = field(default_factory=dict)

    def look(self, now: int) -> None:
        """Evaluates the rules at the time `now` (ns). Has no effect after a crash of oomd."""
        if self.crash:
            return
        self.looks, self.last = self.looks + 1, now
        self.machine.refresh()
        groups = self.machine.world.live.items()
        before, current = self.average, self.machine.current
        share = (DECAY - 1) / DECAY
        self.average = {
            group: int(before.get(group, 0) * share + current(path) / DECAY)
            for path, group in groups
        }
        look = Look(now, self.looks, self.machine, self.scanned, self.average)
        try:
            for ruleset in self.rulesets:
                ruleset.run(look)
                self.decisions += ruleset.decisions
                ruleset.decisions = []
        except Crash as crash:
            self.crash = f"{time_text(now)}  {crash}: nothing is known after this"
        self.scanned = {group: self.machine.scanned(path) for path, group in groups}

    def courses(self) -> list[Course]:
        """Returns, for each detector with a limit, how near it came to that limit."""
        found = []
        for ruleset in self.rulesets:
            plugins = [it for _, detectors in ruleset.groups for it in detectors]
            found += [Course(it.place, it.nearest()) for it in plugins]
        return [it for it in found if it.text]


def merge(base: RulesetUse, part: RulesetUse, place: str) -> RulesetUse:
    """Returns the ruleset `base` with the detectors or actions of a drop-in file's ruleset `part`.
    Raises Refused if `base` doesn't permit that.
    """
    for is_given, may_replace, what in (
        (part.groups, base.may_replace_detectors, "DetectorGroup"),
        (part.actions, base.may_replace_actions, "Action"),
    ):
        if is_given and not may_replace:
            raise Refused(place, f"Error: {what} drop-in configs disabled")
    groups, actions = part.groups or base.groups, part.actions or base.actions
    return RulesetUse(
        base.name, base.place, groups, actions, base.delay, base.hook_timeout, base.silenced
    )


def check_hooks(configuration: Configuration, notes: Notes) -> None:
    for hook in configuration.hooks:
        if hook not in HOOKS:
            reason = f"Could not locate plugin={hook} in plugin registry"
            raise Refused(configuration.name, reason if hook else "Plugin is missing name")
        notes.add(configuration.name, f"the prekill hook {quoted(hook)} is left out")


def drop_in_rulesets(
    base: Configuration, part: Configuration, start: Start, notes: Notes
) -> list[Ruleset]:
    """Returns the rulesets that a drop-in file adds. Raises Refused if oomd rejects the drop-in
    file.
    """
    found = []
    for use in part.rulesets:
        targets = [(at, it) for at, it in enumerate(base.rulesets) if it.name == use.name]
        if not targets:
            raise Refused(use.place, f"Could not locate targeted ruleset={use.name}")
        number, target = targets[0]
        Ruleset(use, number, start, notes, part.name)
        merger = merge(target, use, use.place)
        found.append(Ruleset(merger, number, start, notes, part.name))
    check_hooks(part, notes)
    return found


def engine(
    base: Configuration, parts: Sequence[Configuration], machine: Machine, uptime: int
) -> Engine:
    """Creates the engine for a configuration and its drop-in files. Raises Refused if oomd rejects
    the configuration. If oomd rejects a drop-in file, it continues without that file, so the
    rejection only becomes a note.
    """
    notes, start = Notes(), Start(machine.totals, uptime)
    rulesets = [Ruleset(it, at, start, notes) for at, it in enumerate(base.rulesets)]
    check_hooks(base, notes)
    before: list[list[Ruleset]] = [[] for _ in rulesets]
    for part in parts:
        try:
            found = drop_in_rulesets(base, part, start, notes)
        except Refused as refused:
            notes.texts.append(f"{refused}: it goes on without this file")
            continue
        for it in found:
            before[it.number].insert(0, it)
            own = rulesets[it.number]
            own.is_enabled = own.is_enabled and not base.rulesets[it.number].is_disabled_by_drop_in
    return Engine(
        machine, [it for more, own in zip(before, rulesets) for it in (*more, own)], notes
    )
