"""Converts the output of a replay to families of counters.

Each metric of pressure has the name of the metric that a monitoring agent collects on a real
machine. For the machine these are the names of node_exporter's collector `pressure`. For each group
including the root they are cAdvisor's, with the label `id`. node_exporter has no metric for the
time in which all tasks waited for a processor, since the kernel doesn't report it for the machine.
cAdvisor has no metric for interrupts, so the metric for interrupts has a name of the same form as
cAdvisor's other names.
"""
from __future__ import annotations

from array import array
from typing import Iterable, Optional

from psicli.fault import Fault
from psicli.times import seconds
from psireplay.lines import Event, Kill, Report, read
from psireplay.rules import Rules

from .text import Counter, Families, Labels, Points

US = 10**6
WORDS = {"some": "waiting", "full": "stalled"}
OF_WHAT = {"io": "IO", "memory": "memory", "cpu": "a processor", "irq": "interrupts to end"}
WHO = {"waiting": "some task of {}", "stalled": "all tasks of {} that weren't idle"}
KILLS = Counter("psi_oomd_kills", "How often rules would have killed a group.", 1)
EVENTS = Counter("psi_oomd_trigger_events", "How often a trigger signalled.", 1)


def pressure_family(prefix: str, whose: str, resource: str, word: str) -> Counter:
    about = f"How long {WHO[word].format(whose)} waited for {OF_WHAT[resource]}."
    return Counter(f"{prefix}_pressure_{resource}_{word}_seconds", about, US)


class Metrics:
    """The metrics of a replay. The lines of its output are added one by one."""

    def __init__(self, rules: Optional[Rules], labels: Labels) -> None:
        """`labels` are appended to each metric's own labels."""
        self.rules, self.labels = rules, labels
        self.families: Families = {}
        self.rounds = array("Q")
        self.happened: dict[Counter, dict[Labels, list[int]]] = {KILLS: {}, EVENTS: {}}

    def points(self, family: Counter, *labels: tuple[str, str]) -> Points:
        return self.families.setdefault(family, {}).setdefault((*labels, *self.labels), Points())

    def take_report(self, report: Report) -> None:
        """Adds the totals (us) of a report, which has the contents of one pressure file."""
        if not self.rounds or report.time_ns != self.rounds[-1]:
            self.rounds.append(report.time_ns)
        for level, pressure in (("some", report.some), ("full", report.full)):
            if pressure:
                self.take_total(report, WORDS[level], pressure.total)

    def take_total(self, report: Report, word: str, total: int) -> None:
        if report.path == "/" and (report.resource, word) != ("cpu", "stalled"):
            family = pressure_family("node", "the machine", report.resource, word)
            self.points(family).add(report.time_ns, total)
        family = pressure_family("container", "the group", report.resource, word)
        self.points(family, ("id", report.path)).add(report.time_ns, total)

    def count(self, family: Counter, time_ns: int, *labels: tuple[str, str]) -> None:
        self.happened[family].setdefault((*labels, *self.labels), []).append(time_ns)

    def take_kill(self, kill: Kill) -> None:
        numbers = (("ruleset", str(kill.ruleset)), ("action", str(kill.action)))
        killer = self.rules.killer(kill) if self.rules else None
        names = (("ruleset_name", killer.ruleset), ("plugin", killer.plugin)) if killer else ()
        self.count(KILLS, kill.time_ns, ("id", kill.path), *numbers, *names)

    def take_event(self, event: Event) -> None:
        times = [seconds(it * 1000) for it in (event.threshold, event.window)]
        what = (("resource", event.resource), ("level", event.level))
        limits = (("threshold_seconds", times[0]), ("window_seconds", times[1]))
        self.count(
            EVENTS,
            event.time_ns,
            ("id", event.path),
            ("trigger", str(event.trigger)),
            *what,
            *limits,
        )

    def close(self) -> Families:
        """Returns all families. The counters of kills and of trigger events start at 0, and have a
        point at each event and at each report.
        """
        for family, metrics in self.happened.items():
            for labels, times in metrics.items():
                points = self.families.setdefault(family, {}).setdefault(labels, Points())
                for time_ns, value in counted(times, self.rounds):
                    points.add(time_ns, value)
        return self.families


def counted(times: list[int], rounds: Iterable[int]) -> list[tuple[int, int]]:
    """Returns the points of a counter at the start, at each event, and at each report (`rounds`). A
    point is a time (ns) and the number of events so far. `times` are the times (ns) of the events.
    """
    value_at = {0: 0}
    done = 0
    for time_ns in sorted({*times, *rounds}):
        while done < len(times) and times[done] <= time_ns:
            done += 1
        value_at[time_ns] = done
    return list(value_at.items())


def metrics_of(printed: Iterable[bytes], rules: Optional[Rules], labels: Labels) -> Families:
    """Returns the families of metrics for a replay's output. Raises a Fault if the output has no
    report.
    """
    metrics = Metrics(rules, labels)
    for line in read(printed):
        if isinstance(line, Report):
            metrics.take_report(line)
        elif isinstance(line, Kill):
            metrics.take_kill(line)
        elif isinstance(line, Event):
            metrics.take_event(line)
    if not metrics.rounds:
        raise Fault(
            "no report, so there is no metric: ask replay for ticks shorter than the trace by"
            " --tick-ms"
        )
    return metrics.close()
