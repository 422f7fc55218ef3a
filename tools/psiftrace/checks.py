"""Checks ftrace text for defects that make its trace wrong without an error.

A simple importer converts line by line. It can't know that lines are missing, that a task's number
changed, or that a sleep in state D wasn't a wait for IO. Some defects are reported only above a
threshold. Below the threshold, a defect changes totals by less than the usual difference between a
machine's pressure files and the reports of a replay.
"""
from __future__ import annotations

from collections import Counter

from psiread.events import Event, Exec, FirstWakeup, Migration, Switch, WaitEnds, Wakeup
from psiread.waits import UNINTERRUPTIBLE

from .lines import FORMS, Line, event_of, forms_of, head_of
from .text import ENTRIES, LOST

# The largest step back (ns) in the times of the lines that isn't reported. Small steps back are
# normal, since processors write their lines at about the same time.
LEAST_BACK = 10**6
# The number of switches that a text must contain before the absence of a kind of event is reported.
LEAST_SWITCHES = 200
# If the text has `sched_stat_iowait`: the largest share of the time in state D (0 to 1) that may be
# sleeps other than waits for IO.
MOST_OTHER_SLEEP = 0.05
# If the text has no `sched_stat_iowait`: the largest share (0 to 1) of the text's time, summed over
# processors, that tasks may sleep in state D.
MOST_UNKNOWN_SLEEP = 0.01
# The largest time (ns) between the first events of two processors that isn't reported. If it is
# longer, older events of the later processor may have been overwritten.
LEAST_APART = 10**8

KINDS = ("sched_switch", "sched_wakeup", "sched_wakeup_new", "sched_migrate_task")


class Sleeps:
    """The sleeps in state D. `begun` is the start (ns) of each task's current sleep. `waits` and
    `times` are the number and the total time (ns) of past sleeps. Their key is True for sleeps that
    `sched_stat_iowait` reported as waits for IO, and False for all others.
    """

    def __init__(self) -> None:
        self.begun: dict[int, int] = {}
        self.waits: Counter[bool] = Counter()
        self.times: Counter[bool] = Counter()

    def end(self, task: int, time_ns: int, is_wait: bool) -> None:
        """Ends a task's sleep at `time_ns`. Has no effect if the task isn't asleep."""
        begun = self.begun.pop(task, None)
        if begun is not None:
            self.waits[is_wait] += 1
            self.times[is_wait] += time_ns - begun


class Check:
    """Checks the lines of a text one by one, and collects the defects."""

    def __init__(self) -> None:
        self.kinds: Counter[str] = Counter()
        self.faults: Counter[str] = Counter()
        self.lost: list[int] = []
        self.overwritten: list[tuple[int, int, int]] = []
        self.backs: list[tuple[int, int]] = []
        self.strangers: list[int] = []
        self.execs: list[int] = []
        self.sleeps = Sleeps()
        self.runs: dict[int, int] = {}
        self.firsts: dict[int, int] = {}
        self.idle = 0
        self.latest = 0

    def take(self, number: int, line: bytes) -> None:
        """Checks the next line. Lines are numbered from 1."""
        head = head_of(line[:-1] if line.endswith(b"\r") else line)
        if head is None:
            self.take_other(number, line)
            return
        forms = forms_of(head) if head.kind in FORMS else ()
        if not forms or head.kind == "tracing_mark_write":
            return
        event = event_of(head, forms)
        self.take_form(head, line, event)
        if event:
            self.kinds[head.kind] += 1
            self.take_time(number, event)
            self.take_event(number, event)

    def take_other(self, number: int, line: bytes) -> None:
        """Checks a line without an event. It may report lost or overwritten events."""
        entries, lost = ENTRIES.match(line), LOST.match(line)
        if entries and entries[1] != entries[2]:
            self.overwritten.append((number, int(entries[1]), int(entries[2])))
        if lost:
            self.lost.append(int(lost[2] or 0))

    def take_form(self, head: Line, line: bytes, event: Event | None) -> None:
        """Counts the line as a defect if a simple importer rejects or ignores it."""
        self.faults["perf"] += head.is_perf
        self.faults["return"] += line.endswith(b"\r")
        if event is None:
            self.faults["fields"] += 1
        elif b"_comm=" not in head.fields and head.kind == "sched_switch":
            self.faults["plain"] += 1

    def take_time(self, number: int, event: Event) -> None:
        """Checks whether the time of an event goes back, and stores the first time of its
        processor.
        """
        if self.latest - event.time_ns > LEAST_BACK:
            self.backs.append((number, self.latest - event.time_ns))
        self.latest = max(self.latest, event.time_ns)
        self.firsts.setdefault(event.processor, event.time_ns)

    def take_event(self, number: int, event: Event) -> None:
        """Updates the running tasks and the sleeps with an event. Stores the number of the line if
        the event contradicts an earlier one, or if an exec changed a task's number.
        """
        if isinstance(event, Switch):
            if self.runs.get(event.processor, event.previous) != event.previous:
                self.strangers.append(number)
            self.runs[event.processor] = event.next
            self.idle += not (event.previous and event.next)
            self.sleeps.end(event.next, event.time_ns, False)
            if event.state == UNINTERRUPTIBLE:
                self.sleeps.begun[event.previous] = event.time_ns
        elif isinstance(event, (Wakeup, FirstWakeup)):
            self.sleeps.end(event.task, event.time_ns, False)
        elif isinstance(event, WaitEnds):
            self.sleeps.end(event.task, event.time_ns, True)
        elif isinstance(event, Exec) and event.task != event.old:
            self.execs.append(number)
        elif isinstance(event, Migration):
            self.firsts.setdefault(event.origin, event.time_ns)

    # ------------------------------------------------------------ the findings

    def findings(self) -> list[str]:
        """Returns a description of each defect that makes a trace of the text wrong. The list is
        empty if there is no defect.
        """
        return [
            *self.form_findings(),
            *self.missing_findings(),
            *self.order_findings(),
            *self.sleep_findings(),
        ]

    def form_findings(self) -> list[str]:
        """Returns the findings about lines that a simple importer rejects or ignores. psitrace
        accepts all of them, except a text without switches.
        """
        found = []
        if not self.kinds["sched_switch"]:
            found.append("there is no sched_switch line that can be read")
        if self.faults["perf"]:
            found.append(
                f"{self.faults['perf']} lines are perf's: an importer of ftrace's text passes over"
                " them"
            )
        if self.faults["plain"]:
            found.append(
                f"{self.faults['plain']} switches have no names of fields: trace-cmd report"
                " needs -N"
            )
        if self.faults["fields"]:
            found.append(
                f"{self.faults['fields']} events lack fields: the name of a task with a newline, or"
                " lines that were cut"
            )
        if self.faults["return"]:
            found.append(f"{self.faults['return']} lines end in a carriage return")
        return found

    def missing_findings(self) -> list[str]:
        """Returns the findings about missing events."""
        found = []
        if self.lost:
            found.append(f"{sum(self.lost)} events were lost, at {len(self.lost)} places")
        for number, left, written in self.overwritten:
            found.append(
                f"line {number}: the buffer was overwritten: {left} of {written} events are left"
            )
        if self.kinds["sched_switch"] >= LEAST_SWITCHES:
            if not self.kinds["sched_wakeup"]:
                found.append(
                    "there is no sched_wakeup: each sleep seems to last until the task runs. Was"
                    " the event on?"
                )
            if not self.idle:
                found.append(
                    "there is no switch from or to the idle task: no processor ever seems idle. Was"
                    " it filtered out?"
                )
        if self.strangers:
            found.append(
                f"{len(self.strangers)} switches leave a task that didn't run there, first in line"
                f" {self.strangers[0]}: lines are missing, or a number changed by exec"
            )
        return found

    def order_findings(self) -> list[str]:
        """Returns the findings about the order of times, and about numbers that an exec changed."""
        found = []
        if self.backs:
            number, back = self.backs[0]
            found.append(
                f"time goes back at {len(self.backs)} lines, first in line {number} by"
                f" {back / 1e9:.3f} s: files of single processors, or two recordings, one after the"
                " other?"
            )
        if self.execs:
            found.append(
                f"{len(self.execs)} tasks took over another number by exec, first in line"
                f" {self.execs[0]}: to an importer the old one stays ready for ever"
            )
        return found

    def sleep_findings(self) -> list[str]:
        """Returns the findings about sleeps in state D that weren't waits for IO."""
        other, waits = self.sleeps.times[False], self.sleeps.times[True]
        count = self.sleeps.waits[False]
        if self.kinds["sched_stat_iowait"]:
            if other > MOST_OTHER_SLEEP * (other + waits):
                return [f"{count} of {sum(self.sleeps.waits.values())} sleeps in state D, "
                        f"{other / 1e9:.3f} of"
                        f" {(other + waits) / 1e9:.3f} s, weren't waits for IO"]  # fmt: skip
            return []
        length = self.latest - min(self.firsts.values(), default=0)
        if other > MOST_UNKNOWN_SLEEP * length * max(len(self.firsts), 1):
            return [
                f"no sched_stat_iowait shows which of the {count} sleeps in state D,"
                f" {other / 1e9:.3f} s, were waits for IO"
            ]
        return []

    def remarks(self) -> list[str]:
        """Returns remarks that aren't defects: the number of processors, the number of lines for
        each kind of event, and the absent kinds of events.
        """
        said = [f"--cpus {max(self.firsts) + 1}"] if self.firsts else []
        said += [f"{kind} {count}" for kind, count in sorted(self.kinds.items())]
        absent = [kind for kind in KINDS if not self.kinds[kind]]
        said += [f"no {kind}" for kind in absent]
        apart = max(self.firsts.values(), default=0) - min(self.firsts.values(), default=0)
        if apart > LEAST_APART:
            said.append(f"processors begin up to {apart / 1e9:.3f} s apart")
        return said
