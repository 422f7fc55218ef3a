"""Makes random ftrace texts whose events a real scheduler could cause. Optionally puts random
faults into the texts.
"""
from __future__ import annotations

import random
from collections.abc import Callable
from dataclasses import dataclass, field

PLAIN_NAMES = (b"a", b"kworker/0:1", b"web")
ODD_NAMES = (b"a ==> b", b"x pid=5", b"n next_pid=9", b"s prev_state=Z", b"", b" ", b"#c",
             b"b-1 [1] 2.0: c", b"\xff\t")
NAMES = PLAIN_NAMES + ODD_NAMES
STATES = (b"R", b"R+", b"S", b"D", b"D|K", b"I", b"X", b"Z")
HEADS = (
    b"%16b-%-7d [%03d] d..2. %12b: ",
    b" %b-%d [%03d] d..2 %b: ",
    b" %b-%d [%d] %b: ",
    b"%16b-%-7d (    114) [%03d] d.h3. %12b: ",
    b" %b-%d (-------) [%03d] dN.3. %b000: ",
)
OTHERS = (
    b"# tracer: nop\n",
    b"CPU:0 [LOST 147 EVENTS]\n",
    b" a-1 [000] 1.0: sched_waking: comm=a pid=7 prio=120 target_cpu=000\n",
    b" a-1 [000] 1.0: sched_stat_iowait: comm=a pid=7 delay=5 [ns]\n",
    b"\n",
)
PIECES = (
    b": sched_switch: ", b": sched_wakeup: ", b": sched_wakeup_new: ", b": sched_migrate_task: ",
    b" ==> ", b" pid=",
    b" prev_pid=", b" next_pid=", b" prev_state=", b" target_cpu=", b" dest_cpu=", b"[001]",
    b"[0000]", b" 1.5: ",
    b"4294967296", b"4294967295", b"00000000000", b"0", b"9", b" ", b"#", b"\r", b"\n", b".", b"=",
    b"x" * 500,
)  # fmt: skip


@dataclass
class Scheduler:
    """Simulates tasks on some processors, and makes ftrace lines about them. The tasks do only
    what a real scheduler allows. Times are in us.
    """

    rng: random.Random
    cpus: int
    tasks: int
    now: int = 10_000_001
    modes: dict[int, str] = field(default_factory=dict)
    places: dict[int, int] = field(default_factory=dict)
    runs: dict[int, int] = field(default_factory=dict)
    names: tuple[bytes, ...] = NAMES
    others: tuple[bytes, ...] = OTHERS

    def line(self, cpu: int, event: bytes) -> bytes:
        """Returns the ftrace line of an event on this processor. The format of the line's head is
        random.
        """
        time = b"%d.%06d" % divmod(self.now, 10**6)
        return self.rng.choice(HEADS) % (
            self.name(), self.runs.get(cpu, 0), cpu, time
        ) + event + b"\n"

    def name(self) -> bytes:
        """Returns a random task name, which `import` ignores."""
        return self.rng.choice(self.names)

    def switch(self, cpu: int, state: bytes, pid: int) -> bytes:
        """Switches the processor `cpu` to task `pid`, or to the idle task if `pid` is 0, and
        returns the line. `state` is the state (prev_state) in which the previous task leaves the
        processor.
        """
        before = self.runs.pop(cpu, 0)
        prefix = b"prev_comm=%b prev_pid=%d prev_prio=120 prev_state=%b" % (
            self.name(), before, state
        )
        line = self.line(
            cpu,
            b"sched_switch: %b ==> next_comm=%b next_pid=%d next_prio=120"
            % (prefix, self.name(), pid),
        )
        if before:
            self.modes[before] = (
                {b"R": "ready", b"X": "gone", b"Z": "gone"}.get(state[:1], "asleep")
            )
        if pid:
            self.runs[cpu], self.modes[pid] = pid, "running"
        return line

    def wakeup(self, pid: int) -> bytes:
        """Wakes a task that is asleep or that has exited, and returns the line."""
        cpu = self.rng.randrange(self.cpus)
        event = b"sched_wakeup_new" if self.modes.get(pid, "gone") == "gone" else b"sched_wakeup"
        self.modes[pid], self.places[pid] = "ready", cpu
        fields = b"%b: comm=%b pid=%d prio=120 target_cpu=%03d" % (event, self.name(), pid, cpu)
        return self.line(self.rng.randrange(self.cpus), fields)

    def step(self) -> bytes:
        """Executes a random event and returns its line."""
        self.now += self.rng.choice((0, 1, 7, 1000, 300_000))
        pid = self.rng.randint(1, self.tasks)
        mode = self.modes.get(pid, "gone")
        if mode in ("gone", "asleep"):
            return self.wakeup(pid)
        cpu = self.places[pid]
        if mode == "running":
            return self.switch(cpu, self.rng.choice([it for it in STATES if it[:1] != b"R"]), 0)
        if self.rng.random() < 0.3:
            self.places[pid] = self.rng.randrange(self.cpus)
            fields = b"comm=%b pid=%d prio=120 orig_cpu=%d dest_cpu=%d" % (
                self.name(), pid, cpu, self.places[pid]
            )
            return self.line(cpu, b"sched_migrate_task: " + fields)
        return self.switch(cpu, self.rng.choice(STATES) if self.runs.get(cpu) else b"R", pid)

    def text(self, count: int) -> bytes:
        """Returns a text with `count` lines. Most lines are events, and some have other contents.
        """
        is_other = [bool(self.others) and self.rng.random() < 0.05 for _ in range(count)]
        return b"".join(self.rng.choice(self.others) if it else self.step() for it in is_other)


def spoiled(rng: random.Random, text: bytes) -> bytes:
    """Returns the text with a few faults: bytes are changed, pieces are inserted or removed, and
    lines are moved, repeated or removed.
    """
    data = text
    for _ in range(rng.choice((0, 1, 1, 2, 3))):
        at = rng.randrange(len(data) + 1)
        lines = data.splitlines(keepends=True) or [b"\n"]
        one, other = rng.randrange(len(lines)), rng.randrange(len(lines))
        ways: tuple[Callable[[], bytes], ...] = (
            lambda: data[:at] + rng.choice(PIECES) + data[at:],
            lambda: data[:at] + data[at + rng.choice((1, 1, 2, 9)) :],
            lambda: data[:at] + bytes([rng.randrange(256)]) + data[at + 1 :],
            lambda: data[:at],
            lambda: b"".join(lines[:one] + lines[one + 1 :]),
            lambda: b"".join(lines[:one] + [lines[other]] + lines[one:]),
            lambda: b"".join(lines[:one] + [swapped(rng, lines[one])] + lines[one + 1 :]),
        )
        data = rng.choice(ways)()
    return data


def swapped(rng: random.Random, line: bytes) -> bytes:
    """Returns the line with two of its words swapped."""
    words = line.split(b" ")
    one, other = rng.randrange(len(words)), rng.randrange(len(words))
    words[one], words[other] = words[other], words[one]
    return b" ".join(words)
