"""Emulates oomd's detectors."""
from __future__ import annotations

from typing import Any

from psicli.times import SECOND, seconds, time_text
from psioomd.configuration import PluginUse
from psioomd.machine import NO_PRESSURE, Averages
from psioomd.numbers import float32
from psioomd.plugin import Duration, Look, Plugin, Result, result
from psisystemd.told import size
from psisystemd.values import percent

HUNDREDTHS = 100
DEFAULT_FALL = float32(0.85)
BITS = 1 << 64


def average(hundredths: int) -> float:
    """Converts an average (hundredths of a percent) to a percentage as oomd stores it, in a 32-bit
    float.
    """
    return float32(hundredths / HUNDREDTHS)


def weight(averages: Averages) -> float:
    """Returns the weight by which oomd selects a group, `3 * avg10 + 2 * avg60 + avg300`."""
    short, middle, long = map(average, (averages.avg10, averages.avg60, averages.avg300))
    return float32(float32(float32(short * 3) + float32(middle * 2)) + long)


class Nearest:
    """The value that came nearest to a limit so far, with its time (ns) and its group's path. With
    `is_least`, a smaller value is nearer, and otherwise a larger one.
    """

    def __init__(self, is_least: bool = False) -> None:
        self.sign = -1 if is_least else 1
        self.value: int | None = None
        self.time_ns = 0
        self.path = ""

    def take(self, now: int, value: int, path: str = "") -> None:
        if self.value is None or value * self.sign > self.value * self.sign:
            self.value, self.time_ns, self.path = value, now, path

    def words(self, text: str) -> str:
        where = f" of {self.path}" if self.path else ""
        extreme = "at least" if self.sign < 0 else "at most"
        return f"{extreme} {text}{where}, at {time_text(self.time_ns)}"


class Above(Plugin):
    """The plugin `pressure_above`. It is true if avg10 of the group with the largest weight has
    been above the threshold for the duration.
    """

    def __init__(self, use: PluginUse, args: dict[str, Any]) -> None:
        super().__init__(use, args)
        self.resource, self.threshold = args["resource"], args["threshold"]
        self.duration = Duration(args["duration"])
        self.best, self.path = NO_PRESSURE, ""
        self.most = Nearest()

    def read(self, look: Look) -> None:
        """Selects the group whose pressure counts at this evaluation."""
        self.best, self.path = NO_PRESSURE, ""
        for path in look.machine.among(self.args["cgroup"]):
            pressure = look.machine.pressure(path, self.resource)
            if weight(pressure) > weight(self.best):
                self.best, self.path = pressure, path
        self.most.take(look.now, self.watched(), self.path)

    def watched(self) -> int:
        """Returns the average, in hundredths of a percent, that is compared with the threshold."""
        return self.best.avg10

    def is_above(self, hundredths: int) -> bool:
        return bool(average(hundredths) > self.threshold)

    def run(self, look: Look) -> Result:
        self.read(look)
        return result(self.duration.holds(look.now, self.is_above(self.watched())))

    def limit(self) -> str:
        return f"limit {self.threshold} % for {self.duration.seconds} s"

    def why(self) -> str:
        name = "avg10" if type(self) is Above else "avg60"
        found = f"full {self.resource} {name} of {self.path or 'no group'}"
        return f"{self.name}: {found} is {percent(self.watched())}, {self.limit()}"

    def nearest(self) -> str:
        return f"{self.most.words(percent(self.most.value or 0))}; {self.limit()}"


class Rising(Above):
    """The plugin `pressure_rising_beyond`. It is true if avg60 has been above the threshold for the
    duration and avg10 is above the threshold now. In addition, avg10 must be at least
    `fast_fall_ratio` times its value at the previous evaluation.
    """

    def __init__(self, use: PluginUse, args: dict[str, Any]) -> None:
        super().__init__(use, args)
        self.ratio = args.get("fast_fall_ratio", DEFAULT_FALL)
        self.before = 100 * HUNDREDTHS

    def watched(self) -> int:
        return self.best.avg60

    def run(self, look: Look) -> Result:
        self.read(look)
        before, self.before = self.before, self.best.avg10
        is_long = self.duration.holds(look.now, self.is_above(self.best.avg60))
        is_falling = average(self.best.avg10) < float32(average(before) * self.ratio)
        return result(is_long and self.is_above(self.best.avg10) and not is_falling)


class MemoryAbove(Plugin):
    """The plugin `memory_above`. It is true if the largest memory use of a group has been above the
    threshold for the duration.
    """

    def __init__(self, use: PluginUse, args: dict[str, Any]) -> None:
        super().__init__(use, args)
        self.threshold = args.get("threshold_anon", args.get("threshold", 0))
        self.duration = Duration(args["duration"])
        self.usage, self.path = 0, ""
        self.most = Nearest()

    def run(self, look: Look) -> Result:
        self.usage, self.path = 0, ""
        for path in look.machine.among(self.args["cgroup"]):
            usage = look.machine.current(path)
            if usage > self.usage:
                self.usage, self.path = usage, path
        self.most.take(look.now, self.usage, self.path)
        return result(self.duration.holds(look.now, self.usage > self.threshold))

    def limit(self) -> str:
        return f"limit {size(self.threshold)} for {self.duration.seconds} s"

    def why(self) -> str:
        return f"{self.name}: {self.path or 'no group'} uses {size(self.usage)}, {self.limit()}"

    def nearest(self) -> str:
        return f"{self.most.words(size(self.most.value or 0))}; {self.limit()}"


class Reclaim(Plugin):
    """The plugin `memory_reclaim`. It is true if the number of scanned pages, summed over groups,
    has risen within the duration. As in oomd, the sum at the boot of the machine is 0.
    """

    def __init__(self, use: PluginUse, args: dict[str, Any], uptime: int) -> None:
        super().__init__(use, args)
        self.pages, self.last = 0, -uptime
        self.quiet = 0

    def run(self, look: Look) -> Result:
        pages = sum(map(look.machine.scanned, look.machine.among(self.args["cgroup"])))
        if pages > self.pages:
            self.last = look.now
        self.pages = pages
        self.quiet = look.now - self.last
        return result(self.quiet // SECOND <= self.args["duration"])

    def why(self) -> str:
        limit = f"limit {self.args['duration']} s"
        return f"{self.name}: pages were scanned {seconds(self.quiet)} s ago, {limit}"


class SwapFree(Plugin):
    """The plugin `swap_free`. It is true if less than the percentage `threshold_pct` of the swap is
    free. oomd computes with unsigned numbers.
    """

    def __init__(self, use: PluginUse, args: dict[str, Any]) -> None:
        super().__init__(use, args)
        self.free, self.limit = 0, 0
        self.least = Nearest(is_least=True)

    def run(self, look: Look) -> Result:
        host = look.machine.host()
        total, free = host.swap // 1024 * 1024, host.swap_free // 1024 * 1024
        self.free = free
        self.limit = total * (self.args["threshold_pct"] % BITS) % BITS // 100
        self.least.take(look.now, self.free)
        return result(self.free < self.limit)

    def why(self) -> str:
        return f"{self.name}: {size(self.free)} of the swap is free, limit {size(self.limit)}"

    def nearest(self) -> str:
        return f"{self.least.words(size(self.least.value or 0))}; limit {size(self.limit)}"


class Exists(Plugin):
    """The plugin `exists`. It is true if some group matches or, with `negate`, if no group matches.
    """

    def run(self, look: Look) -> Result:
        return result(
            bool(look.machine.among(self.args["cgroup"])) != self.args.get("negate", False)
        )

    def why(self) -> str:
        found = "no group matches" if self.args.get("negate", False) else "a group matches"
        return f"{self.name}: {found} {self.args['cgroup'].text}"


class Dying(Plugin):
    """The plugin `nr_dying_descendants`. With `lte`, which is the default, it is true if some group
    has at most `count` dying descendants. With `lte` false, it is true if some group has more than
    `count`.
    """

    def run(self, look: Look) -> Result:
        machine, count = look.machine, self.args["count"]
        counts = [
            machine.extras.of(path, "nr_dying_descendants")
            for path in machine.among(self.args["cgroup"])
        ]
        is_most = self.args.get("lte", True)
        return result(any(it <= count if is_most else it > count for it in counts))


class Constant(Plugin):
    """A plugin that always returns the result `always`. These plugins are `continue`, `stop`,
    `dump_cgroup_overview`, and the plugins that aren't emulated.
    """

    def __init__(self, use: PluginUse, args: dict[str, Any], always: Result) -> None:
        super().__init__(use, args)
        self.always = always

    def run(self, look: Look) -> Result:
        return self.always
