"""Converts the samples to a trace, or to several overlapping traces if a single one would exceed a
limit.
"""
from __future__ import annotations

import os
import tempfile
import zlib
from collections.abc import Callable
from dataclasses import dataclass, field
from typing import IO

from psicli.fault import Fault
from psicli.times import SECOND, duration
from psireplay.sampled import Sampled

from .block import TICK
from .convert import Conversion, Off
from .data import Data
from .lives import Lives
from .options import Options
from .verify import Checked, check

# The number of ticks by which two parts overlap. A trace's averages start at 0; after this time
# even those over 300 s are correct.
OVERLAP = 450
# A part ends when it has more than MOST_GROUPS groups or MOST_TASKS tasks. More than MOST_OF_ALL
# groups are an error. A trace may have 1,024 groups, including a group that marks samples, and
# 65,536 tasks.
MOST_GROUPS, MOST_TASKS, MOST_OF_ALL = 980, 60_000, 1023
# The number of lines that are reserved for one more tick.
SPARE = 40_000
Progress = Callable[[int], None]


@dataclass
class Made:
    """The result of a conversion, over all parts: the file names, the numbers of lines, the largest
    number of processors, the number of groups that were created again, the totals that are off, the
    number of totals that were compared with a replay, and the totals that differ.
    """

    names: list[str] = field(default_factory=list)
    lines: list[int] = field(default_factory=list)
    processors: int = 0
    again: int = 0
    off: dict[tuple[str, int], Off] = field(default_factory=dict)
    compared: int = 0
    wrong: list[tuple[int, str, int, int, int | None]] = field(default_factory=list)

    def add(self, name: str, conversion: Conversion, checked: Checked) -> None:
        """Adds the results of a part of the trace."""
        self.names.append(name)
        self.lines.append(conversion.file.count())
        self.processors = max(self.processors, conversion.file.processors + 1)
        self.again += conversion.made_again
        self.compared += checked.compared
        self.wrong += checked.wrong
        for key, one in conversion.off.items():
            known = self.off.get(key, Off(0, 0))
            self.off[key] = Off(known.times + one.times, max(known.most, one.most))


def part_name(output: str, part: int) -> str:
    """Returns the file name of part number `part`. The first part is `output`; all others have
    their number before the suffix.
    """
    root, ending = os.path.splitext(output)
    return output if part == 1 else f"{root}.{part}{ending}"


def number_of(data: Data, start: int, end: int) -> int:
    """Returns a number that identifies a set of parts: a checksum of the samples' times and groups.
    """
    return zlib.crc32(
        " ".join([str(start), str(end), str(data.every), *sorted(data.groups)]).encode(
            "utf-8", "surrogateescape"
        )
    )


class Maker:
    """Converts the samples between `start` and `end` (ns since 1970) to traces with at most `most`
    lines each.
    """

    def __init__(
        self, data: Data, start: int, end: int, options: Options, most: int, progress: Progress
    ) -> None:
        self.data, self.start, self.end, self.options, self.most, self.progress = (
            data,
            start,
            end,
            options,
            most,
            progress,
        )
        self.made = Made()
        self.whole = number_of(data, start, end)

    def make(self, output: str) -> Made:
        """Writes all parts. Files have temporary names until all parts are complete."""
        begin: int | None = self.start
        part = 0
        try:
            while begin is not None:
                part += 1
                begin = self.make_part(part_name(output, part), begin, part)
        except BaseException:
            self.drop()
            raise
        if self.made.wrong:
            self.drop()
            return self.made
        for name in self.made.names:
            os.replace(f"{name}.part", name)
        return self.made

    def drop(self) -> None:
        """Removes the temporary files of all parts."""
        for name in self.made.names:
            if os.path.exists(f"{name}.part"):
                os.remove(f"{name}.part")

    def make_part(self, name: str, begin: int, part: int) -> int | None:
        """Writes the part that begins at `begin` (ns since 1970). Returns the time at which the
        next part begins, or None after the last part.
        """
        every = self.data.every
        options = self.options if part == 1 else self.options.later()
        origin = begin - options.lead * TICK
        lives = Lives(
            self.data.since(begin - 3 * every),
            origin,
            every,
            self.data.inputs.place,
            options.is_shaped,
        )
        ticks = max(1, -(-(self.end - begin) // TICK))
        conversion = Conversion(lives, options)
        with tempfile.TemporaryFile(prefix="samples-") as checks:
            while conversion.tick < ticks + conversion.lead and not self.is_full(conversion):
                conversion.step()
                checks.writelines(it.encode() for it in conversion.checks)
                conversion.checks.clear()
                self.progress(begin - self.start + conversion.tick * TICK)
            if conversion.tick < ticks and conversion.tick <= 2 * OVERLAP:
                raise Fault(
                    f"{duration(conversion.tick * TICK)} of samples fill a trace: take fewer"
                    " groups, by --groups DEPTH"
                )
            self.made.names.append(name)
            self.write(name, conversion, part, begin)
            checked = check(f"{name}.part", checks, conversion.off)
            self.made.names.pop()
            self.made.add(name, conversion, checked)
        is_last = conversion.tick >= ticks + conversion.lead
        return None if is_last else begin + (conversion.tick - conversion.lead - OVERLAP) * TICK

    def is_full(self, conversion: Conversion) -> bool:
        """Whether the trace has reached its largest number of lines, groups or tasks."""
        file = conversion.file
        most = max(self.most - SPARE, self.most // 2)
        groups = max(MOST_GROUPS, conversion.first_groups + 10)
        return (
            file.count() > most
            or conversion.made_groups > groups
            or file.task_lines > 3 * MOST_TASKS
        )

    def write(self, name: str, conversion: Conversion, part: int, begin: int) -> None:
        """Writes the file of part number `part`, which begins at `begin` (ns since 1970)."""
        if conversion.made_groups > MOST_OF_ALL:
            raise Fault(
                f"there are {conversion.made_groups} groups at once: at most {MOST_OF_ALL}, see"
                " --groups DEPTH"
            )
        conversion.end()
        skip = OVERLAP * TICK if part > 1 else 0
        mark = Sampled(
            self.data.every,
            self.data.gap,
            self.data.has_scans,
            self.whole,
            part,
            begin - self.start,
            skip,
        )
        with open(f"{name}.part", "wb") as file:
            stored: IO[bytes] = file
            conversion.file.finish(mark.lines(), conversion.tick * TICK, stored)


assert OVERLAP * TICK == 900 * SECOND
