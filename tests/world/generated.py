"""Makes recordings of generated events, and converts them to traces."""
from __future__ import annotations

from collections.abc import Iterator, Sequence

from shared.stored import accepted
from psiconvert.convert import Converted, Wanted, convert
from psiread.events import Event
from psiread.source import Snapshot, Source
from psiread.waits import Method
from psiread.window import Window

MS = 10**6


def source_of(
    events: Sequence[Event], snapshot: Snapshot | None = None, processors: int = 2
) -> Source:
    """Returns a recording with these events."""
    return Source(list(events), processors, events[0].time_ns, events[-1].time_ns,
                  snapshot=snapshot or Snapshot())


def played(
    program: str, source: Source | Sequence[Event], wanted: Wanted | None = None
) -> Converted:
    """Converts a recording, or only the part `wanted`. Raises unless psi_oomd accepts the trace."""
    source = source if isinstance(source, Source) else source_of(source)
    found = convert(source,
                    wanted or Wanted(Window(source.start, source.stop), Method.STATE, None, {}))
    accepted(program, ("\n".join(found.lines) + "\n").encode())
    return found


def words_of(found: Converted) -> list[str]:
    """Returns the lines of a trace without their times."""
    return [line.split(" ", 1)[1] for line in found.lines[1:]]


def times() -> Iterator[int]:
    """Yields times (ns) that are 1 ms apart."""
    return (place * MS for place in range(1, 10**6))
