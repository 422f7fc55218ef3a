"""Reads samples from the folder of a recording: its readings of pressure files, and the memory
samples in its markers.
"""
from __future__ import annotations

from psicli.fault import Fault
from psiconvert.lead_in import averages_in
from psiread.events import Marker
from psiread.files import text_of
from psiread.pressure import SAMPLE, reading_markers
from psiread.recording import read_recording
from psiread.source import Source
from psirec.layout import MARK, PRESSURE, RESOURCES, escaped_path
from psireplay.lines import LEVELS

from .rows import AVERAGES, HOST, MEMORY, ROOT, Put

# The interval between readings (ns), if no marker shows it.
EVERY = 2 * 10**9


def times_of(source: Source, most: int) -> list[int]:
    """Returns the time (ns) of each reading of the pressure files, from number 0 to `most`. If a
    reading's markers were lost, its time is interpolated between the nearest markers, or
    extrapolated at both ends. Without any markers, readings are EVERY apart.
    """
    begins = {
        number: marker.time_ns for marker, number, is_begin in reading_markers(source) if is_begin
    }
    ends = {
        number: marker.time_ns
        for marker, number, is_begin in reading_markers(source)
        if not is_begin
    }
    known = sorted({**ends, **begins}.items()) or [(0, source.start)]
    (first, start), (last, end) = known[0], known[-1]
    every = (end - start) // (last - first) if last > first else EVERY
    found = [start + (number - first) * every for number in range(most + 1)]
    for (one, at), (other, then) in zip(known, known[1:]):
        for number in range(one, min(other, most) + 1):
            found[number] = at + (then - at) * (number - one) // (other - one)
    for number in range(last, most + 1):
        found[number] = end + (number - last) * every
    return found


def read_folder(folder: str, put: Put) -> None:
    """Stores all samples of a recording. The line number of a row is its line in the file of
    pressure readings, or 0 for a memory sample.
    """
    try:
        source, text = read_recording(folder, True), text_of(folder, PRESSURE)
    except Fault as fault:
        raise Fault(f"{folder}: {fault}") from None
    offset = source.realtime or 0
    samples = list(SAMPLE.finditer(text))
    if not samples:
        raise Fault(f"{folder}/{PRESSURE}: there is no reading of pressure files in it")
    times = times_of(source, max(int(it[1]) for it in samples))
    for path, averages in averages_in(text, int(samples[0][1])).items():
        values = (
            round(100 * it)
            for resource in RESOURCES
            for level in LEVELS
            for it in averages.get((resource, level), (0.0,) * 3)
        )
        put(times[int(samples[0][1])] + offset, path, AVERAGES, tuple(values), 1)
    line, at = 1, 0
    for it in samples:
        line, at = line + text.count("\n", at, it.start()), it.start()
        path = escaped_path(it[2].encode("utf-8", "surrogateescape"))
        put(
            times[int(it[1])] + offset,
            path,
            2 * RESOURCES.index(it[3]),
            (int(it[4]), int(it[5])),
            line,
        )
    for event in source.events:
        if isinstance(event, Marker) and event.text.startswith(MARK.encode()):
            put_memory(event, offset, put)


def put_memory(event: Marker, offset: int, put: Put) -> None:
    """Stores the memory sample of a marker, if the marker has one."""
    words = event.text.decode("utf-8", "surrogateescape")[len(MARK) :].split()
    if words[:1] == ["host"] and len(words) == 4:
        put(event.time_ns + offset, ROOT, HOST, tuple(map(int, words[1:])), 0)
    elif words[:1] == ["mem"] and len(words) == 5:
        path = escaped_path(words[1].encode("utf-8", "surrogateescape"))
        put(event.time_ns + offset, path, MEMORY, tuple(map(int, words[2:])), 0)
