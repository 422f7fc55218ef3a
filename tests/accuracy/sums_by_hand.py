"""Checks of the kernel's pressure totals on synthetic recordings. The expected totals are computed
by hand.
"""
from __future__ import annotations

from harness import must, must_be
from shared import program  # noqa: F401 -- it makes the tools importable
from psicompare.agreement import Growth, asked_of, growths_of, sampling_of  # noqa: E402
from psicompare.clocks import Clocks  # noqa: E402
from psicompare.command import row_of  # noqa: E402
from psicompare.moments import Moments  # noqa: E402
from psicompare.table import Limits, Shown, report  # noqa: E402
from psiread.events import AverageProbe, Event, Marker, ShowProbe  # noqa: E402
from psiread.pressure import File, Readings, Totals  # noqa: E402
from psiread.source import Source  # noqa: E402

MS, SECOND = 10**6, 10**9
RESOURCES = ("io", "memory", "cpu")
# Kernel addresses of the pressure accounts of the root and of the group, and the offset (bytes) of
# the work item that computes averages in an account.
ROOT, GROUP, WORK = 0x1000, 0x9000, 0x78
# The number of the task that reads the pressure files.
READER = 77

# From 1 s, a task of the group waits for IO on processor 0. From 2 s to 3 s, another task of the
# group runs on processor 1.
SPREAD = """\
0 group /a
0 fork 1 /a 0
0 switch 0 1 idle
0 fork 2 /a 1
0 switch 1 2 idle
0 switch 1 0 sleep
1000000000 switch 0 0 iowait
2000000000 wake 2 1
2000000000 switch 1 2 idle
3000000000 switch 1 0 sleep
12000000000 end"""


def probed(reads: list[int], averages: list[int]) -> Source:
    """Returns a recording in which the files of the root and the group were read at the times
    `reads`, and the kernel itself sampled both at the times `averages` (ns).
    """
    events: list[Event] = [Marker(0, 0, READER, b"psirec start")]
    for number, time_ns in enumerate(reads):
        events.append(Marker(time_ns - MS, 0, READER, b"psirec pressure %d begin\n" % number))
        for address in (ROOT, GROUP):
            events += [
                ShowProbe(time_ns, 0, READER, address, place) for place in range(len(RESOURCES))
            ]
        events.append(Marker(time_ns + MS, 0, READER, b"psirec pressure %d end\n" % number))
    events += [AverageProbe(time_ns, 0, 5, GROUP + WORK) for time_ns in averages]
    events += [AverageProbe(time_ns, 0, 5, ROOT + WORK) for time_ns in averages]
    return Source(sorted(events, key=lambda it: it.time_ns), 2, 0, reads[-1], has_sample_times=True)


def readings_of(reads: list[int], totals: dict[File, list[int]]) -> Readings:
    """Returns the machine's pressure files at each reading. `totals` has a file's total (us) at
    each reading, for both some and full. The totals of other files are 0.
    """
    readings: Readings = {number: {} for number in range(len(reads))}
    for file in [File(path, resource) for path in ("/", "/a") for resource in RESOURCES]:
        for number, (time_ns, total) in enumerate(zip(reads, totals.get(file, [0] * len(reads)))):
            readings[number][file] = Totals(time_ns, total, total)
    return readings


def growth_in(
    trace: str, reads: list[int], averages: list[int], totals: dict[File, list[int]]
) -> dict[File, Growth]:
    """Returns how much each file's total grows between the readings, as computed from the trace."""
    clocks, samplings = Clocks(trace.splitlines()), Moments(
        probed(reads, averages), readings_of(reads, totals)
    )
    inside = list(samplings.readings)
    found = {}
    for asked in asked_of(list(samplings.readings.values()), clocks, 0):
        for growth in growths_of(
            asked, clocks, sampling_of(asked, clocks, samplings, inside, 0, 250), 250
        ):
            found[growth.file] = growth
    return found


def check_shares_between_moments(_: str) -> None:
    """In each interval between two samplings, the kernel weights processors by their busy time.
    From 0.5 s to 4 s processor 0 is busy for 3.5 s and waits for 3 s of them, and processor 1 is
    busy for 1 s. Without a sampling in between, the total grows by 3 * 3.5 / 4.5 = 2.333333 s. With
    a sampling at 2 s, it grows by 1 s before the sampling, since processor 1 is idle then, and by 2
    * 2 / 3 = 1.333333 s after it: also 2.333333 s. With a sampling at 3 s, it grows by 2 * 2.5 /
    3.5 = 1.428571 s before it and by 1 s after it.
    """
    file = File("/a", "io")
    growths: tuple[tuple[list[int], int], ...] = (
        ([], 2333333), ([2 * SECOND], 2333333), ([3 * SECOND], 2428571),
    )  # fmt: skip
    for averages, wanted in growths:
        reads = [500 * MS, 4 * SECOND]
        found = growth_in(SPREAD, reads, averages, {file: [100, 100 + wanted]})
        must_be(f"the growth with samplings at {averages}", found[file].kernel[0], wanted)
        must_be("that of the machine", found[file].machine, (wanted, wanted))


def check_weights_are_ticks_of_the_timer(_: str) -> None:
    """A processor that is busy for less than one timer tick (4 ms) has weight 0."""
    lines = [
        "0 fork 1 / 0", "0 switch 0 1 idle", f"{SECOND} switch 0 0 iowait",
        f"{SECOND + 3 * MS} wake 1 0",
    ]
    lines += [
        f"{SECOND + 3 * MS} switch 0 1 idle", f"{SECOND + 3 * MS} switch 0 0 sleep",
        f"{3 * SECOND} group /a",
    ]
    for end, wanted in ((0, 0), (MS, 3000)):
        reads = [SECOND - end, 2 * SECOND]
        trace = "\n".join([*lines, f"{4 * SECOND} end"])
        must_be(f"the growth from {reads[0]} on",
                growth_in(trace, reads, [], {})[File("/", "io")].kernel[0], wanted)


def check_sums_of_32_bits(_: str) -> None:
    """The comparison reports that the kernel's 32-bit sums lost time. From 4 s to 11 s the group
    waits for IO on processor 0: 7,000,000,000 ns are 2,705,032,704 modulo 2^32. With samplings at 4
    s and at 8 s nothing is lost.
    """
    file = File("/a", "io")
    growths: tuple[tuple[list[int], int, int], ...] = (
        ([], 2705032, 7000000), ([8 * SECOND], 7000000, 7000000),
    )  # fmt: skip
    for averages, reported, right in growths:
        growth = growth_in(SPREAD, [4 * SECOND, 11 * SECOND], averages, {file: [0, reported]})[file]
        must_be("in 32 bits, and in 64", (growth.kernel[0], growth.true[0]), (reported, right))
        text, beyond = report([row_of(growth, None)], Limits(1.5, 2.5, 500000),
                              Shown([], "trace", "", 10000))
        must_be("totals beyond their limits", beyond, 0)
        must(("+0.0 % w" in text) == (reported != right), f"its mark: {text}")
        must(("\n  /a io: some 7000000, full 7000000\n" in text) == (reported != right),
             f"what is right: {text}")


def check_a_group_of_two_lives(_: str) -> None:
    """A group that is created between two readings counts from its creation, even if an earlier
    group had the same path.
    """
    lines = [
        "0 group /a", f"{SECOND} rmgroup /a", f"{3 * SECOND} group /a", f"{3 * SECOND} fork 1 /a 0",
        f"{7 * SECOND} end",
    ]
    found = growth_in("\n".join(lines), [500 * MS, 5 * SECOND], [],
                      {File("/a", "cpu"): [900, 2000000]})
    must_be("the growth", found[File("/a", "cpu")],
            Growth(File("/a", "cpu"), *[(2000000, 2000000)] * 3))


def check_readings_with_a_file_too_few(_: str) -> None:
    """If a file is missing from a reading, the other files are identified by the addresses in the
    previous reading.
    """
    reads = [SECOND, 3 * SECOND, 5 * SECOND]
    readings = readings_of(reads, {})
    del readings[1][File("/a", "memory")]
    source = probed(reads, [])
    times = {
        it: 3 * SECOND + place
        for place, it in enumerate(it for it in source.events if it.time_ns == 3 * SECOND)
    }
    source.events = [
        it._replace(time_ns=times.get(it, it.time_ns)) if isinstance(it, ShowProbe) else it
        for it in source.events
    ]
    samplings = Moments(source, readings)
    wanted = {
        File("/", "io"): 0, File("/", "memory"): 1, File("/", "cpu"): 2, File("/a", "io"): 3,
        File("/a", "cpu"): 5,
    }
    found = {file: totals.time_ns - 3 * SECOND for file, totals in samplings.readings[1].items()}
    must_be("how long each was read after the first", found, wanted)


def check_groups_whose_moments_are_not_told(_: str) -> None:
    """A group's sampling times are fitted if the kernel address of the group is unknown, because
    each reading has fewer files than the group.
    """
    reads = [SECOND, 3 * SECOND, 5 * SECOND]
    source = probed(reads, [2 * SECOND, 4 * SECOND])
    whole, cut = Moments(source, readings_of(reads, {})), readings_of(reads, {})
    for files in cut.values():
        del files[File("/a", "cpu")]
    missed = Moments(source, cut)
    must_be("what is known of each",
            [(it.knows("/a", 2), it.knows("/", 2)) for it in (whole, missed)],
            [(True, True), (False, False)])
    clocks = Clocks(SPREAD.splitlines())
    phases = []
    for samplings in (whole, missed):
        asked = asked_of(list(samplings.readings.values()), clocks, 0)
        phases.append(
            {it.path: sampling_of(it, clocks, samplings, [0, 1, 2], 0, 250).phase for it in asked}
        )
    must(phases[0] == {"/": None, "/a": None} and None not in phases[1].values(),
         f"the phases: {phases}")
