"""Defines the limits of a trace. psi_oomd checks the same limits."""

# The largest number of events (including the end line), of tasks at the same time, of lines that
# switch accounting, and of processors.
MOST_EVENTS = 4_000_000
MOST_TASKS = 65_536
MOST_SWITCHES = 65_536
MOST_PROCESSORS = 64
# The largest label of a task, and the largest size (bytes) or count of pages in a memory sample.
MOST_LABEL, MOST_MEMORY = 2**32 - 1, 2**60
# The latest time (ns): a trace has at most a million ticks, each of at most 60 s.
MOST_TIME = 10**6 * 60 * 10**9
# The longest time (ns) that one interrupt line may report.
MOST_INTERRUPTS = 10**9
# The shortest and the longest window of a trigger (us).
LEAST_WINDOW, MOST_WINDOW = 500_000, 10_000_000
