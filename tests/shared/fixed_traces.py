"""Traces written by hand. Each tests a particular rule of docs/PRESSURE.md."""
from __future__ import annotations

STALLS = """psitrace 1 cpus=1
0 group /a
0 fork 1 /a 0
0 fork 2 / 0
0 switch 0 1 idle
100000000 stall 1
300000000 switch 0 2 sleep
400000000 wake 1 0
600000000 switch 0 1 iowait
1000000000 end
"""
COMES_AND_GOES = """psitrace 1 cpus=2
0 group /a
0 fork 1 /a 0
0 switch 0 1 idle
0 fork 2 / 1
200000000 switch 0 0 exit
300000000 rmgroup /a
400000000 group /a
400000000 fork 1 /a 1
500000000 switch 1 1 idle
900000000 switch 1 0 iowait
1100000000 move 1 /
1200000000 rmgroup /a
2300000000 group /a
2400000000 rmgroup /a
2500000000 group /a
2600000000 move 1 /a
2700000000 wake 1 0
2800000000 migrate 1 1
2900000000 move 1 /
2900000000 rmgroup /a
3100000000 group /a
3200000000 move 1 /a
4400000000 end
"""
AT_TICKS = """psitrace 1 cpus=1
0 fork 1 / 0
1000000000 group /a
1000000000 move 1 /a
2000000000 switch 0 1 idle
3000000000 move 1 /
3000000000 rmgroup /a
4000000000 group /a
5000000000 move 1 /a
5000000000 move 1 /
5000000000 rmgroup /a
5000000000 group /a
6000000000 move 1 /a
7000000000 stall 1
8000000000 end
"""
BELOW = """psitrace 1 cpus=3
0 group /a
0 group /a/b
0 group /a/b/c
0 group /ab
0 fork 1 /a/b/c 0
0 fork 2 /ab 0
0 fork 3 /a 1
0 fork 4 /a/b 2
100000000 switch 0 1 idle
200000000 switch 1 3 idle
300000000 switch 0 2 iowait
400000000 stall 3
600000000 wake 1 1
900000000 move 1 /ab
1000000000 migrate 1 2
1500000000 migrate 4 2
1700000000 move 4 /a/b/c
1800000000 unstall 3
2000000000 move 1 /a/b
2400000000 switch 2 4 idle
2600000000 switch 2 1 preempt
2600000000 switch 1 0 exit
3100000000 end
"""
STALLS_ASLEEP = """psitrace 1 cpus=2
0 fork 1 / 0
0 fork 2 / 0
0 switch 0 1 idle
300000000 stall 1
700000000 switch 0 2 iowait
1200000000 stall 2
1400000000 wake 1 1
1900000000 switch 0 0 sleep
2000000000 switch 1 1 idle
2300000000 unstall 1
2300000000 switch 1 0 exit
2600000000 wake 2 0
3300000000 switch 0 2 idle
3500000000 unstall 2
5000000000 end
"""
# The trace for which docs/COMMANDS.md shows a live line as an example.
BETWEEN = """psitrace 1 cpus=1
0 fork 1 / 0
0 switch 0 1 idle
500000000 switch 0 0 iowait
1500000000 wake 1 0
2000000000 end
"""
# Most events of this trace change no count of tasks, but each event counts as a change of its
# processor.
NOTHING_DIFFERS = """psitrace 1 cpus=2
0 switch 0 0 idle
0 fork 1 / 0
100000000 switch 0 0 idle
200000000 migrate 1 0
300000000 move 1 /
400000000 switch 0 1 idle
500000000 switch 0 0 sleep
500000000 switch 0 0 idle
1500000000 wake 1 0
1500000000 mem / 4096 0 0
3500000000 end
"""
IDLE = """psitrace 1 cpus=2
0 fork 1 / 0
0 switch 0 1 idle
0 switch 0 0 iowait
9000000000 end
"""
# Interrupts (`irq` lines) count as changes, even on an idle processor. They begin and end no state,
# and live lines don't contain their time.
INTERRUPTS = """psitrace 2 cpus=2
0 irq 0 0
0 group /a
0 fork 1 /a 0
0 switch 0 1 idle
400000000 irq 0 400000000
400000000 irq 1 100000000
900000000 switch 0 0 iowait
1000000000 irq 0 600000000
1500000000 wake 1 1
2500000000 irq 1 1000000000
2500000000 irq 0 1
3000000000 end
"""
# The pressure accounting of /a is off at a tick and while a task below it wakes. That of its child
# /a/b stays on. Later /a/b is off, and is removed and created again.
SWITCHED = """psitrace 2 cpus=2
0 group /a
0 group /a/b
0 fork 1 /a/b 0
0 fork 2 /a 1
0 switch 0 1 idle
0 switch 1 2 idle
300000000 switch 0 0 iowait
700000000 pressure /a off
1200000000 wake 1 0
1200000000 irq 1 50000000
1500000000 switch 0 1 idle
1700000000 pressure /a/b off
1700000000 pressure /a on
1700000000 irq 1 20000000
2000000000 switch 1 0 iowait
2000000000 pressure /a/b on
2000000000 pressure /a/b off
2600000000 move 1 /
2600000000 rmgroup /a/b
2600000000 group /a/b
2600000000 move 1 /a/b
3100000000 pressure /a on
4000000000 end
"""
NO_TICK = """psitrace 1 cpus=2
0 fork 1 / 0
999999999 end
"""
MANY = "psitrace 1 cpus=64\n" + "".join(
    f"{time_ns} {event}\n"
    for time_ns, event in (
        *((0, f"fork {cpu + 1} / {cpu}") for cpu in range(0, 64, 3)),
        *((cpu * 10 * 10**6, f"switch {cpu} {cpu + 1} idle") for cpu in range(0, 64, 3)),
        *((700 * 10**6, f"switch {cpu} 0 iowait") for cpu in range(0, 64, 6)),
        *(((800 + cpu) * 10**6, f"wake {cpu + 1} {63 - cpu}") for cpu in range(0, 64, 6)),
        (2000 * 10**6, "end"),
    )
)
