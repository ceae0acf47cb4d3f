#!/usr/bin/env python3
"""How long the program takes to run an app of many reads, and how much memory.

Not part of the gate. Build the program first (`./kmdfsim check < examples/first-read.kmdf`), then from the root:

    python3 bench/order.py [PROGRAM]

The app reads once to 4,096 times, and the run may have 200,000 events. Each run is made twice: as the first
events come, so that the reads follow one another, and with picks that post all reads first, so that they
wait in the queue together. Figures are of the best of three runs: seconds of the clock and of the processor,
and the most memory in MB (no less than what this script itself takes, some 14 MB).
"""

import sys

from measure import program_of, report, run

HEAD = """cpus 1
limit 200000
objects 16
device D working
queue Q sequential
default
on EvtIoRead
call WdfRequestComplete request SUCCESS
end
end
end
app A
"""


def scenario(reads, picked):
    """A scenario of some reads; with picks that take the app's post as long as there is one."""
    text = HEAD + "at 0 read D 16\n" * reads + "end\n"
    if picked:
        # Once a read waits, the start of the handler comes first and the app's next read second.
        text += "order\npicks 0" + " 1" * (reads - 1) + "\nend\n"
    return text.encode()


def measured(program, text, reads):
    """The figures of one run of the text, which must come to its end."""
    trace, status, figures = run("order", text, program)
    lines = trace.decode().splitlines()
    if status != 0 or lines[-1] != f"finished {6 * reads}" or len(lines) != 6 * reads + 1:
        sys.exit(f"ended with status {status} and {lines[-1]!r}")
    return figures


def main():
    program = program_of(sys.argv)
    for picked in (False, True):
        order = "posted first" if picked else "one by one"
        for reads in (1, 512, 1024, 2048, 4096):
            text = scenario(reads, picked)
            report(f"{reads} reads {order}", [measured(program, text, reads) for _ in range(3)])


if __name__ == "__main__":
    main()
