#!/usr/bin/env python3
"""How long `replay` takes on traces of different lengths, and `load N`.

Not part of the gate. Build the program first (`./kmdfsim check < examples/first-read.kmdf`), then from the root:

    python3 bench/replay.py [PROGRAM]

Each trace is that of an app's reads, each completed at once with seven events, at four lengths, each growing twofold. A row
has the events of the trace, the best seconds of three checks, the processor's seconds, nanoseconds an event, the processor's
seconds that reading the input and cutting it into lines takes alone, the most memory in MB, and the exponent of growth since
the length before: 1.0 says that twice the events take twice the time. Then come `load 7` and `load 3`.
"""

import math
import sys

from machine import reads
from measure import program_of, read_alone, report, run

RUNS = 3


def scenario(count):
    """An app's reads, each served with one statement before its completion."""
    return reads(count).replace("on EvtIoDefault\n", "on EvtIoDefault\nlet x = ( length + 1 )\n").encode()


def checked(program, text):
    """The events of a scenario's trace, and the figures of its checks."""
    trace, status, _ = run("order", text, program)
    if status != 0:
        sys.exit(f"order ended with {status}")
    events = int(trace.split()[-1])
    figures = []
    for _ in range(RUNS):
        answer, status, one = run("replay", text + b"trace\n" + trace, program)
        if (answer, status) != (b"accepted finished %d\n" % events, 0):
            sys.exit(f"replay ended with {status}: {answer[:100]!r}")
        figures.append((*one, read_alone(text + b"trace\n" + trace)))
    return events, [best(column) for best, column in zip((min, min, max, min), zip(*figures))]


def main():
    program = program_of(sys.argv)
    before = None
    for count in (500, 1000, 2000, 4000):
        events, (clock, processor, memory, alone) = checked(program, scenario(count))
        row = f"{events} events: {clock:.3f} s, processor {processor:.3f} s, {1e9 * processor / events:.0f} ns an event"
        row += f", reading alone {alone:.3f} s, {memory:.0f} MB"
        if before:
            row += f", exponent {math.log(processor / before[1]) / math.log(events / before[0]):.2f}"
        print(row, flush=True)
        before = events, processor
    for words in ("load 7", "load 3"):
        runs = []
        for _ in range(RUNS):
            answer, status, one = run(words, b"", program)
            if status != 0:
                sys.exit(f"{words} ended with {status}")
            runs.append(one)
        report(f"{words}, {answer.decode().split()[1]} events", runs)


if __name__ == "__main__":
    main()
