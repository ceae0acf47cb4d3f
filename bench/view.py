#!/usr/bin/env python3
"""How long `kmdfview` takes on traces of different lengths, up to the longest run that there is.

Not part of the gate. Build both programs first, then from the root:

    python3 bench/view.py PROGRAM VIEWER

The traces are of three kinds, at lengths that grow twofold: an app's reads, each completed at once with seven events; an interrupt
whose service routine comes again until the limit of events, two events a box; a callback that makes calls in a loop until the limit.
The longest have 200,000 events, more than which no run has. A row has the events of the trace, and for `html` and for
`perfetto` the best seconds of three runs, the processor's seconds, the size of what is written, and the most memory.
Aim: each under 2 seconds.
"""

import sys

from machine import interrupts, opening, reads
from measure import run

RUNS = 3


def calls(limit):
    """A callback that makes calls in a loop until the limit."""
    body = "repeat 1000\nrepeat 1000\ncall GetContext D 0\nend\nend\n"
    return opening(limit) + f"device D working\nqueue Q sequential\ndefault\non EvtIoDefault\n{body}end\nend\nend\napp A\nat 0 read D 16\nend\n"


def scenarios():
    """Scenarios by the name of their kind."""
    for count in (725, 1450, 2900):
        yield "reads", reads(count).replace("on EvtIoDefault\n", "on EvtIoDefault\nlet x = ( length + 1 )\n")
    for kind in (interrupts, calls):
        for limit in (50_000, 100_000, 200_000):
            yield kind.__name__, kind(limit)


def main():
    if len(sys.argv) != 3:
        sys.exit(__doc__)
    for name, scenario in scenarios():
        trace, status, _ = run("order", scenario.encode(), sys.argv[1])
        if status not in (0, 5):
            sys.exit(f"order ended with {status}")
        text = scenario.encode() + b"trace\n" + trace
        print(f"{name}: {int(trace.split()[-1])} events, an input of {len(text) / 1e6:.1f} MB", flush=True)
        for words in ("html", "perfetto"):
            figures = []
            for _ in range(RUNS):
                answer, status, one = run(words, text, sys.argv[2])
                if status != 0:
                    sys.exit(f"{words} ended with {status}: {answer[:100]!r}")
                figures.append(one)
            clock, processor, memory = zip(*figures)
            print(f"    {words}: {min(clock):.3f} s, processor {min(processor):.3f} s, {len(answer) / 1e6:.1f} MB written, {max(memory):.0f} MB of memory", flush=True)


if __name__ == "__main__":
    main()
