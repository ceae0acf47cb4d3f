#!/usr/bin/env python3
"""How long a run in which idle devices sleep takes, against the run of `order` of the same scenario.

Not part of the gate. Build the program first (`./kmdfsim check < examples/first-read.kmdf`), then from the root:

    python3 bench/idle.py [PROGRAM]

Eight devices, and 64 to 256 apps that read 16 times each, every ten ticks. One device has an `IDLE_TIMEOUT`, since a name is
declared once in a text. It is of 3 ticks: once the device is held awake, so that both runs have the same events, and once it isn't,
so that it sleeps and is woken between the reads. Figures are seconds of the processor, the best of three runs, microseconds an
event, and the exponent of growth of `idle` since the size before: 1.0 says that twice the events take twice the time.
Aim: an event of `idle` takes at most 1.2 times one of `order`, and the exponent is at most 1.
"""

import math
import sys

from measure import program_of, run

DEVICES = 8
READS = 16


def scenario(apps, hold):
    """The devices with a queue each, and so many apps that read from them in turn."""
    lines = ["cpus 1", "limit 200000", "objects 4096"]
    for k in range(DEVICES):
        lines += [f"device D{k} working"]
        lines += ["register IDLE_TIMEOUT 3", f"register IDLE_HOLD {hold}"] if k == 0 else []
        lines += [f"queue Q{k} sequential", "default", "on EvtIoRead", "call WdfRequestComplete request SUCCESS", "end", "end", "end"]
    for app in range(apps):
        lines += [f"app A{app}", *(f"at {10 * turn} read D{app % DEVICES} 16" for turn in range(READS)), "end"]
    return ("\n".join(lines) + "\n").encode()


def measured(program, words, text):
    """The best seconds of the processor and the number of events of three runs, which must come to their end."""
    seconds = []
    for _ in range(3):
        trace, status, figures = run(words, text, program)
        last = trace.decode().splitlines()[-1]
        if status != 0:
            sys.exit(f"{words} ended with status {status} and {last!r}")
        seconds.append(figures[1])
    return min(seconds), int(last.split()[1])


def main():
    program = program_of(sys.argv)
    for hold in (1, 0):
        before = None
        for apps in (64, 128, 256):
            text = scenario(apps, hold)
            (order, usual), (idle, events) = (measured(program, words, text) for words in ("order", "idle"))
            each = idle / events, order / usual
            grows = f", exponent {math.log(idle / before[0]) / math.log(events / before[1]):.2f}" if before else ""
            before = idle, events
            print(
                f"hold {hold}, {apps} apps, {apps * READS} reads: idle {idle:.3f} s, {events} events, {each[0] * 1e6:.2f} us each;"
                f" order {order:.3f} s, {usual} events, {each[1] * 1e6:.2f} us each; {each[0] / each[1]:.2f} times{grows}",
                flush=True,
            )


if __name__ == "__main__":
    main()
