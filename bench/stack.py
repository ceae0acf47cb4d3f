#!/usr/bin/env python3
"""How long the program takes for reads that go down a stack of eight devices.

Not part of the gate. Build the program first (`./kmdfsim check < examples/first-read.kmdf`), then from the root:

    python3 bench/stack.py [PROGRAM]

The app reads 64 to 4,000 times from the top device; each device sends what it gets to the one below, and the last completes
it. After 4,096 arrivals in all a connector answers without one, so from the 586th read on most go no further than the top.
In the runs `together` 100 reads come each 20 ticks, the queues give out 256 requests, and the bottom device keeps each read
for 10 ticks, so that 100 are sent at once at each level. Beside each run stands the one by `order`, where each target is a
driver of its own. Aims: an event takes no more than 1.5 times one of `order`, and no more with more reads or where they are sent
together. Figures are the processor's seconds, the best of three runs.
"""

import sys

from measure import program_of, run

DEVICES = 8
HEAD = "cpus 1\nlimit 200000\nobjects 4096\n"
COMPLETES = ["on EvtRequestCompletion", "call WdfRequestComplete request status", "end", "end"]


def device(number, delay):
    """The lines of one device of the stack, the last of which completes what it gets, after a delay where there is one."""
    name, last = f"D{number}", number == DEVICES - 1
    kind = "parallel 256" if delay else "sequential"
    lines = [f"device {name} working", f"queue Q{number} {kind}", "default", "on EvtIoRead"]
    if not last:
        lines += [f"call WdfRequestSend request TO_D{number + 1} 0", "end", "end"]
        lines += [f"target TO_D{number + 1} {delay} SUCCESS 256", *COMPLETES]
    elif delay:
        lines += ["call WdfRequestSend request Disk 0", "end", "end"]
        lines += [f"target Disk {delay} SUCCESS 256", *COMPLETES]
    else:
        lines += ["call WdfRequestComplete request SUCCESS", "end", "end"]
    return lines + ["end"]


def scenario(reads, delay):
    """A scenario of some reads from the top of the stack."""
    lines = [line for number in range(DEVICES) for line in device(number, delay)]
    lines += ["app A", *(f"at {number // 100 * 20 if delay else 0} read D0 16" for number in range(reads)), "end"]
    return (HEAD + "\n".join(lines) + "\n").encode()


def measured(words, text, program):
    """The seconds and the events of the runs of a text, which must come to their end."""
    runs = [run(words, text, program) for _ in range(3)]
    answer, status, _ = runs[0]
    last = answer.decode().splitlines()[-1]
    if status != 0 or not last.startswith("finished "):
        sys.exit(f"{words}: ended with status {status} and {last!r}")
    return min(figures[1] for _, _, figures in runs), int(last.split()[1])


def main():
    program = program_of(sys.argv)
    for delay in (0, 10):
        for reads in (64, 256, 585, 1170, 4000):
            text = scenario(reads, delay)
            shown = []
            for words in ("stack", "order"):
                seconds, events = measured(words, text, program)
                shown.append(f"{words} {seconds:.3f} s, {events} events, {1e6 * seconds / events:.1f} us each")
            print(f"{reads} reads{' together' if delay else ''}: " + "; ".join(shown), flush=True)


if __name__ == "__main__":
    main()
