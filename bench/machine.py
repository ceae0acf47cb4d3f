#!/usr/bin/env python3
"""How the time of a run grows with its size, for each kind of work that the machine does.

Not part of the gate. Build the program first (`./kmdfsim check < examples/first-read.kmdf`), then from the root:

    python3 bench/machine.py [PROGRAM]

Each kind is run by `order` and by `seed 7`, at four sizes or more, each growing twofold. A row has the events of the run,
the best seconds of three runs, the processor's seconds, nanoseconds an event, the processor's seconds that writing the lines
of the trace takes alone, the most memory in MB, and the exponent of growth since the size before: 1.0 says that twice the
events take twice the time. Sizes that take less than 20 ms show no exponent.
"""

import math
import sys

from measure import program_of, run, written_alone

RUNS = 3


def opening(limit=200000, objects=4096, cpus=1):
    """The three lines that a scenario begins with."""
    return f"cpus {cpus}\nlimit {limit}\nobjects {objects}\n"


COMPLETES = "on EvtIoDefault\ncall WdfRequestComplete request SUCCESS\nend\n"


def reads(count):
    """An app's reads, each completed at once by a sequential queue."""
    return opening() + f"device D working\nqueue Q sequential\ndefault\n{COMPLETES}end\nend\napp A\n" + "at 0 read D 16\n" * count + "end\n"


def removal(count):
    """A device that is removed while that many requests wait in a manual queue."""
    head = opening() + "device D working\nqueue Q manual\ndefault\nend\nend\n"
    posts = "app A\n" + "at 1 read D 16\n" * count + "end\n"
    return head + posts + "pnp\nat 2 remove D\nend\n"


def interrupts(limit):
    """An interrupt whose line is never lowered: its service routine comes again until the limit."""
    device = "device D\ninterrupt L 5\non EvtInterruptIsr\nend\nend\nat 1 raise L\nend\n"
    return opening(limit) + device + "pnp\nat 0 start D\nend\n"


def loop(limit):
    """A callback that counts in a loop until the limit."""
    body = "repeat 1000\nrepeat 1000\nlet x = ( x + 1 )\nend\nend\n"
    return opening(limit) + f"device D working\nqueue Q sequential\ndefault\non EvtIoDefault\n{body}end\nend\nend\napp A\nat 0 read D 16\nend\n"


def queues(count):
    """Five hundred reads of a device that has that many queues."""
    more = "".join(f"queue M{k} manual\nend\n" for k in range(count - 1))
    head = f"device D working\nqueue Q sequential\ndefault\n{COMPLETES}end\n{more}end\n"
    return opening() + head + "app A\n" + "at 0 read D 16\n" * 500 + "end\n"


def apps(count):
    """A thousand reads, shared by that many apps."""
    head = f"device D working\nqueue Q sequential\ndefault\n{COMPLETES}end\nend\n"
    return opening() + head + "".join(f"app A{k}\n" + "at 0 read D 16\n" * (1024 // count) + "end\n" for k in range(count))


KINDS = [
    ("reads", reads, (500, 1000, 2000, 4000)),
    ("requests at a removal", removal, (510, 1020, 2040, 4080)),
    ("events of an interrupt loop", interrupts, (25000, 50000, 100000, 200000)),
    ("events of a repeat loop", loop, (15250, 30500, 61000, 122000)),
    ("queues", queues, (16, 32, 64, 128, 256)),
    ("apps", apps, (4, 8, 16, 32, 64, 128, 256)),
]


def measured(program, words, text):
    """The events of a run, its best seconds, those of the processor, those of its lines alone, and the most memory."""
    figures = []
    for _ in range(RUNS):
        trace, status, one = run(words, text.encode(), program)
        lines = trace.decode().splitlines()
        endings = [line for line in lines if line.split(" ")[0] in ("finished", "limit", "stuck")]
        if status not in (0, 4, 5) or len(endings) != 1:
            sys.exit(f"ended with status {status} and {lines[-1:]!r}")
        figures.append((*one, written_alone(trace)))
    clock, processor, memory, alone = zip(*figures)
    return int(endings[0].split(" ")[1]), min(clock), min(processor), min(alone), max(memory)


def show(program, words, name, scenario, sizes):
    """Prints a row for each size of a kind."""
    before = None
    for size in sizes:
        events, clock, processor, alone, memory = measured(program, words, scenario(size))
        row = f"{words}, {size} {name}: {events} events, {clock:.3f} s, processor {processor:.3f} s, {1e9 * processor / events:.0f} ns an event"
        row += f", lines alone {alone:.3f} s, {memory:.0f} MB"
        if before and before[1] >= 0.02:
            row += f", exponent {math.log(processor / before[1]) / math.log(size / before[0]):.2f}"
        print(row, flush=True)
        before = size, processor


def main():
    program = program_of(sys.argv)
    for words in ("order", "seed 7"):
        for kind in KINDS:
            show(program, words, *kind)


if __name__ == "__main__":
    main()
