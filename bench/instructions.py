#!/usr/bin/env python3
"""How many instructions an event takes by each word, for the kinds of work of `table.py` but `gen`. A busy computer doesn't change them.

Not part of the gate. It needs `valgrind`. Build the program first (`./kmdfsim check < examples/first-read.kmdf`), then from the root:

    python3 bench/instructions.py [PROGRAM] [KIND ..]

Each kind is run at its last two sizes (interrupts and the loop at sizes whose traces `replay` reads) by `order`, by `seed 5` and by
`replay` of the trace that `order` wrote. A row has the size, the events by `order`, and for each word the instructions of the run less those of
`check` of the same scenario, an event. `check` reads the text, makes its plan and writes it in canonical form. Beside it is the
exponent of growth since the size before (1.0: twice the events take twice as many), but not where the events don't grow. The
last column has what `replay` takes for each instruction of `order`, with all text.
"""

import math
import re
import subprocess
import sys
import tempfile

from measure import PROGRAM
from table import KINDS, LONGEST, events_of

# Sizes whose traces `replay` reads, of the kinds whose longest are longer.
SIZES = {"interrupts": (12500, 25000), "loop": (15250, 30500)}
NAMES = [name for name in KINDS if KINDS[name][0]]


def instructions(program, words, text):
    """The answer of a run, and how many instructions it took."""
    with tempfile.TemporaryFile() as source:
        source.write(text)
        source.seek(0)
        counted = ["valgrind", "--tool=callgrind", "--callgrind-out-file=/dev/null", program, *words.split()]
        ran = subprocess.run(counted, stdin=source, capture_output=True, check=False)
    found = re.search(rb"Collected : (\d+)", ran.stderr)
    if not found:
        sys.exit(f"no count of {words}: {ran.stderr[-200:]!r}")
    return ran.stdout, int(found[1])


def figures_of(program, text):
    """Of each word the events and the instructions less those of `check`, none where the trace is too long; and `replay` for one of `order`."""
    reading = instructions(program, "check", text)[1]
    trace, ordered = instructions(program, "order", text)
    seeded, by_seed = instructions(program, "seed 5", text)
    columns = [(events_of(trace), ordered - reading), (events_of(seeded), by_seed - reading), None]
    traced = text + b"trace\n" + trace
    if len(traced) > LONGEST:
        return columns, None
    replayed = instructions(program, "replay", traced)[1]
    columns[2] = events_of(trace), replayed - reading
    return columns, replayed / ordered


def cell(now, before):
    """Instructions an event, and how they grew since the size before."""
    if now is None:
        return "too long    "
    grown = "    "
    if before and now[0] != before[0]:
        grown = f"{math.log(now[1] / before[1]) / math.log(now[0] / before[0]):4.2f}"
    return f"{now[1] / now[0]:7,.0f} {grown}"


def main():
    words = sys.argv[1:]
    program = words.pop(0) if words and words[0] not in NAMES else PROGRAM
    print(f"{'':24}| order        | seed 5       | replay       | replay")
    print(f"{'work':12}{'size':>6}{'events':>6}" + "|   each grow  " * 3 + "| for one of order", flush=True)
    for name in words or NAMES:
        before = [None, None, None]
        for size in SIZES.get(name, KINDS[name][1][-2:]):
            now, ratio = figures_of(program, KINDS[name][0](size).encode())
            cells = "".join(f"| {cell(*pair)} " for pair in zip(now, before))
            print(f"{name:12}{size:6}{now[0][0]:6}{cells}|" + (f" {ratio:4.2f}" if ratio else ""), flush=True)
            before = now


if __name__ == "__main__":
    main()
