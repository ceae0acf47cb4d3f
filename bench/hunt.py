#!/usr/bin/env python3
"""How many seeds a second `kmdfhunt` runs, by processors, beside `kmdfsim seed N` in a loop.

Not part of the gate. Build both programs first, then from the root:

    python3 bench/hunt.py HUNTER PROGRAM [SCENARIO..]

The scenarios are examples/two-reads.kmdf (12 events a run), locks.kmdf (37) and echo-bug.kmdf (62) where none is named. For each it
prints the seeds a second and the processor's microseconds a run on one, two and four processors, as far as there are as many, the
best of three; then those of the loop, one seed a process; and what the hunter on one processor has of the loop's.
Aims: a short run takes tens of microseconds, four processors do three times the seeds of one, on a machine that does nothing else.
"""

import os
import sys
from functools import partial
from pathlib import Path

from measure import run

RUNS = 3
SEEDS = 20_000
ALONE = 200
EXAMPLES = ("two-reads", "locks", "echo-bug")


def by_processors(count, work):
    """What the work answers where this process and its children have so many processors."""
    all_processors = os.sched_getaffinity(0)
    os.sched_setaffinity(0, sorted(all_processors)[:count])
    try:
        return work()
    finally:
        os.sched_setaffinity(0, all_processors)


def hunted(hunter, text):
    """The best seconds of some hunts over the text, and the processor's seconds of that one."""
    figures = []
    for _ in range(RUNS):
        answer, status, (clock, processor, _memory) = run(f"seeds 0 {SEEDS}", text, hunter)
        if status not in (0, 3, 4, 5):
            sys.exit(f"seeds ended with {status}: {answer[:100]!r}")
        figures.append((clock, processor))
    return min(figures)


def alone(program, text):
    """The seconds of a process for each of some seeds, and the processor's seconds."""
    figures = [run(f"seed {seed}", text, program)[2] for seed in range(ALONE)]
    return sum(clock for clock, _, _ in figures), sum(processor for _, processor, _ in figures)


def line(name, seeds, seconds, processor):
    """Prints a row: seeds a second, and the processor's microseconds a seed."""
    print(f"    {name}: {seeds / seconds:.0f} seeds a second, processor {processor / seeds * 1e6:.0f} us a seed", flush=True)


def main():
    if len(sys.argv) < 3:
        sys.exit(__doc__)
    hunter, program, *named = sys.argv[1:]
    for path in named or [f"examples/{name}.kmdf" for name in EXAMPLES]:
        text = Path(path).read_bytes()
        print(path, flush=True)
        times = {}
        for count in (1, 2, 4):
            if count <= len(os.sched_getaffinity(0)):
                times[count], processor = by_processors(count, partial(hunted, hunter, text))
                line(f"{count} processors", SEEDS, times[count], processor)
        seconds, processor = by_processors(1, partial(alone, program, text))
        line("a process a seed", ALONE, seconds, processor)
        most = max(times)
        print(f"    {most} processors do {times[1] / times[most]:.1f} times one, and one {seconds / ALONE / (times[1] / SEEDS):.0f} times the loop", flush=True)


if __name__ == "__main__":
    main()
