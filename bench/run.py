#!/usr/bin/env python3
"""How fast runs by threads are beside runs by a seed, with 1 to 8 processors.

Not part of the gate. Build the program first (`./kmdfsim check < examples/first-read.kmdf`), then from the root:

    python3 bench/run.py [PROGRAM]

Each scenario is run by `run` and by `seed 1`, three times each. In the first kind each processor has a device of its own,
whose callbacks have a queue's lock, so that all processors have something to do at once; in the second all of them share one
device's lock, so that one at a time has. A row has the processors, the events, and for each word the best of three runs: events a
second of the clock, and the processors' seconds for each second of the clock. A worker whose turn adds nothing lets other
threads run, and looks up to a hundred times whether there is a new event, before it tries again. So what the processors do
beyond one second a second is mostly waiting: the core is one, and only one worker at a time has it.
"""

import sys

from measure import program_of, run

RUNS = 3
READS = 1200


def devices(cpus):
    """As many devices as processors, and as many reads in all."""
    text = ""
    for k in range(cpus):
        text += f"device D{k} working\nscope queue\nqueue Q{k} sequential\ndefault\non EvtIoRead\n"
        text += "repeat 8\nlet x = ( x + length )\nend\ncall WdfRequestComplete request SUCCESS\nend\nend\nend\n"
    for k in range(cpus):
        text += f"app A{k}\n" + f"at 0 read D{k} 16\n" * (READS // cpus) + "end\n"
    return text


def one_lock(cpus):
    """As many queues as processors, under one device's lock, and as many reads in all."""
    text = "device D working\nscope device\n"
    forms = ("read", "EvtIoRead"), ("write", "EvtIoWrite"), ("control", "EvtIoDeviceControl")
    for form, callback in forms:
        text += f"queue Q{form} sequential\nfor {form}\non {callback}\n"
        text += "repeat 8\nlet x = ( x + length )\nend\ncall WdfRequestComplete request SUCCESS\nend\nend\n"
    text += "end\n"
    for k in range(cpus):
        lines = ("at 0 read D 16\n", "at 0 write D 16\n", "at 0 control D 7 16\n")
        text += f"app A{k}\n" + "".join(lines[at % 3] for at in range(READS // cpus)) + "end\n"
    return text


KINDS = (("a device a processor", devices), ("one lock", one_lock))


def measured(program, word, text):
    """The events of a run, the best events a second, and the processors' seconds a second of that run."""
    best = None
    for _ in range(RUNS):
        trace, status, (clock, processor, _) = run(word, text, program)
        ending = trace.decode().splitlines()[-1]
        if status != 0 or not ending.startswith("finished "):
            sys.exit(f"{word} ended with status {status} and {ending!r}")
        events = int(ending.split()[1])
        if best is None or events / clock > best[1]:
            best = events, events / clock, processor / clock
    return best


def main():
    program = program_of(sys.argv)
    for name, body in KINDS:
        for cpus in (1, 2, 4, 8):
            text = (f"cpus {cpus}\nlimit 200000\nobjects 64\n" + body(cpus)).encode()
            row = f"{name}, {cpus} processors"
            for word in ("seed 1", "run"):
                events, speed, share = measured(program, word, text)
                row += f"; {word}: {events} events, {speed:,.0f} a second, {share:.1f} processors"
            print(row, flush=True)


if __name__ == "__main__":
    main()
