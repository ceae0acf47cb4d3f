#!/usr/bin/env python3
"""How long the static check takes on the largest callbacks.

Not part of the gate. Build the program first (`./kmdfsim check < examples/first-read.kmdf`), then from the root:

    python3 bench/lint.py [PROGRAM]

The scenarios: one callback of 4,096 statements in a row, clean and with a finding at each; callbacks of 4,096 statements
together; one of 8,190 states, and one of more than the 10,000 that a walk keeps. `check` reads, parses, resolves and prints the same
text, so the difference is about what the walk takes. Aim: under 0.2 seconds each. Figures are seconds of the processor, the best of five runs.
"""

import sys

from measure import program_of, run

HEAD = "cpus 1\nlimit 100\nobjects 4096\n"


def one_callback(statements):
    """A queue whose read callback has these statements."""
    return ["device D working", "queue Q sequential", "default", "on EvtIoRead", *statements, "end", "end", "end"]


def doubling(times, more):
    """So many tests that aren't decided, each with an assignment: each doubles the states. Statements more at the end."""
    lines = []
    for number in range(times):
        lines += ["if length", f"let x{number} = 1", "end"]
    return lines + ["spend 1"] * more


def functions(count):
    """Callbacks of classes with `count` statements together."""
    lines = ["device D", "end"]
    for number in range(256):
        share = count // (256 - number)
        count -= share
        lines += [f"class C{number} dpc D", "on EvtDpcFunc"] + ["spend 1"] * share + ["end", "end"]
    return lines


SCENARIOS = {
    "4,096 statements in a row": one_callback(["spend 1"] * 4096),
    "4,096 statements in a row, each with a finding": one_callback(["let x = 0"] + ["call WdfRequestRequeue x"] * 4095),
    "4,096 statements in 256 callbacks": functions(4096),
    "8,190 states": one_callback(doubling(11, 1)),
    "more states than are kept": one_callback(doubling(13, 0)),
}


def main():
    program = program_of(sys.argv)
    for name, lines in SCENARIOS.items():
        text = (HEAD + "\n".join(lines) + "\n").encode()
        figures = {}
        for words in ("check", "lint"):
            results = [run(words, text, program) for _ in range(5)]
            figures[words] = min(result[2][1] for result in results), results[0][1]
        print(f"{name}: lint {figures['lint'][0]:.3f} s (status {figures['lint'][1]}), check {figures['check'][0]:.3f} s")


if __name__ == "__main__":
    main()
