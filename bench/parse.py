#!/usr/bin/env python3
"""How long the program takes to read and parse a scenario, and how much memory.

Not part of the gate. Build the program first (`./kmdfsim check < examples/first-read.kmdf`), then from the root:

    python3 bench/parse.py [PROGRAM]

The first texts are parsed whole and have no plan, since they ask for nine processors: what is measured is
the start of the program, the reading of the input, the parse, and the look for the first line that the plan
refuses. The others, whose bulk is numbers of `picks` lines, have a plan, and are printed too. Figures are of
the best of five runs: seconds of the clock and of the processor, and the most memory in MB (no less than what
this script itself takes, some 14 MB).
"""

import sys

from measure import program_of, report, run

HEAD = """cpus 9
limit 1000
objects 64
device D working
queue Q sequential
default
on EvtIoRead
"""
STATEMENT = "let total{0} = (((length + {0}) * 3) + (request == self))  # a comment\n"
MIDDLE = "call WdfRequestComplete request SUCCESS\nend\nend\nend\napp A\n"
POST = "at {0} read D {0}\n"
TAIL = "end\n"


def scenario(size):
    """A scenario of exactly `size` bytes: half of it statements with expressions, half posts."""
    parts = [HEAD]
    length = len(HEAD) + len(MIDDLE) + len(TAIL)
    for form, share in ((STATEMENT, size // 2), (POST, size)):
        number = 0
        while True:
            line = form.format(number)
            if length + len(line) > share - 1:
                break
            parts.append(line)
            length += len(line)
            number += 1
        if form is STATEMENT:
            parts.append(MIDDLE)
    parts.append(TAIL)
    rest = size - length
    parts.append("#" + "-" * (rest - 2) + "\n" if rest >= 2 else "\n" * rest)
    return "".join(parts).encode()


def picks(size):
    """A canonical text of exactly `size` bytes that has a plan."""
    parts = ["cpus 1\nlimit 9\nobjects 9\norder\n"]
    length = len(parts[0]) + len("end\n")
    line = "picks" + " 12345" * 100 + "\n"
    while length + 2 * len(line) <= size:
        parts.append(line)
        length += len(line)
    # One more line makes the size exact: `picks` and numbers of at most 20 digits.
    rest = size - length - len("picks\n")
    numbers = []
    while rest > 0:
        digits = rest - 1 if rest <= 20 else 10
        numbers.append(" " + "1" * digits)
        rest -= digits + 1
    parts.append("picks" + "".join(numbers) + "\n" + "end\n")
    return "".join(parts).encode()


def measured(program, text, due):
    """The figures of one run over the text, which must answer what is due."""
    answer, status, figures = run("check", text, program)
    if (answer, status) != due:
        sys.exit(f"answered {answer[:60]!r} with status {status}")
    return figures


def main():
    program = program_of(sys.argv)
    for name, make in (("refused", scenario), ("printed", picks)):
        for size in (262_144, 524_288, 1_048_576):
            text = make(size)
            assert len(text) == size
            due = (b"plan refused at line 1: OverLimit cpus\n", 11) if name == "refused" else (text, 0)
            report(f"{size} bytes, {name}", [measured(program, text, due) for _ in range(5)])


if __name__ == "__main__":
    main()
