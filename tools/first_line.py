#!/usr/bin/env python3
"""Looks on while `watch` writes: its first line has to come before the run has ended.

    python3 tools/first_line.py [--program PROGRAM] [--limit N] [--times N] [SCENARIO ..]

`kmdfsim watch` is called on each scenario with a pseudo-terminal as its output, and what it writes is read as it comes. Without
names these are examples/eight-processors.kmdf and the scenario of `gen 3`, whose runs have 20,000 events. In each the line
`limit` is changed to N, 200,000 if none is given. A row is printed for each word: the events, when the first line and the last
one came after the start, and the events a second. `run` is called the same way, to compare: it writes when all is over. Each
is called `--times` times, once if no number is given, and the row has the least times.

The status is 0 where each first line of `watch` came in the first half of its time. Else it is 1: a program that writes at the
end of the run does that, since a run takes far longer than the writing. It is 2 where the arguments are wrong.
"""

import argparse
import os
import pty
import re
import subprocess
import sys
import tempfile
import time

sys.dont_write_bytecode = True
from built import PROGRAM, ROOT, program_at

EXAMPLE = os.path.join(ROOT, "examples", "eight-processors.kmdf")


def read_all(terminal):
    """What is written to a terminal, with the times at which its first and its last piece came."""
    pieces, first, last = [], None, None
    while True:
        try:
            piece = os.read(terminal, 65536)
        except OSError:
            # The other end is closed.
            break
        if not piece:
            break
        last = time.monotonic()
        first = first or last
        pieces.append(piece)
    return b"".join(pieces).replace(b"\r\n", b"\n"), first, last


def look_on(program, word, scenario):
    """How many events a run has, and how many seconds after its start its first and its last line came."""
    mine, theirs = pty.openpty()
    with tempfile.TemporaryFile() as text:
        text.write(scenario)
        text.seek(0)
        began = time.monotonic()
        running = subprocess.Popen([program, word], stdin=text, stdout=theirs)
    os.close(theirs)
    written, first, last = read_all(mine)
    os.close(mine)
    running.wait()
    if not written:
        sys.exit(f"`{word}` wrote nothing, and ended with {running.returncode}")
    events = sum(line[:1].isdigit() for line in written.split(b"\n"))
    return events, first - began, last - began


def scenarios(program, paths):
    """The scenarios, each with its name."""
    for path in paths or [EXAMPLE]:
        with open(path, "rb") as file:
            yield os.path.basename(path), file.read()
    if not paths:
        yield "gen 3", subprocess.run([program, "gen", "3"], stdout=subprocess.PIPE, check=True).stdout


def main():
    parser = argparse.ArgumentParser(description="Looks on while `watch` writes.")
    parser.add_argument("--program", default=PROGRAM)
    parser.add_argument("--limit", type=int, default=200000)
    parser.add_argument("--times", type=int, default=1)
    parser.add_argument("scenarios", nargs="*", metavar="SCENARIO", help="a file")
    given = parser.parse_args()
    if given.times < 1 or given.limit < 1:
        parser.error("one at least")
    program, is_well = program_at(given.program), True
    for name, text in scenarios(program, given.scenarios):
        scenario = re.sub(rb"(?m)^limit \d+", b"limit %d" % given.limit, text, count=1)
        for word in ("watch", "run"):
            seen = [look_on(program, word, scenario) for _ in range(given.times)]
            early = all(first < last / 2 for _, first, last in seen)
            is_well = is_well and (early or word == "run")
            events, first, last = seen[0][0], min(row[1] for row in seen), min(row[2] for row in seen)
            rate = max(row[0] / row[2] for row in seen)
            print(f"{name}, {word}: {events} events, the first line after {first * 1000:.0f} ms and the last after {last * 1000:.0f} ms, {rate:,.0f} events a second", flush=True)
    print("each first line came before its run had ended" if is_well else "A FIRST LINE CAME LATE")
    return 0 if is_well else 1


if __name__ == "__main__":
    sys.exit(main())
