#!/usr/bin/env python3
"""Cuts a range of seeds into parts, runs them under GNU parallel, and compares their sum with the table of the whole range.

    python3 tools/many_machines.py [PROGRAM]     PROGRAM is ./kmdfhunt, if it isn't named

It wants the command `parallel` (on Debian and Ubuntu `apt-get install parallel`). It isn't part of the gate: the gate's machines
may not have that command. It ends with 0 where the tables and the statuses are the same.
"""
import os
import subprocess
import sys

SCENARIOS = ("examples/echo-bug.kmdf", "examples/deadlock.kmdf", "examples/first-read.kmdf")
SEEDS, PARTS = 1000, 10


def run(command):
    """What a shell command writes, and its status."""
    done = subprocess.run(["bash", "-c", command], capture_output=True, text=True, check=False)
    return done.stdout, done.returncode


def main():
    """Compares the sum of the parts with the whole, for each scenario."""
    os.chdir(os.path.join(os.path.dirname(os.path.abspath(__file__)), ".."))
    program = sys.argv[1] if len(sys.argv) > 1 else "./kmdfhunt"
    each = SEEDS // PARTS
    wrong = 0
    for scenario in SCENARIOS:
        whole = run(f"{program} seeds 0 {SEEDS} < {scenario}")
        parts = run(f"seq 0 {each} {SEEDS - each} | parallel '{program} seeds {{}} {each} < {scenario}' | {program} sum")
        if whole != parts or not whole[0]:
            wrong += 1
            print(f"{scenario}: the whole is\n{whole[0]}status {whole[1]}, and the sum of its parts\n{parts[0]}status {parts[1]}")
        else:
            print(f"{scenario}: the sum of {PARTS} tables is the table of {SEEDS} seeds, with the status {whole[1]}")
    return 1 if wrong else 0


if __name__ == "__main__":
    sys.exit(main())
