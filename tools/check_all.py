#!/usr/bin/env python3
"""Runs what is tried outside the gate, one after the other, and prints one table at the end.

    python3 tools/check_all.py [--program PROGRAM] [--long] [NAME..]

What to run before a release, beside `.ci/run`. Each row has what was tried, its last line, its seconds, and whether its
status was 0; what a row writes besides is in a log, which the table names where it isn't well. With names only these rows are
run. A row whose script or tool isn't there is left out, and says so. `--long` adds what takes hours: every wrong body.

The first row tries the programs that the launchers run; with KMDFSIM_PROVED=1 in the environment these are the proved ones.
The status is 0 where each row that was run is well, else 1.
"""

import argparse
import os
import shutil
import subprocess
import sys
import tempfile
import time

sys.dont_write_bytecode = True
from built import PROGRAM, ROOT, program_at

# The name of a row, its script with arguments, and a command that it needs. P is put for the program.
ROWS = (
    ("tests", "test --seeds 20", None),
    ("threads", "tools/run_many.py --program P 20", None),
    ("watched", "tools/run_many.py --program P --word watch 20", None),
    ("first-line", "tools/first_line.py --program P", None),
    ("refused-growth", "tools/refuse_growth.py --program P", "gcc"),
    ("hostile", "tools/hostile.py --program P 1 20", None),
    ("lint", "tools/lint_search.py --program P --scenarios 20 --seeds 20", None),
    ("browser", "tools/check_view.py P", "chromium"),
)
LONG = (("wrong-bodies", "tools/wrong_bodies.py", "rt"),)


def run(command, program, log):
    """Whether a row is well, and its last line."""
    words = [program if word == "P" else word for word in command.split()]
    with open(log, "w", encoding="utf-8") as file:
        status = subprocess.run([sys.executable, *words], cwd=ROOT, stdin=subprocess.DEVNULL, stdout=file, stderr=subprocess.STDOUT, check=False).returncode
    with open(log, encoding="utf-8", errors="replace") as file:
        lines = file.read().replace("\r", "\n").strip().split("\n")
    return status == 0, lines[-1]


def lacking(command, needed):
    """What a row lacks, if anything."""
    script = command.split()[0]
    if not os.path.exists(os.path.join(ROOT, script)):
        return f"no {script}"
    if needed and not shutil.which(needed):
        return f"no `{needed}` on the PATH"
    return None


def main():
    parser = argparse.ArgumentParser(description=__doc__.split("\n", maxsplit=1)[0])
    parser.add_argument("--program", default=PROGRAM)
    parser.add_argument("--long", action="store_true", help="also what takes hours")
    parser.add_argument("names", nargs="*", metavar="NAME", help="these rows alone")
    given = parser.parse_args()
    rows = [row for row in ROWS + LONG if row[0] in given.names] if given.names else ROWS + LONG * given.long
    if {name for name, _, _ in rows} < set(given.names):
        parser.error(f"the rows are {' '.join(name for name, _, _ in ROWS + LONG)}")
    program = program_at(given.program)
    logs, table, is_well = tempfile.mkdtemp(prefix="kmdfsim-checks-"), [], True
    for name, command, needed in rows:
        why, began = lacking(command, needed), time.monotonic()
        if why:
            table.append((name, "left out", "", why))
            continue
        print(f"{name}: {command}", file=sys.stderr, flush=True)
        log = os.path.join(logs, name + ".log")
        well, last = run(command, program, log)
        is_well = is_well and well
        table.append((name, "well" if well else "NOT WELL", f"{time.monotonic() - began:.0f} s", last[:90] if well else f"{last[:60]} ({log})"))
    for name, state, seconds, last in table:
        print(f"{name:15} {state:9} {seconds:>7}  {last}")
    if is_well:
        shutil.rmtree(logs)
    sys.exit(0 if is_well else 1)


if __name__ == "__main__":
    main()
