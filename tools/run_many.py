#!/usr/bin/env python3
"""Runs each example by threads many times, and has `replay` check each trace.

    python3 tools/run_many.py [--word WORD] [--jobs N] [--program PROGRAM] RUNS [SCENARIO ..]

`kmdfsim run`, or `kmdfsim watch` where WORD is that, is called RUNS times on each scenario: on those of examples/, if none is named. A row is printed for each
scenario: how many runs there were, how many of their traces were different, and how the runs ended. Each trace is handed to
`kmdfsim replay` after the scenario and a line `trace`; it accepts exactly the texts of runs that have ended. N runs go
on side by side, one if none is given, since a run has threads of its own.

The status is 0 where each trace was accepted, 1 where one wasn't or a run came to no end, and 2 where the arguments are wrong.
"""

import argparse
import collections
import glob
import multiprocessing.pool
import os
import subprocess
import sys

sys.dont_write_bytecode = True
from built import PROGRAM, ROOT, program_at

# The program's statuses for the endings of a run.
ENDINGS = {0: "finished", 3: "fault", 4: "stuck", 5: "limit"}
# No run of an example takes as long.
SECONDS = 60


class Bad(Exception):
    """A run came to no end, or its trace was refused."""


def call(program, word, text):
    """The status and the answer of the program to a text."""
    done = subprocess.run([program, word], input=text, stdout=subprocess.PIPE, timeout=SECONDS)
    return done.returncode, done.stdout


def traced(program, word, scenario):
    """The ending and the trace of one run, which `replay` accepts."""
    status, trace = call(program, word, scenario)
    if status not in ENDINGS:
        raise Bad(f"`{word}` ended with {status}: {trace[:200].decode(errors='replace').strip()}")
    mark = b"trace\n" if scenario.endswith(b"\n") else b"\ntrace\n"
    verdict, line = call(program, "replay", scenario + mark + trace)
    if verdict != 0 or not line.startswith(b"accepted "):
        raise Bad(f"`replay` answered {line.decode(errors='replace').strip()!r} to\n{trace.decode(errors='replace')}")
    return ENDINGS[status], trace


def run_many(program, word, scenario, runs, jobs):
    """How many traces were different, and how many runs ended in each way."""
    traces, endings = set(), collections.Counter()
    with multiprocessing.pool.ThreadPool(jobs) as pool:
        for ending, trace in pool.imap_unordered(lambda _: traced(program, word, scenario), range(runs)):
            traces.add(trace)
            endings[ending] += 1
    return len(traces), endings


def arguments():
    """The arguments, checked."""
    parser = argparse.ArgumentParser(description="Runs each example by threads many times.")
    parser.add_argument("--word", choices=("run", "watch"), default="run")
    parser.add_argument("--jobs", type=int, default=1, help="runs side by side")
    parser.add_argument("--program", default=PROGRAM)
    parser.add_argument("runs", type=int, metavar="RUNS")
    parser.add_argument("scenarios", nargs="*", metavar="SCENARIO", help="a file")
    given = parser.parse_args()
    if given.runs < 1 or given.jobs < 1:
        parser.error("one run at least")
    given.program = program_at(given.program)
    for path in given.scenarios:
        if not os.path.exists(path):
            parser.error(f"no file {path}")
    return given


def main():
    given = arguments()
    paths = given.scenarios or sorted(glob.glob(os.path.join(ROOT, "examples", "*.kmdf")))
    bad = 0
    for path in paths:
        with open(path, "rb") as file:
            scenario = file.read()
        name = os.path.basename(path)
        try:
            different, endings = run_many(given.program, given.word, scenario, given.runs, given.jobs)
        except (Bad, subprocess.TimeoutExpired) as error:
            print(f"{name}: {error}", flush=True)
            bad += 1
            continue
        ways = ", ".join(f"{ending} {count}" for ending, count in endings.most_common())
        print(f"{name}: {given.runs} runs by `{given.word}`, {different} different, all accepted; {ways}", flush=True)
    return 1 if bad else 0


if __name__ == "__main__":
    sys.exit(main())
