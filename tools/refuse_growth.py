#!/usr/bin/env python3
"""Refuses each request for memory of the built program in turn, and says how it answers.

    python3 tools/refuse_growth.py [--program PROGRAM] [--each N] [SCENARIO..]

Not part of the gate. It needs Linux with glibc, and gcc: a small library in C, which is built in a temporary folder and
loaded before the C library, counts the calls of the program for memory (`malloc`, `realloc` and their like) and refuses the
k-th, or the k-th and each after it.

These forms of words are run for k from 1 on until no request is refused: `check`, `order`, `seed 3`, `replay`, `run`, `idle`,
`stack` and `lint` on each scenario (examples/first-read.kmdf and examples/deadlock.kmdf where none is named), then `gen 1` and
`load 1`. Every k up to N is tried (200 where none is named), and above it about each fiftieth part more; the row says how many
of them were tried.

Where a request is refused, the status has to be 15 and the whole answer the line `out of memory`, or the status 13 and the
answer a front of that line. So nothing of a trace is written before it. `run` may also write a whole run that `replay`
accepts: where no thread can be made, it goes on without. A row is printed for each form, and a line for each wrong answer.

The requests of runs of one scenario by several seeds are counted too. They have to be as many, whatever the run is, since all
memory is taken before the first event. The status is 0 where nothing is wrong, and else 1.
"""

import argparse
import collections
import mmap
import os
import struct
import subprocess
import sys
import tempfile

sys.dont_write_bytecode = True
from built import PROGRAM, ROOT, needs, program_at

SCENARIOS = [os.path.join(ROOT, "examples", name) for name in ("first-read.kmdf", "deadlock.kmdf")]
FORMS = ("check", "order", "seed 3", "replay", "run", "idle", "stack", "lint")
ALONE = ("gen 1", "load 1")
VARIED = [os.path.join(ROOT, "examples", name) for name in ("echo-bug.kmdf", "eight-processors.kmdf")]
SEEDS = range(20)
LINE = b"out of memory\n"
NO_MEMORY, WRITE_FAILED = 15, 13
SECONDS = 60

# What counts requests and refuses some. The count and how many were refused are in a file that is mapped, so that they are
# there also where the program ends by a signal. Only calls from the program itself count, and not those of the C library.
LIBRARY = r"""
#define _GNU_SOURCE
#include <errno.h>
#include <fcntl.h>
#include <link.h>
#include <stdlib.h>
#include <sys/mman.h>
#include <unistd.h>

extern void *__libc_malloc(size_t), *__libc_calloc(size_t, size_t), *__libc_realloc(void *, size_t), *__libc_memalign(size_t, size_t);

struct tally { unsigned long requests, refused; };
static struct tally *tally;
static unsigned long first, last;
static unsigned long low, high;

/* The addresses of the program, which comes first. */
static int measure(struct dl_phdr_info *info, size_t size, void *data) {
    low = ~0ul;
    for (int k = 0; k < info->dlpi_phnum; k++)
        if (info->dlpi_phdr[k].p_type == PT_LOAD) {
            unsigned long begin = info->dlpi_addr + info->dlpi_phdr[k].p_vaddr, end = begin + info->dlpi_phdr[k].p_memsz;
            if (begin < low) low = begin;
            if (end > high) high = end;
        }
    return 1;
}

__attribute__((constructor)) static void begin(void) {
    int file = open(getenv("REFUSE_TALLY"), O_RDWR);
    void *at = file < 0 ? MAP_FAILED : mmap(0, sizeof *tally, PROT_READ | PROT_WRITE, MAP_SHARED, file, 0);
    if (at == MAP_FAILED) _exit(99);
    close(file);
    first = strtoul(getenv("REFUSE_FIRST"), 0, 10);
    last = strtoul(getenv("REFUSE_LAST"), 0, 10);
    dl_iterate_phdr(measure, 0);
    tally = at;
}

static int is_refused(void *caller) {
    unsigned long from = (unsigned long)caller;
    if (!tally || from < low || from >= high) return 0;
    unsigned long number = __atomic_add_fetch(&tally->requests, 1, __ATOMIC_RELAXED);
    if (number < first || number > last) return 0;
    __atomic_add_fetch(&tally->refused, 1, __ATOMIC_RELAXED);
    errno = ENOMEM;
    return 1;
}

#define REFUSED is_refused(__builtin_return_address(0))
void *malloc(size_t size) { return REFUSED ? 0 : __libc_malloc(size); }
void *calloc(size_t count, size_t size) { return REFUSED ? 0 : __libc_calloc(count, size); }
void *realloc(void *old, size_t size) { return REFUSED ? 0 : __libc_realloc(old, size); }
void *memalign(size_t align, size_t size) { return REFUSED ? 0 : __libc_memalign(align, size); }
void *aligned_alloc(size_t align, size_t size) { return REFUSED ? 0 : __libc_memalign(align, size); }
int posix_memalign(void **to, size_t align, size_t size) {
    void *at = REFUSED ? 0 : __libc_memalign(align, size);
    if (!at) return ENOMEM;
    *to = at;
    return 0;
}
"""


class Refuser:
    """Runs the program with some requests for memory refused."""

    def __init__(self, program, folder):
        self.program, self.tally = program, os.path.join(folder, "tally")
        source, self.library = os.path.join(folder, "refuse.c"), os.path.join(folder, "refuse.so")
        with open(source, "w", encoding="ascii") as file:
            file.write(LIBRARY)
        subprocess.run(["gcc", "-O1", "-shared", "-fPIC", "-fno-builtin", "-o", self.library, source], check=True)

    def run(self, words, text, first, last):
        """The status, what was written, also to the standard error, the requests, and how many of them were refused."""
        with open(self.tally, "w+b") as file:
            file.write(bytes(mmap.PAGESIZE))
        given = {"LD_PRELOAD": self.library, "REFUSE_TALLY": self.tally, "REFUSE_FIRST": str(first), "REFUSE_LAST": str(last)}
        try:
            done = subprocess.run([self.program, *words.split()], input=text, capture_output=True, env=given, timeout=SECONDS)
        except subprocess.TimeoutExpired:
            sys.exit(f"{words}: no answer in {SECONDS} seconds, with the requests {first} to {last} refused")
        with open(self.tally, "rb") as file:
            requests, refused = struct.unpack("LL", file.read(16))
        return done.returncode, done.stdout, done.stderr, requests, refused

    def accepts(self, scenario, trace):
        """Whether `replay` accepts this trace of the scenario."""
        status, out, *_ = self.run("replay", scenario + b"\ntrace\n" + trace, 0, 0)
        return status == 0 and out.startswith(b"accepted ")


def fault_of(status, out, error):
    """What is wrong with an answer where a request was refused, or nothing."""
    if error:
        return f"wrote to the standard error: {error[:80]!r}"
    if status == NO_MEMORY:
        return None if out == LINE else f"status 15 with {out[:80]!r}"
    if status == WRITE_FAILED:
        return None if LINE.startswith(out) else f"status 13 with {out[:80]!r}"
    return f"status {status} with {out[:80]!r}"


def tried(requests, each):
    """The requests to refuse in turn: the first ones all, then in steps, and the last one."""
    k = 1
    while k < requests:
        yield k
        k += 1 if k < each else max(1, k // 50)
    if requests:
        yield requests


def judge(refuser, name, words, text, each):
    """Refuses the requests of one form in turn: prints its row and its wrong answers, and answers how many these are."""
    status, out, error, requests, _ = refuser.run(words, text, 0, 0)
    if error or requests == 0 or status in (NO_MEMORY, WRITE_FAILED):
        print(f"{name}: not to be tried: status {status}, {requests} requests, {(error or out)[:80]!r}", flush=True)
        return 1
    statuses, wrong, count = collections.Counter(), 0, 0
    for k in tried(requests, each):
        count += 1
        for last, how in ((k, "alone"), (2**63, "and each after it")):
            answer = refuser.run(words, text, k, last)
            statuses[answer[0]] += 1
            fault = fault_of(*answer[:3]) if answer[4] else "none was refused"
            if fault and words == "run" and answer[0] == status and refuser.accepts(text, answer[1]):
                fault = None
            if fault:
                wrong += 1
                print(f"{name}: request {k} {how}: {fault}", flush=True)
    answers = ", ".join(f"{status} {times} times" for status, times in sorted(statuses.items()))
    print(f"{name}: status {status}, {requests} requests, {count} refused in turn, alone and with each after it: {answers}; {wrong} wrong", flush=True)
    return wrong


def alike(refuser, name, text):
    """Whether runs by several seeds request memory as often as each other, whatever their lengths: prints a row."""
    runs = [refuser.run(f"seed {seed}", text, 0, 0) for seed in SEEDS]
    requests = sorted({run[3] for run in runs})
    lines = [run[1].count(b"\n") for run in runs]
    print(f"{len(runs)} seeds < {name}: traces of {min(lines)} to {max(lines)} lines, requests: {', '.join(map(str, requests))}", flush=True)
    return len(requests) == 1


def main():
    parser = argparse.ArgumentParser(description=__doc__.splitlines()[0])
    parser.add_argument("--program", default=PROGRAM)
    parser.add_argument("--each", metavar="N", type=int, default=200, help="try every request up to the N-th")
    parser.add_argument("scenarios", metavar="SCENARIO", nargs="*", default=SCENARIOS)
    given = parser.parse_args()
    needs("gcc", "it builds the library that refuses")
    wrong = 0
    with tempfile.TemporaryDirectory() as folder:
        refuser = Refuser(program_at(given.program), folder)
        for path in given.scenarios:
            with open(path, "rb") as file:
                scenario = file.read()
            trace = refuser.run("order", scenario, 0, 0)[1]
            for words in FORMS:
                text = scenario + b"\ntrace\n" + trace if words == "replay" else scenario
                wrong += judge(refuser, f"{words} < {os.path.basename(path)}", words, text, given.each)
        for path in VARIED:
            with open(path, "rb") as file:
                wrong += not alike(refuser, os.path.basename(path), file.read())
        for words in ALONE:
            wrong += judge(refuser, words, words, b"", given.each)
    print(f"{wrong} answered wrongly")
    return 1 if wrong else 0


if __name__ == "__main__":
    sys.exit(main())
