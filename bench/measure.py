"""What the benchmarks share: one run of the built program, and the line that sums up several."""

import os
import subprocess
import sys
import tempfile
import time

PROGRAM = os.path.join("crates", "kmdfsim", "out", "kmdfsim")


def program_of(words):
    """The program that the words name, or the built one of this tree; without a program the process ends."""
    program = words[1] if len(words) > 1 else PROGRAM
    if not os.path.exists(program):
        sys.exit(f"no program at {program}: build it first, by `./kmdfsim check < examples/first-read.kmdf`")
    return program


def run(words, text, program=PROGRAM):
    """The answer and the status of one run by these words over the text, and its figures: seconds of the clock and of the processor, and MB."""
    with tempfile.TemporaryFile() as source, tempfile.TemporaryFile() as written:
        source.write(text)
        source.seek(0)
        start = time.perf_counter()
        child = subprocess.Popen([program, *words.split()], stdin=source, stdout=written)
        _, status, usage = os.wait4(child.pid, 0)
        seconds = time.perf_counter() - start
        written.seek(0)
        answer = written.read()
    figures = seconds, usage.ru_utime + usage.ru_stime, usage.ru_maxrss / 1024
    return answer, -os.WTERMSIG(status) if os.WIFSIGNALED(status) else os.WEXITSTATUS(status), figures


def written_alone(text):
    """The processor's seconds that it takes to write the lines of a text alone, a call for each."""
    with tempfile.TemporaryFile() as file:
        number, lines = file.fileno(), text.splitlines(keepends=True)
        start = time.process_time()
        for line in lines:
            os.write(number, line)
        return time.process_time() - start


def read_alone(text):
    """The processor's seconds that it takes to read a text in pieces of 8,192 bytes and cut it into lines, alone."""
    with tempfile.TemporaryFile() as file:
        file.write(text)
        file.seek(0)
        start = time.process_time()
        pieces = list(iter(lambda: os.read(file.fileno(), 8192), b""))
        b"".join(pieces).splitlines()
        return time.process_time() - start


def report(name, runs):
    """Prints the best seconds and the most memory of some runs' figures."""
    clock, processor, memory = zip(*runs)
    print(f"{name}: {min(clock):.3f} s, processor {min(processor):.3f} s, {max(memory):.0f} MB", flush=True)
