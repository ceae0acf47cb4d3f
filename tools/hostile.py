#!/usr/bin/env python3
"""Gives the built program hostile texts, and says which of them it doesn't answer as it should.

    python3 tools/hostile.py [--jobs N] [--program PROGRAM] [--keep FOLDER] FROM TO

The texts are: every front of each scenario in examples/ and every change of one of its bytes (to a byte that
the seed picks), and for each seed from FROM to TO random tokens in random order and random lines of the examples;
and, once, lines repeated up to each limit and one past it, and a text of the greatest length of one line, of `(`,
of `else`, of names that differ in their last digits, of one comment, of arbitrary bytes, of a name that is declared
again and again and used, and texts that ask for the same long search again and again.

Each text must be answered by `check` and by `order` with a status of the table in docs/guide/TUTORIAL.md, in one line where it is
refused, in less than two seconds of the processor and 400 MB, with no signal and nothing on the standard error.
A row is printed for each text that isn't, with its name; `--keep FOLDER` keeps these texts. The status is 0 where
all were, and else 1.
"""

import argparse
import glob
import multiprocessing.pool
import os
import random
import re
import subprocess
import sys
import tempfile
import threading

sys.dont_write_bytecode = True
from built import PROGRAM, ROOT, program_at

LIMIT = 1 << 20
SECONDS, KILOBYTES = 2.0, 400 * 1024
# What is written for each status of a refusal.
REFUSALS = {
    10: rb"parse refused at line \d+( column \d+)?: (NotAscii|BadToken|BadLine|Unclosed|NumberTooLarge)\n",
    11: rb"plan refused at line \d+: (UnknownName|TwiceNamed first \d+|WrongCallback|OverLimit [a-z]+|IncompatibleLevel|NoParent)\n",
    14: rb"input too large\n",
}
# The last lines of a run, by status.
ENDINGS = {0: rb"(^|\n)finished \d+\n$", 3: rb"\nfault \d+\n$", 4: rb"(^|\n)stuck \d+\n", 5: rb"(^|\n)limit \d+\n$"}
WORDS = (
    "cpus limit objects driver class device working interrupt queue sequential parallel manual target app pnp order end on "
    "scope level passive dispatch inherit none register when at read write control cancel set raise lower start sleep wake "
    "rebalance remove surprise picks serialize period power off zero default for let call get put if else repeat spend log "
    "return self request length code status SUCCESS CANCELLED EvtIoRead EvtIoStop EvtTimerFunc WdfRequestComplete "
    "WdfObjectCreate GetContext D Q T I A x ( ) = == != < <= + - * / % & | ^ 0 1 2 7 16 200000 18446744073709551615 "
    "18446744073709551616 version trace # ! 1a"
).split()


def answer(program, word, text):
    """The status of the program on a text, what it wrote, its processor seconds and its greatest size in KB."""
    with tempfile.TemporaryFile() as given, tempfile.TemporaryFile() as out, tempfile.TemporaryFile() as error:
        given.write(text)
        given.seek(0)
        process = subprocess.Popen([program, word], stdin=given, stdout=out, stderr=error)
        timer = threading.Timer(60, process.kill)
        timer.start()
        _, status, used = os.wait4(process.pid, 0)
        timer.cancel()
        process.returncode = status
        out.seek(0)
        error.seek(0)
        return status, out.read(), error.read(), used.ru_utime + used.ru_stime, used.ru_maxrss


def fault_of(word, status, out, error, seconds, kilobytes):
    """What is wrong with an answer, or nothing."""
    if os.WIFSIGNALED(status):
        return f"signal {os.WTERMSIG(status)}"
    status = os.WEXITSTATUS(status)
    if error:
        return f"wrote to the standard error: {error[:80]!r}"
    if status in REFUSALS:
        if not re.fullmatch(REFUSALS[status], out):
            return f"status {status} with {out[:80]!r}"
    elif word == "check":
        if status != 0:
            return f"status {status} with {out[:80]!r}"
    elif status not in ENDINGS or not re.search(ENDINGS[status], out):
        return f"status {status} with the end {out[-80:]!r}"
    if seconds > SECONDS:
        return f"{seconds:.2f} seconds of the processor"
    if kilobytes > KILOBYTES:
        return f"{kilobytes // 1024} MB"
    return None


def examples():
    for path in sorted(glob.glob(os.path.join(ROOT, "examples", "*.kmdf"))):
        with open(path, "rb") as file:
            yield os.path.basename(path), file.read()


def fronts_and_changes(seed):
    """Every front of each example, and each with one byte changed."""
    pick = random.Random(seed)
    for name, text in examples():
        for size in range(len(text)):
            yield f"{name}: front {size}", text[:size]
        for at in range(len(text)):
            yield f"{name}: byte {at}", text[:at] + bytes([pick.randrange(256)]) + text[at + 1 :]


def random_texts(seed):
    """Random tokens, and the lines of the examples in another order."""
    pick = random.Random(seed)
    head = "cpus 1\nlimit 100\nobjects 16\n"
    tokens = ["\n" if pick.random() < 0.3 else pick.choice(WORDS) for _ in range(pick.randrange(1, 400))]
    yield f"tokens {seed}", (pick.choice(["", head]) + " ".join(tokens)).encode()
    lines = [line for _, text in examples() for line in text.split(b"\n")]
    yield f"lines {seed}", head.encode() + b"\n".join(pick.choice(lines) for _ in range(pick.randrange(1, 60))) + b"\n"
    name, text = pick.choice(list(examples()))
    lines = text.split(b"\n")
    for _ in range(pick.randrange(1, 4)):
        at = pick.randrange(len(lines))
        lines[at : at + 1] = pick.choice([[], [lines[at]] * 2, [pick.choice(lines)]])
    yield f"{name}: lines {seed}", b"\n".join(lines)


HEAD = "cpus 1\nlimit 100\nobjects 4096\n"


def many(name, count, before, line, after):
    """A text with so many lines between others; `{}` in a line is its number."""
    return f"{name} {count}", (HEAD + before + "".join(line.replace("{}", str(k)) + "\n" for k in range(count)) + after).encode()


def at_limits():
    """Lines repeated up to each limit and one past it."""
    device = "device D working\n"
    in_callback = device + "queue Q sequential\ndefault\non EvtIoRead\n"
    ends = "end\nend\nend\n"
    for over in (0, 1):
        yield many("devices", 8 + over, "", "device D{}\nend", "")
        yield many("apps", 256 + over, "", "app A{}\nend", "")
        yield many("registers", 64 + over, device, "register R{} 0", "end\n")
        yield many("classes", 256 + over, "", "class C{} object\nend", "")
        yield many("statements", 4096 + over, in_callback, "log 1", ends)
        yield many("posts", 4096 + over, device + "end\napp A\n", "at 0 read D 1", "end\n")
        yield many("variables", 16 + over, in_callback, "let x{} = 1", ends)
        yield many("ifs", 16 + over, in_callback, "if 1", "end\n" * (16 + over) + ends)
        yield "parentheses", (HEAD + in_callback + "log " + "( 1 + " * (16 + over) + "1" + " )" * (16 + over) + "\n" + ends).encode()
        yield f"picks {over}", (HEAD + "order\npicks" + " 1" * (200000 + over) + "\nend\n").encode()
        yield f"length {over}", (HEAD + "#" * (LIMIT - len(HEAD) + over)).encode()


def sum_of(name, depth):
    """A sum of a name with itself, with so many open parentheses at the deepest."""
    return f"({sum_of(name, depth - 1)} + {sum_of(name, depth - 1)})" if depth else name


def branches(depth):
    """A line in each of the branches of so many `if` in one another."""
    return "if 1\n" + branches(depth - 1) + "else\n" + branches(depth - 1) + "end\n" if depth else "log 1\n"


def large():
    """Texts of the greatest length, of one kind each."""
    room = LIMIT - 200

    def fill(piece, count=None):
        return piece * (count or room // len(piece))

    in_callback = HEAD + "device D working\nqueue Q sequential\ndefault\non EvtIoRead\n"
    yield "one line", fill("a").encode()
    yield "one line of tokens", (HEAD + fill("a ")).encode()
    yield "one line of (", (in_callback + "log " + fill("(")).encode()
    yield "many (", (in_callback + "log " + fill("( ")).encode()
    yield "else", (in_callback + fill("else\n")).encode()
    yield "if", (in_callback + fill("if 1\n")).encode()
    yield "if end", (in_callback + fill("if 1\nend\n")).encode()
    yield "if else end", (in_callback + fill("if 1\nelse\nend\n")).encode()
    yield "long else", (in_callback + "if 1\n" + fill("if 1\nend\n", 50000) + "else\n" + "log 1\nend\nend\nend\nend\n").encode()
    yield "end", (HEAD + fill("end\n")).encode()
    yield "comment", (HEAD + "# " + fill("x")).encode()
    yield "newlines", fill("\n").encode()
    yield "device D end", (HEAD + fill("device D\nend\n")).encode()
    yield "class C object end", (HEAD + fill("class C object\nend\n")).encode()
    yield "classes of one name", (HEAD + "".join("class C dpc D\nend\n" for _ in range(20000)) + fill("class C dpc C\nserialize\nend\n", 15000)).encode()
    yield "calls of classes of one name", (HEAD + fill("class C object\nend\n", 25000) + "device D\non EvtDeviceD0Entry\n" + fill("call x = WdfObjectCreate C D\n", 15000)).encode()
    yield "uses", (in_callback + fill("let x = ( x + x )\n")).encode()
    yield "names of one length", (HEAD + "".join(f"class {'n' * 26}{k:05d} object\nend\n" for k in range(20000))).encode()
    yield "arbitrary bytes", bytes(random.Random(7).randrange(256) for _ in range(LIMIT))
    yield "one past the greatest length", b"\n" * (LIMIT + 1)
    yield "picks lines", (HEAD + "order\n" + fill("picks 1\n")).encode()
    yield "posts", (HEAD + "device D working\nend\napp A\n" + fill("at 0 read D 1\n")).encode()


def searches():
    """Texts that ask for the same long search again and again: for a name, for a parent, for where a way leads."""
    on_device = "device D\non EvtDeviceD0Entry\n"
    registers = "".join(f"register X{k} 0\n" for k in range(30000))
    uses = "when read R set R 1 after 0\n" * 15000
    yield "uses of twice declared names", (HEAD + "app R\nend\ndevice D\n" + uses + registers + "register R 0\nend\n").encode()
    sums = ("log " + sum_of("Q", 6) + "\n") * 1000
    yield "sums of twice declared names", (HEAD + "app Q\nend\n" + on_device + sums + "end\n" + registers + "queue Q manual\nend\nend\n").encode()
    classes = "".join(f"class C{k} workitem Q\nserialize\non EvtWorkItem\nend\nend\n" for k in range(256))
    queues = ("queue Q manual\n" + "for read\nfor write\nfor control\n" * 8 + "end\n") * 3600
    yield "serialize", (HEAD + classes + "device D\n" + queues + "queue Q manual\nlevel passive\nend\nend\n").encode()
    after = "if 1\nelse\nend\n" * 2048
    yield "long else after many ends", (HEAD + on_device + "if 1\n" + branches(10) + "else\n" + after + "end\n" * 3).encode()


def texts(first, last):
    yield from at_limits()
    yield from large()
    yield from searches()
    for seed in range(first, last + 1):
        yield from random_texts(seed)
    yield from fronts_and_changes(first)


def main():
    parser = argparse.ArgumentParser(description=__doc__.splitlines()[0])
    parser.add_argument("--jobs", type=int, default=os.cpu_count())
    parser.add_argument("--program", default=PROGRAM)
    parser.add_argument("--keep", metavar="FOLDER", help="keep the texts that aren't answered as they should")
    parser.add_argument("first", metavar="FROM", type=int)
    parser.add_argument("last", metavar="TO", type=int)
    given = parser.parse_args()
    given.program = program_at(given.program)
    if given.keep:
        os.makedirs(given.keep, exist_ok=True)

    def judge(named):
        name, text = named
        found = []
        for word in ("check", "order"):
            fault = fault_of(word, *answer(given.program, word, text))
            if fault:
                found.append(f"{word}: {fault}")
        return name, text, found

    tried = wrong = 0
    with multiprocessing.pool.ThreadPool(given.jobs) as pool:
        for name, text, found in pool.imap_unordered(judge, texts(given.first, given.last), chunksize=4):
            tried += 1
            for fault in found:
                print(f"{name}: {fault}", flush=True)
            if found:
                wrong += 1
                if given.keep:
                    with open(os.path.join(given.keep, re.sub(r"\W+", "_", name)), "wb") as file:
                        file.write(text)
            if tried % 500 == 0:
                print(f"{tried} texts, {wrong} answered wrongly", file=sys.stderr, flush=True)
    print(f"{tried} texts, {wrong} answered wrongly")
    return 1 if wrong else 0


if __name__ == "__main__":
    sys.exit(main())
