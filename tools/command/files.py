"""Doing a word for standard input, for a file, or for each of several files under its name."""
from __future__ import annotations

import os
import subprocess
import sys
from typing import Callable, List, Optional, Sequence

from . import colours, refusals, running
from .call import Call
from .words import Reads, Writes

READ_FAULT, WRITE_FAULT = 12, 13
# The most bytes that any program reads: those of a scenario and its trace.
MOST = 134_217_728
WAITS = {
    Reads.SCENARIO: "waits for a scenario from the terminal",
    Reads.RUN: "waits for a scenario, a line `trace` and a trace from the terminal",
    Reads.TABLES: "waits for tables from the terminal",
}


def tell_terminal(call: Call) -> None:
    """Says what is waited for, where standard input is a terminal."""
    if call.waits_for_input() and sys.stdin.isatty():
        usual = f"./{call.program.name} {call.word.forms[0]}".replace("[FILE..]", "FILE").replace("[FILE]", "FILE")
        said = f"{WAITS[call.word.reads]}; Ctrl-D on a line of its own ends it, Ctrl-C stops. To read a file: `{usual}`"
        print(f"{call.program.name}: {said}", file=sys.stderr, flush=True)


def paint_lines(process: "subprocess.Popen[bytes]") -> None:
    """Writes the lines of a program as they come, with their colours."""
    painter = colours.Painter()
    assert process.stdout
    for line in process.stdout:
        text = line.decode("ascii", errors="replace")
        sys.stdout.write(painter.paint(text.rstrip("\n")) + "\n" * text.endswith("\n"))
        sys.stdout.flush()


def done(words: List[str], given: running.Input, call: Call, of: str) -> int:
    """Runs a program over an input, shows what it writes, and answers its status."""
    is_painted = call.word.writes is Writes.LINES and colours.wanted(call.options, sys.stdout)
    process = running.start(words, given, subprocess.PIPE if is_painted else None)
    try:
        if is_painted:
            paint_lines(process)
        status = running.status_of(process)
    except BaseException:
        running.end(process)
        raise
    refusals.tell(words, given, status, of)
    return status


def tell_unread(program: str, error: OSError) -> int:
    """Says why a file can't be read, and answers the status for that."""
    print(f"{program}: {error.filename}: {error.strerror}", file=sys.stderr)
    return READ_FAULT


def tell_unwritten(program: str, error: OSError) -> int:
    """Says why standard output can't be written, unless nobody reads it any more, and answers the status for that."""
    if not isinstance(error, BrokenPipeError):
        print(f"{program}: standard output: {error.strerror}", file=sys.stderr)
    os.dup2(os.open(os.devnull, os.O_WRONLY), sys.stdout.fileno())  # (what is still to be written goes nowhere)
    return WRITE_FAULT


def each(call: Call, one: Callable[[str], int], has_heads: bool = True) -> int:
    """Does something for each file of a call, under its name where there are several; the first status that isn't 0."""
    first, found = "", 0
    for number, path in enumerate(call.files):
        if len(call.files) > 1 and has_heads:
            head = colours.painted(f"==> {path} <==", call.options)
            print(f"{chr(10) if number else ''}{head}", flush=True)
        try:
            status = one(path)
        except OSError as error:
            if not error.filename:  # (what can't be written has no name)
                raise
            status = tell_unread(call.program.name, error)
        sys.stdout.flush()
        if status and not found:
            first, found = path, status
    if found and len(call.files) > 1:
        print(f"{call.program.name}: the status is {found}, that of {first}: the first of {len(call.files)} files whose status isn't 0", file=sys.stderr)
    return found


def read(path: Optional[str]) -> bytes:
    """The content of a file, or of standard input; of one that is longer than any program takes only so much that this shows."""
    try:
        with open(0 if path is None else path, "rb", closefd=path is not None) as file:
            return file.read(MOST + 1)
    except OSError as error:
        raise OSError(error.errno, error.strerror, path or "standard input") from None


def joined(paths: Sequence[str]) -> bytes:
    """A scenario, a line `trace` and a trace, from a file with all of it or from one of each."""
    texts = [read(path) for path in paths]
    if len(texts) == 1:
        return texts[0]
    end = b"" if texts[0].endswith(b"\n") or not texts[0] else b"\n"
    return texts[0] + end + b"trace\n" + texts[1]


def do(call: Call, program: str) -> int:
    """Does a word that the program itself knows, and answers the status."""
    words = [program, *call.proved()]
    if call.word.reads is Reads.NOTHING:
        return done(words, None, call, call.program.name)
    if not call.files:
        tell_terminal(call)
        return done(words, None, call, call.program.name)
    if call.word.reads is Reads.TABLES:
        tables = b"".join(joined([path]) for path in call.files)
        return done(words, tables, call, call.program.name)
    if call.word.reads is Reads.RUN:
        return done(words, joined(call.files), call, f"{call.program.name}: {os.path.basename(call.files[-1])}")
    return each(call, lambda path: done(words, path, call, f"{call.program.name}: {path}"))
