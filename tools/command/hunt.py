"""Hunts that can be stopped: a range of seeds is run in pieces, and the table so far is the sum of their tables."""
from __future__ import annotations

import subprocess
import sys
import time
from dataclasses import dataclass
from typing import List, Optional

from . import colours, files, refusals, reports, running, tables
from .call import Call, WrongCall, is_number
from .words import QUIET, REFUSED

LAST_SEED, MOST = 2**64 - 1, 2**32 - 1
# The first piece, which is also the least, and the largest.
FIRST, LARGEST = 16, 1 << 20
# A piece that takes less than so many seconds is quick, or short; after one that takes more it is long. (On a busy machine the start of a
# program may take a second, so a piece that is longer than it should be isn't made much smaller.)
QUICK, SHORT, LONG = 0.5, 2.0, 8.0
# So many tables are kept before they are added up.
KEPT = 64


@dataclass
class Limits:
    """How far a hunt may go."""

    first: int
    count: Optional[int]  # None: as many as there is time for
    seconds: Optional[float]
    processors: Optional[int]
    ticks: Optional[str]


@dataclass
class Found:
    """What a hunt came to: the text of its table, or of a refusal, with the status."""

    text: str
    status: int
    stopped: int = 0  # the status of the signal that stopped it

    @property
    def table(self) -> Optional[tables.Table]:
        """The table, unless it was refused or stopped before there was one."""
        return None if not self.text or self.status in REFUSED else tables.read(self.text)


class Hunt:
    """One scenario, run by seeds in pieces."""

    def __init__(self, program: str, text: bytes, limits: Limits, is_quiet: bool) -> None:
        self.program, self.text, self.limits = program, text, limits
        self.parts: List[bytes] = []
        self.seeds, self.kinds, self.status = 0, 0, 0
        self.began = time.monotonic()
        self.is_shown = sys.stderr.isatty() and not is_quiet

    def left(self) -> int:
        """How many seeds there are still to run."""
        most = min(LAST_SEED - self.limits.first + 1, MOST)
        return min(most if self.limits.count is None else self.limits.count, most) - self.seeds

    def spent(self) -> float:
        """The seconds since the hunt began."""
        return time.monotonic() - self.began

    def piece(self, size: int) -> bool:
        """Runs the next seeds, so many; whether that gave a table."""
        jitter = [] if self.limits.ticks is None else ["jitter", self.limits.ticks]
        words = [self.program, "seeds", str(self.limits.first + self.seeds), str(size), *jitter, QUIET.name]
        seconds = self.limits.seconds if self.seeds else None  # (the first piece is always done)
        left = None if seconds is None else max(seconds - self.spent(), 0.001)
        status, text = running.answer(words, self.text, self.limits.processors, apart=True, seconds=left)
        if not text or status in REFUSED or status > running.INTERRUPTED:
            self.parts, self.status = [text], status or running.INTERRUPTED
            return False
        self.parts.append(text)
        self.seeds += size
        if len(self.parts) >= KEPT:
            self.add_up()
        return True

    def add_up(self) -> None:
        """Puts one table in place of those so far."""
        self.status, text = running.answer([self.program, "sum"], b"".join(self.parts), apart=True)
        self.parts, self.kinds = [text], text.count(b"\n") - 1

    def show(self) -> None:
        """Says on a terminal how far it is."""
        if not self.is_shown:
            return
        pace = max(int(self.seeds / max(self.spent(), 0.001)), 1)
        left = self.left() / pace
        if self.limits.seconds is not None:
            left = min(left, max(self.limits.seconds - self.spent(), 0))
        of = "" if self.limits.count is None else f" of {self.limits.count}"
        sys.stderr.write(f"\r{self.seeds}{of} seeds, {pace} a second, {int(left)} s left\x1b[K")
        sys.stderr.flush()

    def next_size(self, size: int, took: float) -> int:
        """How large the next piece should be."""
        wanted = size * 4 if took < QUICK else size * 2 if took < SHORT else size // 2 if took > LONG else size
        if self.limits.seconds is not None:
            left = max(self.limits.seconds - self.spent(), 0)
            wanted = min(wanted, int(size * left / max(took, 0.001)))
        return min(max(wanted, FIRST), LARGEST, self.left())

    def run_pieces(self) -> None:
        """Runs pieces until the range or the time is over."""
        size = min(FIRST, self.left())
        while self.left() > 0:
            began = time.monotonic()
            try:
                if not self.piece(size):
                    return
            except subprocess.TimeoutExpired:
                return
            self.show()
            if self.limits.seconds is not None and self.spent() >= self.limits.seconds:
                return
            size = self.next_size(size, time.monotonic() - began)

    def run(self) -> Found:
        """Runs it, and answers the table so far where it is stopped."""
        stopped = 0
        try:
            self.run_pieces()
        except running.Stopped as signal:
            stopped = signal.status
        finally:
            if self.is_shown:
                sys.stderr.write("\r\x1b[K")
                sys.stderr.flush()
        if len(self.parts) > 1 or (self.parts and not self.status):
            self.add_up()
        text = self.parts[0].decode("ascii", errors="replace") if self.parts else ""
        return Found(text, self.status, stopped)


def number_option(call: Call, name: str) -> Optional[int]:
    """The value of an option that takes a number above 0."""
    value = call.options.get(name)
    if value is not None and (not is_number(value) or int(value) == 0):
        raise WrongCall(f"`{name}` takes a number above 0, and `{value}` is none")
    return None if value is None else int(value)


def seconds_option(call: Call) -> Optional[float]:
    """The value of `--time`."""
    value = call.options.get("--time")
    try:
        seconds = None if value is None else float(value)
    except ValueError:
        seconds = -1.0
    if seconds is not None and not 0 < seconds < float("inf"):
        raise WrongCall(f"`--time` takes a number of seconds, and `{value}` is none")
    return seconds


def limits_of(call: Call) -> Limits:
    """How far the hunt of a call may go."""
    first = int(call.numbers[0])
    count = int(call.numbers[1]) if len(call.numbers) > 1 else None
    if count is not None and not (0 < count <= MOST and first + count - 1 <= LAST_SEED):
        raise WrongCall("COUNT is from 1 to 4,294,967,295, and the last seed is below 2^64")
    return Limits(first, count, seconds_option(call), number_option(call, "--jobs"), call.ticks)


def tell_stop(call: Call, found: Found, limits: Limits) -> None:
    """Says on standard error that a table isn't of all seeds that were asked for."""
    table = found.table
    if found.stopped and not found.text:
        print(f"{call.program.name}: stopped before a seed was done", file=sys.stderr)
    elif table and (found.stopped or (limits.count is not None and table.count < limits.count)):
        why = "stopped" if found.stopped else "the time is over"
        asked = "" if limits.count is None else f" of the {limits.count} that were asked for"
        print(f"{call.program.name}: {why}: the table is of {table.count} seeds{asked}", file=sys.stderr)


def seeds(call: Call, program: str) -> int:
    """Runs the seeds of a call over each file, or over standard input."""
    limits = limits_of(call)
    found: List[reports.Case] = []
    reports.check(call)
    is_quiet = "--no-progress" in call.options
    is_table_shown = not reports.are_on_output(call)

    def one(path: Optional[str]) -> int:
        text = files.read(path)
        result = Hunt(program, text, limits, is_quiet).run()
        found.append(reports.Case(path, result.text, result.status, result.table))
        if is_table_shown:
            print(colours.painted(result.text, call.options), end="", flush=True)
        tell_stop(call, result, limits)
        if result.status in REFUSED:
            of = call.program.name if path is None else f"{call.program.name}: {path}"
            refusals.tell([program, *call.proved()], text, result.status, of)
        if result.stopped:
            reports.write(call, found)
            raise SystemExit(result.stopped)
        return result.status

    if call.files:
        status = files.each(call, one, is_table_shown)
    else:
        files.tell_terminal(call)
        status = one(None)
    reports.write(call, found)
    return status
