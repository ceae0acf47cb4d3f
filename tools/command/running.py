"""Running the programs: where they are, how their input comes to them, and how they end with whoever started them."""
from __future__ import annotations

import ctypes
import os
import signal
import subprocess
import sys
from typing import BinaryIO, List, NoReturn, Optional, Union

from .words import PROGRAMS

ROOT = os.path.dirname(os.path.dirname(os.path.dirname(os.path.realpath(__file__))))
PR_SET_PDEATHSIG = 1
INTERRUPTED = 128
# The signals that ask for the end.
ENDS = (signal.SIGINT, signal.SIGTERM, signal.SIGHUP)

Input = Union[bytes, str, None]  # the text itself, the path of a file, or standard input as it is


class Stopped(Exception):
    """A signal asked for the end."""

    def __init__(self, number: int) -> None:
        super().__init__(number)
        self.status = INTERRUPTED + number


def stop(number: int, _frame: object) -> NoReturn:
    """Handles the first signal that asks for the end. (`timeout` sends two.)"""
    for again in ENDS:
        signal.signal(again, signal.SIG_IGN)
    raise Stopped(number)


def heed_signals() -> None:
    """Makes Ctrl-C, SIGTERM and a terminal that is closed come as Stopped."""
    for number in ENDS:
        signal.signal(number, stop)


def launcher(name: str) -> str:
    """The launcher of a program."""
    return os.path.join(ROOT, name)


def program_of(name: str) -> str:
    """The path of a program that can be run; it is built first where it isn't there. Ends where it can't be built."""
    found = subprocess.run([launcher(name), "--build", "--first"], stdin=subprocess.DEVNULL, stdout=subprocess.PIPE, check=False)
    if found.returncode:
        sys.exit(found.returncode)
    return found.stdout.decode(errors="surrogateescape").rstrip("\n")


def end_with_parent() -> None:
    """Lets the kernel end this process when its parent is gone, however that ended."""
    ctypes.CDLL(None).prctl(PR_SET_PDEATHSIG, signal.SIGKILL)


def processors(most: Optional[int]) -> Optional[List[int]]:
    """So many of the processors that there are, or None where no number is given."""
    return None if most is None else sorted(os.sched_getaffinity(0))[:most]


def start(words: List[str], given: Input, output: Union[int, BinaryIO, None], most: Optional[int] = None, apart: bool = False) -> "subprocess.Popen[bytes]":
    """Starts a program over an input. Apart, a Ctrl-C at the terminal doesn't come to it."""
    chosen = processors(most)

    def before() -> None:
        end_with_parent()
        if chosen:
            os.sched_setaffinity(0, chosen)

    source = opened(given)
    try:
        return subprocess.Popen(words, stdin=source, stdout=output, preexec_fn=before, start_new_session=apart)
    finally:
        if source:
            source.close()


def opened(given: Input) -> Optional[BinaryIO]:
    """What a program is to read: a file, or one without a name that has the text; None for standard input."""
    if given is None:
        return None
    if isinstance(given, str):
        return open(given, "rb")
    held = os.fdopen(os.memfd_create("input"), "w+b")
    held.write(given)
    held.flush()
    held.seek(0)
    return held


def end(process: "subprocess.Popen[bytes]") -> None:
    """Ends a program at once."""
    if process.poll() is None:
        process.kill()
    process.wait()


def status_of(process: "subprocess.Popen[bytes]") -> int:
    """The status that a program ended with, as a shell has it."""
    code = process.wait()
    return code if code >= 0 else INTERRUPTED - code


def answer(words: List[str], given: Input, most: Optional[int] = None, apart: bool = False, seconds: Optional[float] = None) -> "tuple[int, bytes]":
    """The status and the whole output of a program. It is ended where this call is stopped, or the seconds are over (TimeoutExpired)."""
    process = start(words, given, subprocess.PIPE, most, apart)
    try:
        text = process.communicate(timeout=seconds)[0]
        return status_of(process), text
    except BaseException:
        end(process)
        raise


def become(words: List[str]) -> NoReturn:
    """Becomes a program, with its standard input as it is."""
    sys.stdout.flush()
    sys.stderr.flush()
    os.execv(words[0], words)


def shown_name(typed: str) -> str:
    """How a person calls a program, for messages: `./kmdfsim` where it was called so."""
    name = os.path.basename(typed)
    return name if name in PROGRAMS else "kmdfsim"
