"""Refusals on standard error: the program writes them to standard output, where a person doesn't see them behind a `>` or a pipe."""
from __future__ import annotations

import os
import stat
import sys
from typing import List, Optional

from . import running
from .call import WrongCall, parsed
from .words import PROGRAMS, REFUSED, STATUSES

WRONG_WORDS = 2
# No refusal has more bytes.
LONGEST = 1000
# The lines of these are always the same.
LINES = {12: "read fault", 14: "input too large", 15: "out of memory"}


def is_file(number: int) -> bool:
    """Whether this stream is a file, which can be read again by its number."""
    return stat.S_ISREG(os.fstat(number).st_mode)


def last_line(path: str) -> str:
    """The last line of a file."""
    with open(path, "rb") as file:
        file.seek(max(os.fstat(file.fileno()).st_size - LONGEST, 0))
        return file.read().decode(errors="replace").rstrip("\n").rpartition("\n")[2]


def again(words: List[str], given: running.Input, status: int) -> Optional[str]:
    """The line with which a program refuses this input: where it can be asked once more, or has written it to a file."""
    try:
        if given is None and not is_file(0):
            return last_line("/proc/self/fd/1") if is_file(1) else None
        found, text = running.answer(words, "/proc/self/fd/0" if given is None else given)  # (from the file's beginning)
    except OSError:
        return None
    return text.decode(errors="replace").rstrip("\n") if found == status else None


def refusal(words: List[str], given: running.Input, status: int) -> str:
    """What is said of a refusal: the program's line, or what its status means and where the line is."""
    line = LINES.get(status) or again(words, given, status)
    return line or f"refused: {STATUSES[status]} (status {status}); the line that says why is on standard output"


def is_seen() -> bool:
    """Whether what is on standard output is seen where standard error is: on a terminal, or in the same file."""
    return sys.stdout.isatty() or os.path.samestat(os.fstat(1), os.fstat(2))


def tell(words: List[str], given: running.Input, status: int, of: str) -> None:
    """Says on standard error why a program refused something, where that isn't seen."""
    if status in REFUSED and not is_seen():
        print(f"{of}: {refusal(words, given, status)}", file=sys.stderr)


def tell_wrong(typed: str, why: object) -> None:
    """Says what is wrong with the words of a call."""
    name = running.shown_name(typed)
    print(f"{name}: {why}\n{name}: `{typed} --help` shows the words, with examples", file=sys.stderr)


def tell_handed_on(typed: str, words: List[str], status: int) -> None:
    """Tells of a refusal of what the launcher handed on to a program, words and standard input."""
    name = running.shown_name(typed)
    if status != WRONG_WORDS:
        tell([running.program_of(name), *words], None, status, name)
        return
    try:
        missing = [path for path in parsed(PROGRAMS[name], words).files if not os.path.exists(path)]
        if missing:
            tell_wrong(typed, f"no file `{missing[0]}`")
    except WrongCall as wrong:
        tell_wrong(typed, wrong)
