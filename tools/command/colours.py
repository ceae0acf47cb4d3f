"""Colours on a terminal: what a line of the programs is, and how it is shown."""
from __future__ import annotations

import os
import re
import sys
from typing import Dict, IO

RESET = "\x1b[0m"
RED, GREEN, YELLOW, DIM, BOLD = "\x1b[31m", "\x1b[32m", "\x1b[33m", "\x1b[2m", "\x1b[1m"

# What a whole line says, by its form: of a run, of a table of seeds, of a suite, of the other words.
FORMS = (
    (re.compile(r"\d+ cpu\d+ fault |fault \d+$|\d+ seeds, .*: (fault|broken:) |not ok |line \d+ rule \d+ |(parse|plan|expect) refused |refused at |usage: "), RED),
    (re.compile(r"stuck \d+$|limit \d+$|\d+ seeds, .*: (stuck: |limit$)|accepted (fault|stuck|limit) "), YELLOW),
    (re.compile(r"finished \d+$|clean$|accepted finished |ok |\d+ seeds, .*: (finished$|as expected: )"), GREEN),
    (re.compile(r"==> .* <==$"), BOLD),
)
EVENT = re.compile(r"\d+ ")
STUCK = re.compile(r"stuck \d+$")


def wanted(options: Dict[str, str], stream: IO[str]) -> bool:
    """Whether a stream gets colours: as `--color` says, else where it is a terminal that has them, and NO_COLOR isn't set."""
    when = options.get("--color", "auto") or "always"
    if when in ("always", "never"):
        return when == "always"
    return stream.isatty() and not os.environ.get("NO_COLOR") and os.environ.get("TERM", "dumb") != "dumb"


class Painter:
    """Paints the lines of one output; it knows that what comes after `stuck N` is the wait list."""

    def __init__(self) -> None:
        self.is_waiting = False

    def paint(self, line: str) -> str:
        """The line with its colours, if it has some."""
        for form, colour in FORMS:
            if form.match(line):
                self.is_waiting = bool(STUCK.match(line))
                return f"{colour}{line}{RESET}"
        if self.is_waiting and line:
            return f"{YELLOW}{line}{RESET}"
        number = EVENT.match(line)
        return f"{DIM}{number.group()}{RESET}{line[number.end():]}" if number else line


def painted(text: str, options: Dict[str, str]) -> str:
    """A whole text as standard output gets it."""
    if not wanted(options, sys.stdout):
        return text
    painter = Painter()
    return "\n".join(painter.paint(line) for line in text.split("\n"))
