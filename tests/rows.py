"""What the tests of this folder share: a test with a name of its own, and the programs that are tried."""

from __future__ import annotations

import os
import re
import subprocess
import sys
import unittest
from typing import Any, Callable

sys.dont_write_bytecode = True
ROOT = os.path.dirname(os.path.dirname(os.path.abspath(__file__)))
sys.path.insert(0, os.path.join(ROOT, "tools"))
from built import NAMES, launched

# The line of how a run ended, and the status that goes with its word.
ENDING = re.compile(r"^(finished|fault|stuck|limit) \d+$", re.MULTILINE)
STATUSES = {"finished": 0, "fault": 3, "stuck": 4, "limit": 5}


class Row(unittest.TestCase):
    """A test with a name, and a function that answers what is wrong, if anything is."""

    def __init__(self, name: str, fault_of: Callable[..., str | None], *given: Any):
        super().__init__()
        self.name, self.fault_of, self.given = name, fault_of, given

    def id(self) -> str:
        return self.name

    __str__ = id

    def runTest(self) -> None:
        fault = self.fault_of(*self.given)
        if fault:
            self.fail(fault)


def row(name: str, fault_of: Callable[..., str | None], *given: Any) -> unittest.TestCase:
    """A test with this name, of a function that answers of what it is given what is wrong, if anything is. (Who imports the class and
    not this would have `unittest` look for tests in it.)"""
    return Row(name, fault_of, *given)


def read(*path: str) -> str:
    """A text of the repository."""
    with open(os.path.join(ROOT, *path), encoding="utf-8") as file:
        return file.read()


def files_in(folder: str, suffix: str) -> list[str]:
    """The paths of the files of a folder and of those in it, from the root on."""
    found = [os.path.join(at, name) for at, _, names in os.walk(os.path.join(ROOT, folder)) for name in names if name.endswith(suffix)]
    return sorted(os.path.relpath(path, ROOT) for path in found)


def answer(words: str, given: bytes) -> tuple[int, bytes, bytes]:
    """The status that a program ends with for some words and a text, and what it writes to its two outputs. Words that don't begin with
    the name of another program are for kmdfsim."""
    name, _, rest = words.partition(" ")
    name, rest = (name, rest) if name in NAMES else ("kmdfsim", words)
    done = subprocess.run([launched(name), *rest.split()], input=given, capture_output=True, timeout=600, check=False)
    return done.returncode, done.stdout, done.stderr


def call(words: str, text: str | bytes) -> tuple[int, str]:
    """The same of a text, with all that is written as one text."""
    status, out, error = answer(words, text if isinstance(text, bytes) else text.encode())
    return status, (out + error).decode(errors="replace")


def ending_of(trace: str) -> str:
    """The word with which a run ends that is written so."""
    ending = ENDING.search(trace)
    assert ending, f"no ending: {trace}"
    return ending.group(1)


def status_of(trace: str) -> int:
    """The status of such a run."""
    return STATUSES[ending_of(trace)]


def check(text: str) -> str | None:
    """What is wrong with a scenario, if anything is."""
    status, canonical = call("check", text)
    if status != 0:
        return canonical.strip()
    if call("check", canonical) != (0, canonical):
        return "the canonical form doesn't stay"
    return None


def replay(text: str, trace: str) -> str | None:
    """What `replay` says of a trace that it should accept, if it doesn't."""
    status, verdict = call("replay", f"{text}trace\n{trace}")
    return None if status == 0 and verdict.startswith("accepted ") else f"replay: {verdict.strip()}"


def script(path: str, *words: str) -> str | None:
    """What a script says that should end with 0, if it doesn't."""
    line = [sys.executable, os.path.join(ROOT, path), *words]
    done = subprocess.run(line, cwd=ROOT, stdin=subprocess.DEVNULL, capture_output=True, text=True, check=False)
    return f"status {done.returncode}\n{done.stdout[-1500:]}{done.stderr[-1500:]}" if done.returncode else None
