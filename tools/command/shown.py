"""Runs that are explained, or drawn: `explain`, `html` and `perfetto` of a file, without a trace that was joined by hand."""
from __future__ import annotations

import os
import sys
from dataclasses import dataclass
from typing import Optional, Tuple

from . import files, page, places, refusals, running
from .call import Call
from .words import REFUSED, Writes

WRONG_WORDS = refusals.WRONG_WORDS


@dataclass
class Run:
    """A scenario and its trace."""

    name: str
    scenario: bytes
    trace: bytes

    def joined(self) -> bytes:
        """Both, as the programs read them."""
        end = b"" if self.scenario.endswith(b"\n") or not self.scenario else b"\n"
        return self.scenario + end + b"trace\n" + self.trace


def split(text: bytes) -> Optional[Tuple[bytes, bytes]]:
    """The scenario and the trace of a text that has both: the first line whose only word is `trace` is between them."""
    at = 0
    for line in text.split(b"\n"):
        after = at + len(line) + 1
        if line.partition(b"#")[0].split() == [b"trace"]:
            return text[:at], text[after:]
        at = after
    return None


def made(path: str, way: Tuple[str, ...]) -> "Tuple[int, Run]":
    """The run of a scenario, and its status; where it is refused the trace is that line."""
    scenario = files.read(path)
    status, trace = running.answer([running.program_of("kmdfsim"), *way], scenario)
    return status, Run(path, scenario, trace)


def run_of(call: Call) -> "Tuple[int, Run]":
    """The run that a call names, and the status that it was refused with, or another."""
    path = call.files[0]
    if call.way:
        return made(path, call.way)
    if len(call.files) == 2:
        return 0, Run(path, files.read(path), files.read(call.files[1]))
    both = split(files.read(path))
    return (0, Run(path, *both)) if both else made(path, ("order",))


def refuse(call: Call, status: int, line: bytes) -> int:
    """Writes why there is no run, as the program does."""
    sys.stdout.buffer.write(line)
    sys.stdout.flush()
    if not refusals.is_seen():
        print(f"{call.program.name}: {call.files[0]}: {line.decode('ascii', errors='replace').strip()}", file=sys.stderr)
    return status


def story_of(run: Run) -> str:
    """Why a run didn't finish; nothing of one that did."""
    if run.trace.rstrip(b"\n").rpartition(b"\n")[2].startswith(b"finished "):
        return ""
    status, story = running.answer([running.program_of("kmdfhunt"), "explain"], run.joined())
    return "" if status else story.decode("ascii", errors="replace")


def draw(call: Call, program: str, run: Run) -> int:
    """Writes the page of a run, with its script and its story."""
    status, drawn = running.answer([program, *call.proved()], run.joined())
    if status:
        return refuse(call, status, drawn)
    if call.word.name == "html":
        scenario, trace = run.scenario.decode("ascii", errors="replace"), run.trace.decode("ascii", errors="replace")
        drawn = page.with_data(drawn, page.data_of(os.path.basename(run.name), scenario, places.lines_of(scenario, trace), story_of(run)))
    sys.stdout.buffer.write(drawn)
    sys.stdout.flush()
    return 0


def do(call: Call, program: str) -> int:
    """Explains or draws the run that a call names."""
    if call.word.writes is Writes.PAGE and sys.stdout.isatty():
        ending = "html" if call.word.name == "html" else "json"
        print(f"{call.program.name}: this is no text for a terminal; end the line with `> run.{ending}`", file=sys.stderr)
        return WRONG_WORDS
    status, run = run_of(call)
    if status in REFUSED:
        return refuse(call, status, run.trace)
    if call.word.writes is Writes.PAGE:
        return draw(call, program, run)
    return files.done([program, *call.proved()], run.joined(), call, f"{call.program.name}: {run.name}")
