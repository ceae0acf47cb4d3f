"""A folder as a suite of tests, with reports: the lines of `kmdfhunt test`, made of a hunt in each of its files."""
from __future__ import annotations

import os
from typing import List

from . import colours, files, hunt, reports, running, tables
from .call import Call
from .words import JOBS, REFUSED


def scenarios_in(folder: str) -> List[str]:
    """The scenarios of a folder, in the order of their names, byte by byte."""
    names = [name for name in os.listdir(os.fsencode(folder)) if name.endswith(b".kmdf")]
    paths = [os.path.join(folder, os.fsdecode(name)) for name in sorted(names)]
    return [path for path in paths if os.path.isfile(path)]


def line_of(number: int, case: reports.Case) -> str:
    """The line of TAP for a scenario."""
    name = os.path.basename(case.name)
    if case.status == 0:
        return f"ok {number} - {name}"
    return f"not ok {number} - {name} # {case.table.worst if case.table else case.text.strip()}"


def tried(call: Call, program: str, path: str) -> reports.Case:
    """What the hunt in a scenario came to."""
    status, table = running.answer([program, "seeds", *call.numbers], path, hunt.number_option(call, JOBS.name))
    written = table.decode("ascii", errors="replace")
    return reports.Case(path, written, status, None if status in REFUSED else tables.read(written))


def do(call: Call, program: str) -> int:
    """Does the word `test`: by the program itself, but where a report is asked for."""
    most = hunt.number_option(call, JOBS.name)
    if not any(option.name in call.options for option in reports.OPTIONS):
        if most:
            os.sched_setaffinity(0, running.processors(most) or [])
        return files.do(call, program)
    reports.check(call)
    paths, cases = scenarios_in(call.files[0]), []
    lines = [f"1..{len(paths)}"]
    for number, path in enumerate(paths, 1):
        cases.append(tried(call, program, path))
        lines.append(line_of(number, cases[-1]))
    if not reports.are_on_output(call):
        print(colours.painted("\n".join(lines) + "\n", call.options), end="")
    reports.write(call, cases)
    return 0 if cases and not any(case.status for case in cases) else 1
