"""What a hunt found, as JSON, as JUnit XML and as SARIF, for the tools that read these."""
from __future__ import annotations

import json
import os
import re
import shlex
import sys
from dataclasses import dataclass
from typing import Any, Dict, List, Optional, Sequence
from urllib.parse import quote
from xml.etree import ElementTree

from . import files, running
from .call import Call
from .tables import FAULT, LIMIT, STUCK, Row, Table
from .words import JSON, JUNIT, SARIF

OPTIONS = (JSON, JUNIT, SARIF)
SARIF_SCHEMA = "https://json.schemastore.org/sarif-2.1.0.json"


@dataclass(frozen=True)
class Case:
    """A scenario that was hunted in: its file (None: standard input), what was written of it, the status, and its table if it got one."""

    path: Optional[str]
    text: str
    status: int
    table: Optional[Table]

    @property
    def name(self) -> str:
        """The scenario's name in a report."""
        return self.path or "standard input"


def way_back(case: Case, row: Row, ticks: Optional[str]) -> str:
    """The line for a shell that brings a kind of ending back."""
    path = shlex.quote(case.path or "FILE")
    if ticks is not None:
        return f"./kmdfhunt shrink {row.seed} jitter {ticks} {path}"
    if row.status in (FAULT, STUCK):
        return f"./kmdfhunt explain {row.seed} {path}"
    return f"./kmdfsim seed {row.seed} {path}"


def row_values(case: Case, row: Row, ticks: Optional[str]) -> Dict[str, Any]:
    """A row of a table for JSON."""
    values: Dict[str, Any] = {"kind": row.kind, "name": row.name, "seeds": row.count, "seed": row.seed, "events": row.events}
    if row.line is not None:
        values["line"] = row.line
    return {**values, "status": row.status, "again": way_back(case, row, ticks)}


def json_text(cases: Sequence[Case], ticks: Optional[str]) -> str:
    """All of it as JSON."""
    found: List[Dict[str, Any]] = []
    for case in cases:
        values: Dict[str, Any] = {"file": case.name, "status": case.status}
        if case.table:
            of = case.table
            values.update(first=of.first, last=of.last, runs=of.count, events=of.events, kinds=[row_values(case, row, ticks) for row in of.rows])
        else:
            values["refused"] = case.text.strip()
        found.append(values)
    return json.dumps({"version": 1, "program": "kmdfhunt", "jitter": int(ticks or 0), "files": found}, indent=2) + "\n"


def junit_text(cases: Sequence[Case], ticks: Optional[str]) -> str:
    """A test case for each file: it fails where a run doesn't end as it should, and is an error where it was refused."""
    refused = sum(case.table is None for case in cases)
    failed = sum(case.table is not None and case.status != 0 for case in cases)
    counts = {"tests": str(len(cases)), "failures": str(failed), "errors": str(refused)}
    top = ElementTree.Element("testsuites", {"name": "kmdfhunt", **counts})
    suite = ElementTree.SubElement(top, "testsuite", {"name": "kmdfhunt", "skipped": "0", **counts})
    for case in cases:
        one = ElementTree.SubElement(suite, "testcase", classname="kmdfhunt", name=case.name)
        worst = case.table.worst if case.table else None
        if case.table is None:
            ElementTree.SubElement(one, "error", message=case.text.strip(), type="refused")
        elif worst:
            ElementTree.SubElement(one, "failure", message=str(worst), type=worst.name).text = f"{case.text}{way_back(case, worst, ticks)}\n"
    if sys.version_info >= (3, 9):
        ElementTree.indent(top)
    return '<?xml version="1.0" encoding="UTF-8"?>\n' + ElementTree.tostring(top, encoding="unicode") + "\n"


def places(path: Optional[str], line: Optional[int]) -> List[Dict[str, Any]]:
    """A place in a file, for SARIF; none in standard input."""
    if path is None:
        return []
    physical: Dict[str, Any] = {"artifactLocation": {"uri": quote(os.fsencode(path))}}
    if line is not None:
        physical["region"] = {"startLine": line}
    return [{"physicalLocation": physical}]


def result(case: Case, table: Table, row: Row, ticks: Optional[str]) -> Dict[str, Any]:
    """A kind of ending that isn't as it should be, for SARIF."""
    text = f"{row.kind}: {row.count} of {table.count} seeds end so, the shortest run is that of seed {row.seed}. {way_back(case, row, ticks)}"
    return {
        "ruleId": row.name,
        "level": "warning" if row.status == LIMIT else "error",
        "message": {"text": text},
        "locations": places(case.path, row.line),
        "partialFingerprints": {"kind/v1": f"{case.name}: {row.kind}"},
    }


def refused_result(case: Case) -> Dict[str, Any]:
    """A scenario that was refused, for SARIF."""
    text = case.text.strip()
    line = re.search(r" at line (\d+)", text)
    return {"ruleId": "refused", "level": "error", "message": {"text": text}, "locations": places(case.path, int(line[1]) if line else None)}


def sarif_text(cases: Sequence[Case], ticks: Optional[str]) -> str:
    """A result for each kind of ending that isn't as it should be."""
    results: List[Dict[str, Any]] = []
    for case in cases:
        if case.table:
            results += [result(case, case.table, row, ticks) for row in case.table.rows if row.status]
        else:
            results.append(refused_result(case))
    rules = [{"id": name, "shortDescription": {"text": name}} for name in dict.fromkeys(one["ruleId"] for one in results)]
    with open(f"{running.ROOT}/VERSION", encoding="ascii") as file:
        version = file.read().strip()
    driver = {"name": "kmdfhunt", "version": version, "rules": rules}
    run = {"tool": {"driver": driver}, "results": results, "columnKind": "unicodeCodePoints"}
    return json.dumps({"$schema": SARIF_SCHEMA, "version": "2.1.0", "runs": [run]}, indent=2) + "\n"


WRITERS = {JSON.name: json_text, JUNIT.name: junit_text, SARIF.name: sarif_text}


def are_on_output(call: Call) -> bool:
    """Whether a report is on standard output, in place of what is written there else."""
    return any(call.options.get(option.name) == "-" for option in OPTIONS)


def check(call: Call) -> None:
    """Sees that each report can be written, before a hunt that may take long. Ends where one can't."""
    for option in OPTIONS:
        path = call.options.get(option.name, "-")
        try:
            if path != "-":
                with open(path, "a", encoding="utf-8"):
                    pass
        except OSError as error:
            print(f"{call.program.name}: {path}: {error.strerror}", file=sys.stderr)
            raise SystemExit(files.WRITE_FAULT) from None


def write(call: Call, cases: Sequence[Case]) -> None:
    """Writes the reports that a call asks for, each to its file, or to standard output."""
    for name, writer in WRITERS.items():
        path = call.options.get(name)
        if path == "-":
            sys.stdout.write(writer(cases, call.ticks))
        elif path is not None:
            with open(path, "w", encoding="utf-8", errors="backslashreplace") as file:
                file.write(writer(cases, call.ticks))
