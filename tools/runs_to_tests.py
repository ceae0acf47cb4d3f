#!/usr/bin/env python3
"""Writes the worked runs of tools/runs, and those of tools/idle, as tables for tests.

    python3 tools/runs_to_tests.py [--check]

For each folder SUBJECT of tools/runs, and for tools/idle, it writes crates/test_worked_texts/src/SUBJECT.rt: of each run
its name, its scenario and its trace as they are in NAME.scn and NAME.out, how many events the trace has and how it
ends. No text is changed, but for scenarios with two registers IDLE_TIMEOUT. They are in a table of their own, and there
the second is called SECOND_TIMEOUT, since a text gives no name twice: a test gives it its name in the plan. A file's layout
is that of `rt fmt`. With --check it writes nothing, and says which file isn't what it would write.
"""
import os
import re
import sys

ROOT = os.path.dirname(os.path.dirname(os.path.abspath(__file__)))
RUNS = os.path.join(ROOT, "tools", "runs")
# The folders with worked runs, by subject.
FOLDERS = {**{subject: os.path.join(RUNS, subject) for subject in os.listdir(RUNS)}, "idle": os.path.join(ROOT, "tools", "idle")}
CRATE = os.path.join(ROOT, "crates", "test_worked_texts", "src")

TIMEOUT = "register IDLE_TIMEOUT"

ENDING = re.compile(r"^(finished|limit|fault|stuck) (\d+)$", re.MULTILINE)
FAULT = re.compile(r" fault (\w+) \d+\n(?=fault )")


def read(path):
    with open(path, encoding="ascii") as file:
        text = file.read()
    if re.search(r'["\\\r]', text) or not text.endswith("\n"):
        sys.exit(f"{path} can't be put in a literal as it is")
    return text


def ending(trace):
    """The number of events and the ending, as its line and the last event say them."""
    word, events = ENDING.search(trace).groups()
    kind = word.capitalize()
    if word == "fault":
        kind += f"(Fault::{FAULT.search(trace).group(1)})"
    return events, kind


def row(folder, name, indent):
    scenario = read(os.path.join(folder, name + ".scn"))
    if has_two(scenario):
        before, _, after = scenario.rpartition(TIMEOUT)
        scenario = before + "register SECOND_TIMEOUT" + after
    trace = read(os.path.join(folder, name + ".out"))
    events, kind = ending(trace)
    return f"""Worked {{
{indent}    name: "{name}",
{indent}    scenario: "{scenario}",
{indent}    trace: "{trace}",
{indent}    events: {events},
{indent}    ending: Ending::{kind},
{indent}}}"""


def has_two(scenario):
    """Whether two devices of a scenario have a timeout."""
    return scenario.count(TIMEOUT) == 2


def rows_of(folder, names):
    if len(names) == 1:
        return row(folder, names[0], "")
    return "\n" + "".join(f"    {row(folder, name, '    ')},\n" for name in names)


def table(subject):
    folder = FOLDERS[subject]
    names = sorted(name[:-4] for name in os.listdir(folder) if name.endswith(".scn"))
    twos = [name for name in names if has_two(read(os.path.join(folder, name + ".scn")))]
    tables = [("RUNS", [name for name in names if name not in twos])] + [("WITH_TWO", twos)] * bool(twos)
    statics = [f"pub static {word}: [Worked; {len(some)}] = [{rows_of(folder, some)}];\n" for word, some in tables]
    used = "{Ending, Fault}" if "Fault::" in "".join(statics) else "Ending"
    head = f"//! Worked runs of {os.path.relpath(folder, ROOT)}, written by tools/runs_to_tests.py.\nuse crate::worked::Worked;\nuse wdf_base::{used};\n"
    return "\n".join([head, *statics])


def main():
    others = []
    for subject in sorted(FOLDERS):
        path = os.path.join(CRATE, subject + ".rt")
        if "--check" not in sys.argv[1:]:
            with open(path, "w", encoding="ascii") as file:
                file.write(table(subject))
        else:
            with open(path, encoding="ascii") as file:
                others += [os.path.relpath(path, ROOT)] * (file.read() != table(subject))
    sys.exit(f"not what tools/runs_to_tests.py writes: {' '.join(others)}" if others else 0)


if __name__ == "__main__":
    main()
