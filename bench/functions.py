#!/usr/bin/env python3
"""How much processor time the proof of each function of a crate takes.

Not part of the gate. From the root, where the libraries below the crate stand in their out/ folders (`rt check` leaves them):

    python3 bench/functions.py wdf_base [--only NAME..]

It runs the prover's check of the crate in one process, from nothing, with `--progress`, and prints a row for each function as its proof
ends: the seconds so far, and those since the row before. What is checked between two functions, such as the files of specs/ and the
modules of a type, counts for the later one; the first row has the start too, some seven seconds. Other words are handed to the prover:
with `--only` the start and what those functions need is all that is checked. What else runs on the machine isn't counted.
"""

import os
import shutil
import subprocess
import sys

TICKS = os.sysconf("SC_CLK_TCK")


def crates_of(text):
    """The crates of crates.txt: what each stands on, by name."""
    lines = [line.partition("#")[0].partition(":") for line in text.split("\n")]
    return {head.split()[0]: rest.split() for head, _, rest in lines if head.strip()}


def below(crates, name, found=None):
    """The crates of the repository that this one stands on."""
    found = [] if found is None else found
    for one in crates.get(name, []):
        if one in crates and one not in found:
            found.append(one)
            below(crates, one, found)
    return found


def command(root, kit, crate):
    """The prover's check of a crate, as `rt check` makes it, but without what earlier checks kept."""
    with open(f"{root}/crates.txt", encoding="utf-8") as file:
        crates = crates_of(file.read())
    words = [f"{kit}/bin/rattle", "check", "--crate-name", crate]
    words += ["src/main.rt" if os.path.exists(f"{root}/crates/{crate}/src/main.rt") else "src/lib.rt"]
    words += ["--extern", f"std={kit}/rlibs/std.rlib", "-L", f"dependency={kit}/rlibs"]
    for one in crates[crate]:
        place = f"{root}/crates/{one}/out/rlib" if one in crates else f"{kit}/rlibs"
        words += ["--extern", f"{one}={place}/{one}.rlib"]
    for one in below(crates, crate):
        words += ["-L", f"dependency={root}/crates/{one}/out/rlib"]
    words += ["--antt-project", f"{kit}/rattle/logic/antt-project.json", "--logic-built", f"{kit}/logic_built"]
    return [*words, "--links", f"{crate}=", "--jobs", "1", "--progress"]


def seconds_of(pid, last):
    """The processor seconds that a process took, or the last ones that were seen where it has ended."""
    try:
        with open(f"/proc/{pid}/stat", encoding="utf-8") as file:
            fields = file.read().rpartition(")")[2].split()
    except OSError:
        return last
    return sum(map(int, fields[11:15])) / TICKS


def main(words):
    if not words:
        sys.exit(__doc__)
    root = os.path.dirname(os.path.dirname(os.path.abspath(__file__)))
    kit = os.path.dirname(os.path.dirname(os.path.realpath(shutil.which("rt") or sys.exit("rt isn't in the path"))))
    check = subprocess.Popen(
        [*command(root, kit, words[0]), *words[1:]],
        cwd=f"{root}/crates/{words[0]}",
        stdout=subprocess.PIPE,
        stderr=subprocess.STDOUT,
        text=True,
    )
    last = 0.0
    for line in check.stdout:
        now = seconds_of(check.pid, last)
        print(f"{now:8.2f} {now - last:7.2f} {line.rstrip()}", flush=True)
        last = now
    sys.exit(check.wait())


if __name__ == "__main__":
    main(sys.argv[1:])
