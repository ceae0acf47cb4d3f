#!/usr/bin/env python3
"""How long each module of a crate's proof takes.

Not part of the gate. From the root, where the libraries below the crate stand in their out/ folders (`rt check` leaves them):

    python3 bench/modules.py wdf_base [--only NAME..]

It runs the prover's check of the crate in one process, from nothing, and has it keep what it checked in a folder of its own. Each
module is a file there, written when it is done: a row has the seconds since the file before, the seconds since the start, and the
module. A function has several: `NAME.Lts` is what it lets go on each way out, `NAME.Proof` and `NAME.Answers` are the proof of its
contract; a file of lemmas has one. So a dear module is named that a row of `bench/functions.py` hides. The seconds are the clock's,
so nothing else should run. Other words are handed to the prover.
"""

import os
import shutil
import subprocess
import sys
import tempfile
import time

from functions import command

MOST = 40


def modules_below(folder):
    """The modules that the check kept, as (time written, name), the earliest first."""
    found = []
    for at, _, names in os.walk(folder):
        for name in names:
            if name.endswith(".oantt"):
                found.append((os.stat(f"{at}/{name}").st_mtime, os.path.splitext(name)[0]))
    return sorted(found)


def main():
    if len(sys.argv) < 2:
        sys.exit("python3 bench/modules.py CRATE [--only NAME..]")
    crate, root = sys.argv[1], os.getcwd()
    kit = os.path.dirname(os.path.dirname(os.path.realpath(shutil.which("rt") or sys.exit("the Rattle kit's command `rt` isn't on the PATH"))))
    with tempfile.TemporaryDirectory(prefix="modules-") as kept:
        words = [*command(root, kit, crate), "--incremental", kept, *sys.argv[2:]]
        begun = last = time.time()
        ran = subprocess.run(words, cwd=f"{root}/crates/{crate}", stdout=subprocess.PIPE, stderr=subprocess.STDOUT, text=True, check=False)
        rows = []
        for written, name in modules_below(kept):
            rows.append((written - last, written - begun, name))
            last = written
    for took, at, name in sorted(rows, reverse=True)[:MOST]:
        print(f"{took:8.2f} {at:8.2f} {name}")
    print((ran.stdout.strip().splitlines() or ["nothing was said"])[-1])
    sys.exit(ran.returncode)


if __name__ == "__main__":
    main()
