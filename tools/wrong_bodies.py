#!/usr/bin/env python3
"""Tries the wrong bodies that the gate doesn't: the prover must refuse each.

A wrong body is an edit of a crate's code: crates/NAME/must-fail/*.edit are tried by the gate, the one or two of a crate that
show most; crates/NAME/wrong/*.edit, of the same form, by this script. Run it when a crate or its contract changes, and before
a release. From the root:

    python3 tools/wrong_bodies.py [--jobs N] [CRATE..]      tries those of these crates, or all: 10 to 40 seconds each
    python3 tools/wrong_bodies.py --look [CRATE..]          only looks whether each can be applied: under a second

It works on a copy of crates/, and begins with the libraries that `rt check` and `rt lib` left in their out/ folders; others
are built first, which takes minutes. A line is written for each wrong body:
refused, refused by a limit of the prover, NOT REFUSED, or why it wasn't tried, with its seconds. The status is 0 where each
was refused (with --look: can be applied), else 1.
"""

import argparse
import concurrent.futures
import os
import re
import shutil
import subprocess
import sys
import tempfile
import time
from pathlib import Path

ROOT = Path(__file__).resolve().parent.parent
CRATES = ROOT / "crates"


def pairs_of(edit):
    """The changes of an edit, as (file, old, new); ends the script where a line has another form."""
    file, old = None, None
    for number, line in enumerate(edit.read_text(encoding="utf-8").splitlines(), 1):
        word, _, rest = line.partition(":")
        rest = re.sub("^ ", "", rest)
        if word == "file":
            file = rest.strip()
        elif word == "old":
            old = rest
        elif word == "new" and file and old is not None:
            yield file, old, rest
            old = None
        else:
            sys.exit(f"{edit}, line {number}: can't be read: {line}")


def why_not_applied(folder, edit):
    """Why an edit can't be applied to the crate in this folder, or None: each old text is there exactly once."""
    texts = {}
    for file, old, new in pairs_of(edit):
        path = folder / file
        if file not in texts:
            if not path.is_file():
                return f"{file} isn't there"
            texts[file] = path.read_text(encoding="utf-8")
        found = texts[file].count(old)
        if found != 1:
            return f"its old text is {found} times in {file}: {old.strip()}"
        texts[file] = texts[file].replace(old, new)
    return None


def look(crates):
    """Looks whether each edit of these crates can be applied, those of the gate too; the number that can't."""
    failed = 0
    for crate in crates:
        for edit in sorted([*(CRATES / crate).glob("wrong/*.edit"), *(CRATES / crate).glob("must-fail/*.edit")]):
            why = why_not_applied(CRATES / crate, edit)
            if why:
                print(f"{edit.relative_to(ROOT)}: can't be applied: {why}")
                failed += 1
    return failed


def left_out(folder, names):
    """What a copy doesn't get: wrong bodies, and what was built but for libraries and what checks keep. The kit takes a
    library only where its stamp fits its sources."""
    if Path(folder).name == "out":
        return [name for name in names if name not in ("rlib", "incremental")]
    return [name for name in names if name in ("must-fail", "wrong")]


def copy_of(room):
    """A copy of the repository's crates in this folder, without wrong bodies."""
    shutil.copytree(CRATES, room / "crates", ignore=left_out, symlinks=True)
    for name in ("crates.txt", "HANDLES"):
        shutil.copy(ROOT / name, room / name)
    subprocess.run(["git", "init", "-q", str(room)], check=True)


def tried(room, crate, edit):
    """Tries one edit in the copy: (whether it is refused, what to write)."""
    place = room / "crates" / crate / "must-fail"
    place.mkdir(exist_ok=True)
    shutil.copy(edit, place / edit.name)
    started = time.monotonic()
    ran = subprocess.run(
        ["rt", "must-fail", crate],
        cwd=room,
        env={**os.environ, "RT_JOBS": "1"},
        stdin=subprocess.DEVNULL,
        stdout=subprocess.PIPE,
        stderr=subprocess.STDOUT,
        text=True,
        errors="replace",
        check=False,
    )
    seconds = time.monotonic() - started
    (place / edit.name).unlink()
    told = [line for line in ran.stdout.splitlines() if f"{crate}/{edit.name}" in line]
    said = re.sub(r"^.*?\.edit: ", "", told[-1]) if told else (ran.stdout.strip().splitlines() or ["nothing was said"])[-1]
    refused = ran.returncode == 0 and said.startswith("refused")
    return refused, f"{crate} {edit.stem}: {said[:160]} ({seconds:.0f} s)"


def try_all(crates, jobs):
    """Tries the wrong bodies of these crates, several crates side by side; how many there were and how many weren't refused."""
    by_crate = [(crate, sorted((CRATES / crate).glob("wrong/*.edit"))) for crate in crates]

    with tempfile.TemporaryDirectory(prefix="wrong-bodies-") as name:
        room = Path(name)
        copy_of(room)

        def of_crate(entry):
            crate, edits = entry
            results = []
            for edit in edits:
                refused, line = tried(room, crate, edit)
                print(line, flush=True)
                results.append(refused)
            return results

        with concurrent.futures.ThreadPoolExecutor(jobs) as pool:
            refused = [one for results in pool.map(of_crate, by_crate) for one in results]
    return len(refused), refused.count(False)


def main():
    parser = argparse.ArgumentParser(description=__doc__, formatter_class=argparse.RawDescriptionHelpFormatter)
    parser.add_argument("--jobs", type=int, default=2, help="how many crates at once (2)")
    parser.add_argument("--look", action="store_true", help="only look whether each can be applied")
    parser.add_argument("crates", nargs="*", metavar="CRATE")
    told = parser.parse_args()
    known = sorted(p.name for p in CRATES.iterdir() if p.is_dir())
    for crate in told.crates:
        if crate not in known:
            sys.exit(f"there is no crate {crate}")
    crates = told.crates or known
    if told.look:
        sys.exit(1 if look(crates) else 0)
    if look(crates):
        sys.exit(1)
    count, failed = try_all(crates, told.jobs)
    print(f"{count} wrong bodies, {count - failed} refused, {failed} not")
    sys.exit(1 if failed else 0)


if __name__ == "__main__":
    main()
