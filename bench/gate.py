#!/usr/bin/env python3
"""How much processor time the checks of the crates take in a run of the gate.

Not part of the gate. From the root:

    python3 bench/gate.py rt ci --anew

It starts the command, and looks once a second at the processes of the prover that the command has started. When the command
ends, or at an interrupt or SIGTERM, it prints a row for each crate: processor seconds of its proof, of the proof of its
tests, and of its wrong bodies. Those come again one by one; "as it is" is the proof of the crate that they begin with. A
process that ends between two looks lacks up to a second, and one that both begins and ends between them is missed. What else
runs on the machine isn't counted, but makes each second of work longer.
"""

import collections
import os
import signal
import subprocess
import sys
import time

TICKS = os.sysconf("SC_CLK_TCK")


def looked_at(pid, session):
    """What a process of the prover checks, and the processor seconds that it took so far; None for another process."""
    with open(f"/proc/{pid}/cmdline", encoding="utf-8", errors="replace") as file:
        words = file.read().split("\0")
    if os.path.basename(words[0]) != "rattle" or "--crate-name" not in words or os.getsid(int(pid)) != session:
        return None
    crate = words[words.index("--crate-name") + 1]
    with open(f"/proc/{pid}/stat", encoding="utf-8") as file:
        fields = file.read().rpartition(")")[2].split()
    room, body = os.readlink(f"/proc/{pid}/cwd"), ""
    if "/rt-edit-" in room:
        kind, body = "wrong bodies", body_in(crate, room)
    else:
        kind = "tests" if "--test" in words else "proof"
    # The fields count from the state of the process; its start tells it from a later one with the same number.
    return (pid, fields[19], crate, kind, body), sum(map(int, fields[11:15])) / TICKS


def text_of(path):
    with open(path, encoding="utf-8") as file:
        return file.read()


def is_tried(crate, room, edit):
    """Whether the copy of the crate in this room has what the edit writes, where the crate itself hasn't."""
    file, news = None, []
    for line in edit.splitlines():
        word, _, rest = line.partition(": ")
        if word == "file":
            file = rest.strip()
        elif word == "new":
            news.append((file, rest))
    return all(new in text_of(f"{room}/{file}") and new not in text_of(f"crates/{crate}/{file}") for file, new in news)


def body_in(crate, room):
    """The name of the wrong body that the copy in this room has."""
    folder = f"crates/{crate}/must-fail"
    tried = (name for name in sorted(os.listdir(folder)) if is_tried(crate, room, text_of(f"{folder}/{name}")))
    return os.path.splitext(next(tried, "as it is"))[0]


def look(seen, session):
    """Notes what each process took so far."""
    for pid in filter(str.isdigit, os.listdir("/proc")):
        try:
            found = looked_at(pid, session)
        except (OSError, ValueError, IndexError):
            continue
        if found:
            seen[found[0]] = max(found[1], seen.get(found[0], 0))


def report(seen):
    rows = collections.defaultdict(collections.Counter)
    bodies = collections.defaultdict(collections.Counter)
    whole = collections.Counter()
    for (_pid, _start, crate, kind, body), seconds in seen.items():
        rows[crate][kind] += seconds
        whole[kind] += seconds
        if body:
            bodies[crate][body] += seconds
    for crate, kinds in sorted(rows.items()):
        print(f"{crate}: {', '.join(f'{kind} {seconds:.0f} s' for kind, seconds in sorted(kinds.items()))}")
        for body, seconds in sorted(bodies[crate].items()):
            print(f"    {body}: {seconds:.0f} s")
    for kind, seconds in sorted(whole.items()):
        print(f"{kind}: {seconds / 60:.1f} minutes")
    print(f"in all {sum(whole.values()) / 60:.1f} minutes")


def main(words):
    if not words:
        sys.exit(__doc__)
    # A session of its own, so that its processes are known from all others.
    run = subprocess.Popen(words, start_new_session=True)
    seen = {}
    signal.signal(signal.SIGTERM, signal.default_int_handler)
    try:
        while run.poll() is None:
            look(seen, run.pid)
            time.sleep(1)
    except KeyboardInterrupt:
        pass
    report(seen)
    sys.exit(run.poll())


if __name__ == "__main__":
    main(sys.argv[1:])
