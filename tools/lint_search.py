#!/usr/bin/env python3
"""Looks for a run of a clean scenario that has a fault which `lint` is there to rule out. Not part of the gate.

    python3 tools/lint_search.py [--program PROGRAM] [--seeds N] [--scenarios N] [--first N] [--before N]

Makes random scripts with calls on requests, locks of both kinds, locks of interrupts and acknowledgements. Where `lint` finds
something, the lines that it names are deleted, until it says `clean`. Then each scenario is run by so many seeds (100 if not
given). A run that ends in one of the faults 4 to 8 and 11 to 13 is written, with its scenario and seed, and the status is 1.
Rows at the end say which of these faults the scripts had before the repair, by five seeds each (`--before`), and how often each
call was reached, so that one sees what was looked at. Half of the scenarios have a second queue in the scope of the first and
acknowledge in EvtIoStop; a third release locks by many ways, to come near LockNotHeld.
"""

import argparse
import collections
import os
import random
import subprocess
import sys

sys.dont_write_bytecode = True
from built import PROGRAM, program_at

FAULTS = {
    "NotOwned",
    "CompleteWhileMarked",
    "CompleteBeforeCancelCallback",
    "MarkedTwice",
    "AckOutsideStop",
    "LockHeldAlready",
    "LockNotHeld",
    "ReturnHoldingLock",
}
ON_REQUEST = [
    "call WdfRequestComplete request SUCCESS",
    "call WdfRequestRequeue request",
    "call a = WdfRequestForwardToIoQueue request Other",
    "call a = WdfRequestMarkCancelableEx request",
    "call b = WdfRequestUnmarkCancelable request",
    "call c = WdfRequestIsCanceled request",
]
ON_LOCKS = [
    "call l = GetContext device 0",
    "call m = GetContext device 1",
    "call SetContext device 0 m",
    "call WdfSpinLockAcquire l",
    "call WdfSpinLockRelease l",
    "call WdfSpinLockAcquire m",
    "call WdfSpinLockRelease m",
    "let l = m",
    "call WdfInterruptAcquireLock Line",
    "call WdfInterruptReleaseLock Line",
]
TESTS = ["( a == SUCCESS )", "( a != SUCCESS )", "( b == SUCCESS )", "( b != CANCELLED )", "( c == 1 )", "length"]
GUARDED = ["call WdfSpinLock{} l", "call WdfSpinLock{} m", "call WdfInterrupt{}Lock Line"]
HANDLERS = ["EvtIoRead", "EvtIoWrite", "EvtIoDeviceControl"]


def body(chance, calls):
    """A random callback's statements. Each variable is assigned, as a text must."""
    return [f"let {name} = 0" for name in "abclm"] + statements(chance, calls)


def statements(chance, calls, depth=0):
    """Random statements, one on a line."""
    lines = []
    for _ in range(chance.randint(1, 5)):
        kind = chance.random()
        if kind < 0.2 and depth < 3:
            lines += [f"if {chance.choice(TESTS)}", *statements(chance, calls, depth + 1)]
            if chance.random() < 0.5:
                lines += ["else", *statements(chance, calls, depth + 1)]
            lines += ["end"]
        elif kind < 0.27 and depth < 2:
            lines += [f"repeat {chance.randint(1, 3)}", *statements(chance, calls, depth + 1), "end"]
        elif kind < 0.32:
            lines += ["return SUCCESS"]
        elif kind < 0.4:
            lines += [f"spend {chance.randint(1, 4)}"]
        elif kind < 0.6 and depth < 2 and ON_LOCKS[0] in calls:
            lines += guarded(chance, calls, depth)
        else:
            lines += [chance.choice(calls)]
    return lines


def guarded(chance, calls, depth):
    """Random statements between an acquisition and a release, most often of one lock."""
    taken = chance.choice(GUARDED)
    given = taken if chance.random() < 0.9 else chance.choice(GUARDED)
    acquire = taken.format("Acquire")
    release = given.format("Release")
    first = [chance.choice(ON_LOCKS[:2]), "if ( length != 0 )"]
    inside = statements(chance, calls, depth + 1) if chance.random() < 0.6 else [f"spend {chance.randint(1, 4)}"]
    if chance.random() < 0.8:
        return [first[0], acquire, *inside, release]
    return [*first, acquire, *inside, release, "end"]


def queue(chance, name, scope, calls, stops):
    """A queue with its callbacks."""
    lines = [f"queue {name} {chance.choice(['sequential', 'parallel 3'])}"]
    if scope:
        lines += [f"scope {scope}"]
    lines += ["default"] if name == "Main" else []
    for handler in HANDLERS:
        lines += [f"on {handler}", *body(chance, calls), "end"]
    lines += ["on EvtIoDefault", *body(chance, calls), "end"]
    lines += ["on EvtRequestCancel", *body(chance, calls), "end"]
    lines += ["on EvtIoCanceledOnQueue", *body(chance, calls), "end"]
    if stops:
        lines += ["on EvtIoStop", "call WdfRequestStopAcknowledge request 0", *body(chance, calls), "end"]
    return lines + ["end"]


def scenario(seed):
    """A random scenario, as lines."""
    chance = random.Random(seed)
    stops = chance.random() < 0.5
    sends = not stops and chance.random() < 0.5
    calls = ON_REQUEST + (ON_LOCKS if chance.random() < 0.34 else ON_LOCKS[:2] if chance.random() < 0.8 else [])
    if sends:
        calls = calls + ["call s = WdfRequestSend request Below 0"]
    scope = chance.choice(["device", "queue"]) if stops else chance.choice([None, "device", "queue"])
    lines = [f"cpus {chance.randint(1, 3)}", "limit 3000", "objects 64", "class Guard spinlock", "end", "device D"]
    lines += ["interrupt Line 5", "on EvtInterruptIsr", "end", "end"]
    lines += queue(chance, "Main", scope, calls, stops)
    lines += queue(chance, "Other", scope, calls, stops)
    if sends:
        lines += ["target Below 3 SUCCESS 4", "on EvtRequestCompletion", *body(chance, ON_REQUEST), "end", "end"]
    lines += ["on EvtDevicePrepareHardware"]
    lines += ["call l = WdfSpinLockCreate Guard device", "call SetContext device 0 l"]
    lines += ["call l = WdfSpinLockCreate Guard device", "call SetContext device 1 l", "end", "end", "app A"]
    for number in range(1, 9):
        lines += [f"at {number} {chance.choice(['read D 16', 'write D 8', 'control D 7 0'])}"]
        if chance.random() < 0.5:
            lines += [f"at {number + chance.randint(0, 3)} cancel {number}"]
    ordered = sorted((line for line in lines if line.startswith("at ")), key=lambda line: int(line.split()[1]))
    lines = [line for line in lines if not line.startswith("at ")]
    return lines + ordered + ["end", "pnp", "at 0 start D", "at 5 sleep D", "at 15 wake D", "at 40 remove D", "end"]


def run(program, words, lines):
    """The status of the program, and what it writes."""
    text = ("\n".join(lines) + "\n").encode()
    done = subprocess.run([program, *words.split()], input=text, capture_output=True, timeout=60)
    return done.returncode, done.stdout.decode()


def taken_before(lines, end):
    """What goes where no line that is named can: the last acquisition before the end of its callback, or all of one too big."""
    if lines[end - 1].startswith("on "):
        stop = next(number for number in range(end, len(lines)) if lines[number].startswith("on "))
        return [number for number in range(end + 1, stop) if lines[number - 1].startswith("call ")]
    for number in range(end, 0, -1):
        if "Acquire" in lines[number - 1] or lines[number - 1].startswith("on "):
            return [number]
    return []


def repaired(program, lines):
    """The scenario without the lines that the check names, and how often it was checked; none where it isn't accepted."""
    for _ in range(200):
        status, written = run(program, "lint", lines)
        if status == 0:
            return lines
        if status != 7:
            return None
        named = {int(line.split()[1]) for line in written.splitlines()}
        simple = {number for number in named if lines[number - 1].split()[0] in ("call", "let", "return")}
        gone = simple or {number for end in named for number in taken_before(lines, end)}
        lines = [line for number, line in enumerate(lines, 1) if number not in gone]
    return None


def faults(trace):
    """The faults of a run that the check is there to rule out, each with its line."""
    parted = [(line.split(), line) for line in trace.splitlines()]
    return [(words[3], line) for words, line in parted if words[2:3] == ["fault"] and words[3] in FAULTS]


def counts(counter):
    """What was counted, by name."""
    return ", ".join(f"{name} {count}" for name, count in sorted(counter.items()))


def main():
    words = argparse.ArgumentParser()
    words.add_argument("--program", default=PROGRAM)
    words.add_argument("--seeds", type=int, default=100)
    words.add_argument("--scenarios", type=int, default=100)
    words.add_argument("--before", type=int, default=5)
    words.add_argument("--first", type=int, default=1)
    given = words.parse_args()
    program = program_at(given.program)
    seen, before, runs, clean, bad = collections.Counter(), collections.Counter(), 0, 0, 0
    for seed in range(given.first, given.first + given.scenarios):
        lines = scenario(seed)
        for number in range(given.before):
            before.update(fault for fault, _ in faults(run(program, f"seed {number}", lines)[1]))
        lines = repaired(program, lines)
        if lines is None:
            continue
        clean += 1
        for number in range(given.seeds):
            trace = run(program, f"seed {number}", lines)[1]
            runs += 1
            seen.update(line.split()[3] for line in trace.splitlines() if line.split()[2:3] in (["call"], ["start"]))
            for _, line in faults(trace):
                bad += 1
                path = f"lint-search-{seed}-{number}.scn"
                with open(path, "w", encoding="utf-8") as file:
                    file.write("\n".join(lines) + "\n")
                print(f"seed {number} of {os.path.abspath(path)}: {line}")
    print(f"{clean} clean scenarios, {runs} runs, {bad} with a fault that the check rules out")
    print("before the repair:", counts(before))
    print("in the runs:", counts(seen))
    return 1 if bad else 0


if __name__ == "__main__":
    sys.exit(main())
