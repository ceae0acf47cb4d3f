#!/usr/bin/env python3
"""One table of many kinds of work: how long an event takes by each word, how that grows, and what memory it takes.

Not part of the gate. Build the program first (`./kmdfsim check < examples/first-read.kmdf`), then from the root:

    python3 bench/table.py [PROGRAM] [KIND ..]

Each kind of work is run at several sizes by `order`, by `seed 5`, by `replay` of the trace of that seed, and by `run`. A row
has the size and the events of the run by the seed, and for each word microseconds of the processor for each event, the
exponent of growth since the size before (1.0: twice the events take twice the time) and the most memory in MB. That is never
less than what this script has itself, up to some 45 MB, since the system counts what a process had before it became the program. The seconds
are the best of two runs or more, until all took a fifth of a second; `run` has other events each time, and its column is by its
own. An exponent is of what is left without the start of the program, which is the time of a run of no work; it is left out where
less than 2 ms are left of the smaller size. `replay` reads 1 MiB at most, and says "too long" of more. Where KINDs are named,
only they are run.

The kinds are reads, removals of a device, interrupts, a loop, locks, cancels in a queue, queues, queues that declare callbacks
for requests ("declaring"; "on eight" processors), devices, timers that are due at ticks of their own, work items, apps, what `gen 7` writes, children of one object and classes. Then those in which much waits at once: frames that are
parked, timers that are due at one tick, removals where a class declares a callback for its cleanup or destruction, and many
requests for which EvtRequestCancel, EvtIoCanceledOnQueue, EvtIoStop or EvtRequestCompletion is due, or whose queue declares
EvtIoResume. Other kinds of work may grow otherwise.
"""

import math
import sys

import machine
from measure import PROGRAM, run

RUNS = 2
# How many seconds the runs of one text take at least, all together, and how many runs there are at most.
ENOUGH = 0.2
MOST_RUNS = 60
# What of a time is too short for an exponent, in seconds.
SHORT = 0.002
# In how many bytes at its end a trace has the line of its ending.
LAST = 1 << 17
# How many bytes an input has at most.
LONGEST = 1 << 20
HEAD = "device D working\n"


def locks(count):
    """Eight processors, three queues under one device's lock, and a loop in each callback."""
    text = machine.opening(cpus=8) + HEAD + "scope device\n"
    forms = ("read", "EvtIoRead"), ("write", "EvtIoWrite"), ("control", "EvtIoDeviceControl")
    for form, callback in forms:
        text += f"queue Q{form} sequential\nfor {form}\non {callback}\n"
        text += f"repeat {count}\nlet x = ( x + 1 )\nend\ncall WdfRequestComplete request SUCCESS\nend\nend\n"
    text += "end\napp A\n"
    for k in range(60):
        text += ("at 0 read D 16\n", "at 0 write D 16\n", "at 0 control D 7 16\n")[k % 3]
    return text + "end\n"


def cancels(count):
    """Requests that wait in a manual queue, each cancelled at once."""
    posts = "".join(f"at 1 read D 16\nat 1 cancel {k + 1}\n" for k in range(count))
    return machine.opening() + HEAD + "queue Q manual\ndefault\nend\nend\n" + f"app A\n{posts}end\n"


def devices(count):
    """As many devices with a sequential queue each, and a thousand reads in all."""
    text = machine.opening()
    for k in range(count):
        text += f"device D{k} working\nqueue Q{k} sequential\ndefault\n{machine.COMPLETES}end\nend\n"
    for k in range(count):
        text += f"app A{k}\n" + f"at 0 read D{k} 16\n" * (1024 // count) + "end\n"
    return text


def repeated(count, body):
    """A loop of that many turns; of more than a thousand, which is the most, thousands by a loop in a loop."""
    loop = f"repeat {min(count, 1000)}\nlet k = ( k + 1 )\n{body}end\n"
    return loop if count <= 1000 else f"repeat {count // 1000}\n{loop}end\n"


def made(kind, count, callback, body):
    """A callback makes that many objects of a class, and does something with each."""
    head = f"class C {kind} D\non {callback}\nend\nend\n" if callback else f"class C {kind} D\nend\n"
    text = machine.opening() + head + "device D working\nqueue Q sequential\ndefault\non EvtIoDefault\n"
    text += repeated(count, body)
    return text + "call WdfRequestComplete request SUCCESS\nend\nend\nend\napp A\nat 0 read D 16\nend\n"


def timers(count):
    """Timers that are started together, each due at a tick of its own."""
    return made("timer", count, "EvtTimerFunc", "call o = WdfTimerCreate C\ncall was = WdfTimerStart o k\n")


def due_timers(count):
    """Timers that are started together, and are due at one tick."""
    return made("timer", count, "EvtTimerFunc", "call o = WdfTimerCreate C\ncall was = WdfTimerStart o 5\n")


def work_items(count):
    """Work items that are queued together."""
    return made("workitem", count, "EvtWorkItem", "call o = WdfWorkItemCreate C\ncall WdfWorkItemEnqueue o\n")


def children(count):
    """An object with that many children, which is deleted."""
    text = machine.opening() + "class P object\nend\nclass C object\nend\n" + HEAD + "queue Q sequential\ndefault\non EvtIoDefault\n"
    text += "call p = WdfObjectCreate P device\n" + repeated(count, "call c = WdfObjectCreate C p\n")
    return text + "call WdfObjectDelete p\ncall WdfRequestComplete request SUCCESS\nend\nend\nend\napp A\nat 0 read D 16\nend\n"


def classes(count):
    """Two hundred and fifty reads, and that many classes with a callback."""
    more = "".join(f"class W{k} workitem D\non EvtWorkItem\nend\nend\n" for k in range(count))
    return machine.reads(250).replace(HEAD, more + HEAD, 1)


def parked(count):
    """Two processors, and that many frames at PASSIVE_LEVEL that wait for one lock."""
    text = machine.opening(cpus=2) + "class L waitlock\nend\ndevice D\nlevel passive\non EvtDeviceD0Entry\n"
    text += "call l = WdfWaitLockCreate L device\ncall SetContext device 0 l\nend\nqueue Q parallel 1024\ndefault\non EvtIoDefault\n"
    text += "call l = GetContext device 0\ncall WdfWaitLockAcquire l\nspend 1\ncall WdfWaitLockRelease l\ncall WdfRequestComplete request SUCCESS\n"
    return text + "end\nend\nend\napp A\n" + "at 1 read D 16\n" * count + "end\npnp\nat 0 start D\nend\n"


def declared(callback):
    """Removals, where a class that has no object declares this callback."""
    return lambda count: machine.removal(count).replace(HEAD, f"class C object\non {callback}\nend\nend\n" + HEAD, 1)


def cancelled(count, queues):
    """Reads, and then a cancel of each."""
    posts = "at 0 read D 16\n" * count + "".join(f"at 9 cancel {k + 1}\n" for k in range(count))
    return machine.opening() + HEAD + queues + f"end\napp A\n{posts}end\n"


def request_cancels(count):
    """Cancelable requests of which each is cancelled at one tick: EvtRequestCancel is due for all."""
    queue = "queue Q parallel 1024\ndefault\non EvtIoDefault\ncall s = WdfRequestMarkCancelableEx request\nend\n"
    return cancelled(count, queue + "on EvtRequestCancel\ncall WdfRequestComplete request CANCELLED\nend\nend\n")


def returns(count):
    """Forwarded requests of which each is cancelled in its queue at one tick: EvtIoCanceledOnQueue is due for all."""
    queues = "queue M manual\non EvtIoCanceledOnQueue\ncall WdfRequestComplete request CANCELLED\nend\nend\n"
    return cancelled(count, queues + "queue Q sequential\ndefault\non EvtIoDefault\ncall s = WdfRequestForwardToIoQueue request M\nend\nend\n")


def stops(count):
    """A device that goes to sleep while the driver holds that many requests: EvtIoStop is due for each."""
    text = machine.opening() + "device D\nqueue Q parallel 1024\ndefault\non EvtIoDefault\nend\n"
    text += "on EvtIoStop\ncall WdfRequestComplete request CANCELLED\nend\nend\nend\n"
    return text + "app A\n" + "at 1 read D 16\n" * count + "end\npnp\nat 0 start D\nat 9 sleep D\nend\n"


def sent(count):
    """Requests that are sent to a target, which is done with all at one tick: EvtRequestCompletion is due for each."""
    text = machine.opening() + HEAD + "queue Q parallel 1024\ndefault\non EvtIoDefault\ncall WdfRequestSend request T 0\nend\nend\n"
    text += "target T 10 SUCCESS 256\non EvtRequestCompletion\ncall WdfRequestComplete request status\nend\nend\nend\n"
    return text + "app A\n" + "at 0 read D 16\n" * count + "end\n"


def resumes(count):
    """Reads of a queue that declares EvtIoResume, which is never due."""
    return machine.reads(count).replace("default\n", "default\non EvtIoResume\nend\n", 1)


def declaring(cpus):
    """Five hundred reads of a device with that many queues, all but one of which declare three callbacks that are never due."""

    def text_of(count):
        callbacks = "".join(f"on {callback}\nend\n" for callback in ("EvtIoCanceledOnQueue", "EvtIoStop", "EvtIoResume"))
        more = "".join(f"queue M{k} manual\n{callbacks}end\n" for k in range(count - 1))
        head = f"device D working\nqueue Q sequential\ndefault\n{machine.COMPLETES}end\n{more}end\n"
        return machine.opening(cpus=cpus) + head + "app A\n" + "at 0 read D 16\n" * 500 + "end\n"

    return text_of


KINDS = {
    "reads": (machine.reads, (500, 1000, 2000, 4000)),
    "removals": (machine.removal, (510, 1020, 2040, 4080)),
    "interrupts": (machine.interrupts, (25000, 50000, 100000, 200000)),
    "loop": (machine.loop, (15250, 30500, 61000, 122000)),
    "locks": (locks, (20, 40, 80, 160)),
    "cancels": (cancels, (500, 1000, 2000)),
    "queues": (machine.queues, (16, 32, 64, 128, 256)),
    "declaring": (declaring(1), (16, 64, 256)),
    "on eight": (declaring(8), (16, 64, 256)),
    "devices": (devices, (1, 2, 4, 8)),
    "timers": (timers, (500, 1000, 2000, 4000)),
    "work items": (work_items, (250, 500, 1000)),
    "apps": (machine.apps, (4, 16, 64, 256)),
    "gen": (None, (7,)),
    "children": (children, (500, 1000, 2000, 4000)),
    "classes": (classes, (4, 16, 64, 250)),
    "parked": (parked, (64, 128, 256)),
    "due timers": (due_timers, (250, 500, 1000)),
    "cleaned": (declared("EvtCleanupCallback"), (255, 510, 1020)),
    "destroyed": (declared("EvtDestroyCallback"), (255, 510, 1020)),
    "marked": (request_cancels, (255, 510, 1020)),
    "returning": (returns, (255, 510, 1020)),
    "stops": (stops, (255, 510, 1020)),
    "resumes": (resumes, (255, 510, 1020)),
    "sent": (sent, (64, 128, 256)),
}


def scenario(program, make, size):
    """The text of a kind of work at a size; without a function that makes it, what the program generates of that number."""
    return make(size) if make else run(f"gen {size}", b"", program)[0].decode()


def events_of(trace):
    """How many events the ending of a trace tells."""
    # (the whole in lines would make this process large, and a new process is counted as large as the one that made it)
    for line in reversed(trace[-LAST:].splitlines()):
        words = line.split(b" ")
        if words[0] in (b"finished", b"limit", b"stuck"):
            return int(words[1])
    sys.exit(f"a trace without an ending: {trace[-100:]!r}")


def best(program, words, text):
    """The answer of a run, its best seconds of the processor, and the most memory."""
    answer, seconds, memory = b"", [], []
    while len(seconds) < RUNS or (sum(seconds) < ENOUGH and len(seconds) < MOST_RUNS):
        answer, status, one = run(words, text, program)
        if status not in (0, 4, 5):
            sys.exit(f"{words} ended with status {status}: {answer[:100]!r}")
        seconds.append(one[1])
        memory.append(one[2])
    return answer, min(seconds), max(memory)


def columns(program, text):
    """The events of the run by the seed, and for each word its events, seconds and memory."""
    text = text.encode()
    figures = {}
    for words in ("order", "seed 5", "run"):
        trace, seconds, memory = best(program, words, text)
        if words == "seed 5":
            seeded = trace
        figures[words] = events_of(trace), seconds, memory
    count = events_of(seeded)
    traced = text + b"trace\n" + seeded
    if len(traced) <= LONGEST:
        _, seconds, memory = best(program, "replay", traced)
        figures["replay"] = count, seconds, memory
    return count, figures


def cell(now, before, start):
    """What a column says of one size, beside the size before, where a run of no work takes `start` seconds."""
    if now is None:
        return f"{'too long':>9}          "
    events, seconds, memory = now
    grown = "    "
    if before and before[1] - start >= SHORT and seconds > start and events != before[0]:
        grown = f"{math.log((seconds - start) / (before[1] - start)) / math.log(events / before[0]):4.2f}"
    return f"{1e6 * seconds / events:9.2f} {grown} {memory:4.0f}"


def main():
    words = sys.argv[1:]
    program = words.pop(0) if words and words[0] not in KINDS else PROGRAM
    names = words or list(KINDS)
    order = ("order", "seed 5", "replay", "run")
    print(f"{'':24}" + "".join(f"| {name:17} " for name in order))
    print(f"{'work':12}{'size':>6}{'events':>6}" + "| us/event grow  MB " * 4, flush=True)
    start = best(program, "order", machine.opening().encode())[1]
    print(f"a run of no work: {1e3 * start:.2f} ms", flush=True)
    for name in names:
        before = {}
        for size in KINDS[name][1]:
            count, figures = columns(program, scenario(program, KINDS[name][0], size))
            print(f"{name:12}{size:6}{count:6}" + "".join(f"|{cell(figures.get(w), before.get(w), start)} " for w in order), flush=True)
            before = figures


if __name__ == "__main__":
    main()
