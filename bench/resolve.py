#!/usr/bin/env python3
"""How long the program takes to resolve the largest scenarios, and how much memory.

Not part of the gate. Build the program first (`./kmdfsim check < examples/first-read.kmdf`), then from the root:

    python3 bench/resolve.py [PROGRAM]

Each scenario fills limits: 4,096 statements, 4,096 posts, 256 apps, 256 classes, 64 registers, 4,096
objects. `check` reads, parses, resolves and prints it; with an open block at its end it is read and parsed
alone. So the difference says what `resolve` and `print` take. The growing scenarios are of shapes that ask for a
long search, each at several sizes. A row says by which power of the text's length the time grows that `check`
takes beyond that of the smallest scenario; it should be at most 1.2. Figures are of the best of five runs:
seconds of the processor, and the most memory of the process in MB.
"""

import math
import sys

from measure import program_of, run

HEAD = "cpus 4\nlimit 200000\nobjects 4096\n"
OPEN = "app Again\n"


def statements(count):
    """One callback with `count` statements, which nest and call."""
    lines = ["device D", "register R 0", "on EvtDeviceD0Entry"]
    while count >= 8:
        lines += [
            "repeat 3",
            "if (x0 < 4)",
            "let x0 = ((x0 + 1) * (x1 + 2))",
            "else",
            "get x1 = R",
            "end",
            "put R (x0 & 255)",
            "end",
            "call x2 = GetContext device 1",
            "log (x2 == D)",
            "spend 1",
        ]
        count -= 8
    return lines + ["spend 1"] * count + ["end", "end"]


def callbacks(count):
    """Callbacks of classes with `count` statements together."""
    lines = ["device D", "end"]
    for number in range(256):
        share = count // (256 - number)
        count -= share
        lines += [f"class C{number} dpc D", "serialize", "on EvtDpcFunc"]
        lines += [f"let x{k % 16} = (x{k % 16} + {k})" for k in range(share)]
        lines += ["end", "end"]
    return lines


def posts(devices, apps, count):
    """Apps with `count` posts together, to so many devices."""
    lines = []
    for number in range(devices):
        lines += [f"device D{number}", f"queue Q{number} parallel 4", "default", "end", "end"]
    for number in range(apps):
        share = count // (apps - number)
        count -= share
        lines.append(f"app A{number}")
        lines += [f"at {k} read D{(number + k) % devices} {k + 1}" for k in range(share)]
        lines.append("end")
    return lines


def device_lines(count):
    """A device with `count` lines with `at`, and as many with `when`, over 64 registers."""
    lines = ["device D"] + [f"register R{k} 0" for k in range(64)]
    for k in range(count):
        lines.append(f"when write R{k % 64} set R{(k + 1) % 64} {k} after 1")
        lines.append(f"at {k} set R{k % 64} {k}")
    return lines + ["end"]


def queues(count, callbacks=()):
    """A device with `count` queues, each with these callbacks."""
    lines = ["device D"]
    for number in range(count):
        lines += [f"queue Q{number} manual", "power off"]
        for callback in callbacks:
            lines += [f"on {callback}", "end"]
        lines.append("end")
    return lines + ["end"]


def twice_declared(count):
    """`count` lines that name a register with a name that an app has too, before twice as many registers and that one."""
    lines = ["app R", "end", "device D"]
    lines += ["when read R set R 1 after 0"] * count
    lines += [f"register X{number} 0" for number in range(2 * count)]
    return lines + ["register R 0", "end"]


def sum_of(name, depth):
    """A sum of a name with itself, with so many open parentheses at the deepest."""
    if depth == 0:
        return name
    return f"({sum_of(name, depth - 1)} + {sum_of(name, depth - 1)})"


def twice_in_sums(count):
    """`count` sums of 64 times a queue's name that an app has too, before 32 times as many registers and that queue."""
    lines = ["app Q", "end", "device D", "on EvtDeviceD0Entry"]
    lines += [f"log {sum_of('Q', 6)}"] * count + ["end"]
    lines += [f"register X{number} 0" for number in range(32 * count)]
    return lines + ["queue Q manual", "end", "end"]


def same_parents(count):
    """256 work items whose parents are all of `count` queues of one name, of which the last alone is of their level."""
    lines = []
    for number in range(256):
        lines += [f"class C{number} workitem Q", "serialize", "on EvtWorkItem", "end", "end"]
    lines.append("device D")
    for _ in range(count):
        lines += ["queue Q manual"] + ["for read", "for write", "for control"] * 8 + ["end"]
    return lines + ["queue Q manual", "level passive", "end", "end"]


def branches(depth):
    """A line in each of the branches of so many `if` in one another."""
    if depth == 0:
        return ["log 1"]
    return ["if 1"] + branches(depth - 1) + ["else"] + branches(depth - 1) + ["end"]


def long_else(depth):
    """An `else` as long as the branch before it, from each of whose ends the way leads past it."""
    lines = ["device D", "on EvtDeviceD0Entry", "if 1"] + branches(depth) + ["else"]
    return lines + ["if 1", "else", "end"] * 2 ** (depth + 1) + ["end", "end", "end"]


ACCEPTED = {
    "4,096 statements in one callback": statements(4096),
    "4,096 statements, 256 classes": callbacks(4096),
    "4,096 posts, 256 apps": posts(8, 256, 4096),
    "4,096 posts, one app": posts(8, 1, 4096),
    "4,096 posts of a device, 64 registers": device_lines(4096),
    "all at once": statements(2048) + callbacks(2048)[2:] + posts(7, 256, 4096),
    "4,094 queues of a device": queues(4094),
    "4,094 queues with two callbacks each": queues(4094, ["EvtIoRead", "EvtIoWrite"]),
}

# Each shape at its sizes, and the status that is due.
GROWING = {
    "uses of a name that two lines declare": ([twice_declared(count) for count in (1750, 3500, 7000, 14000)], 11),
    "names in sums that two lines declare": ([twice_in_sums(count) for count in (125, 250, 500, 1000)], 11),
    "parents of one name": ([same_parents(count) for count in (450, 900, 1800, 3600)], 11),
    "a long `else` after many ends of branches": ([long_else(depth) for depth in (7, 8, 9, 10)], 0),
}


def best(program, word, text, wanted):
    """Seconds and MB of the best of five runs that answer with this status."""
    runs = [run(word, text.encode(), program) for _ in range(5)]
    for answer, status, _ in runs:
        if status != wanted:
            sys.exit(f"answered {answer[:60]!r} with status {status}, not {wanted}")
    return min(figures[1] for _, _, figures in runs), max(figures[2] for _, _, figures in runs)


def power_of(points):
    """By which power of the first figure the second grows: the slope of the line through their logarithms."""
    logarithms = [(math.log(length), math.log(seconds)) for length, seconds in points]
    middle = [sum(values) / len(points) for values in zip(*logarithms)]
    away = [(x - middle[0], y - middle[1]) for x, y in logarithms]
    return sum(x * y for x, y in away) / sum(x * x for x, _ in away)


def text_of(name, lines):
    text = HEAD + "\n".join(lines) + "\n"
    if len(text) > 1_048_576:
        sys.exit(f"{name}: {len(text)} bytes")
    return text


def main():
    program = program_of(sys.argv)
    for name, lines in ACCEPTED.items():
        text = text_of(name, lines)
        whole, most = best(program, "check", text, 0)
        parsed, _ = best(program, "check", text + OPEN, 10)
        print(
            f"{name}: {len(text)} bytes, {most:.0f} MB, check {whole:.3f} s: read and parsed "
            f"{parsed:.3f} s, resolved and printed {whole - parsed:.3f} s"
        )
    start, _ = best(program, "check", HEAD, 0)
    for name, (sizes, status) in GROWING.items():
        points = []
        for lines in sizes:
            text = text_of(name, lines)
            whole, most = best(program, "check", text, status)
            points.append((len(text), max(whole - start, 1e-5)))
            print(f"{name}: {len(text)} bytes, {most:.0f} MB, check {whole:.3f} s")
        print(f"{name}: the time grows by the power {power_of(points):.2f} of the length")


if __name__ == "__main__":
    main()
