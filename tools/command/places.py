"""Which line of a scenario each event of a trace is of.

A trace names the line of a `let`, an `if`, a `repeat` and a fault. The others are found: the events of one callback's run are
compared with the ways through its statements. Where two lines could have made an event it has none.
"""
from __future__ import annotations

import re
from collections import defaultdict
from dataclasses import dataclass, field
from typing import Dict, List, Optional, Set, Tuple

BLOCKS = ("driver", "class", "device", "queue", "interrupt", "target", "app", "pnp", "order")
STEPS = ("let", "if", "repeat")
STATUS = re.compile(r"[A-Z][A-Z_]+$")
EVENT = re.compile(r"^(\d+) (\S+) (.*)$", re.MULTILINE)


@dataclass(eq=False)
class Node:
    """A statement of a callback, as far as its event is concerned, and what may come next."""

    line: int
    words: List[str]
    after: List["Node"] = field(default_factory=list)

    def fits(self, event: List[str], known: Dict[str, str]) -> bool:
        """Whether this statement may have made this event of its callback, in which these words are known."""
        kind, word = event[0], self.words[0]
        if kind == "step":
            return word in STEPS and event[1] == str(self.line)
        if kind in ("call", "wait", "woke"):
            return word == "call" and self.fits_call(event, known)
        if kind in ("get", "put"):
            return word == kind and event[1] == (self.words[3] if kind == "get" else self.words[1])
        if kind == "end":
            return word in ("return", "end")
        return word == kind

    def fits_call(self, event: List[str], known: Dict[str, str]) -> bool:
        """Whether this call may have been made with these arguments."""
        called = self.words[3:] if self.words[2:3] == ["="] else self.words[1:]
        shown = event[1 : event.index("->")] if "->" in event else event[1:]
        if called[0] != shown[0] or len(called) != len(shown):
            return False
        return all(found == known.get(due, due) for due, found in zip(called[1:], shown[1:]) if due in known or due.isdigit() or STATUS.match(due))


@dataclass
class Callback:
    """A callback: its line, and where its statements begin."""

    line: int
    first: List[Node]


@dataclass
class Block:
    """A block: its line, and its lines that aren't blocks."""

    line: int
    lines: List[Tuple[int, List[str]]] = field(default_factory=list)


class Script:
    """The places of a scenario: its callbacks by name and owner, and its other blocks by name."""

    def __init__(self, text: str) -> None:
        self.callbacks: Dict[Tuple[str, str], Callback] = {}
        self.blocks: Dict[str, Block] = {}
        self.left = [(number, spaced(line)) for number, line in enumerate(text.split("\n"), 1)]
        self.left = [(number, words) for number, words in self.left if words]
        while self.left:
            number, words = self.left.pop(0)
            if words[0] in BLOCKS:
                self.block(number, words)

    def block(self, number: int, words: List[str]) -> None:
        """Reads a block up to its end."""
        name = words[1] if words[0] not in ("pnp", "driver", "order") else words[0]
        block = self.blocks[name] = Block(number)
        while self.left:
            number, words = self.left.pop(0)
            if words[0] == "end":
                return
            if words[0] == "on":
                self.callbacks[words[1], name] = self.callback(number)
            elif words[0] in BLOCKS:
                self.block(number, words)
            else:
                block.lines.append((number, words))

    def callback(self, number: int) -> Callback:
        """Reads a callback up to its end."""
        statements = self.statements()
        last = Node(statements.end, ["end"])
        return Callback(number, entry(statements.all, [last]))

    def statements(self) -> "Statements":
        """Reads statements up to an `end` or an `else`."""
        found = Statements()
        while self.left:
            number, words = self.left.pop(0)
            if words[0] in ("end", "else"):
                found.end, found.is_else = number, words[0] == "else"
                break
            one = Statement(Node(number, words))
            if words[0] in ("if", "repeat"):
                one.body = self.statements()
                one.other = self.statements() if one.body.is_else else None
            found.all.append(one)
        return found


@dataclass
class Statements:
    """Statements one after the other, and the line that ends them."""

    all: List["Statement"] = field(default_factory=list)
    end: int = 0
    is_else: bool = False


@dataclass
class Statement:
    """A statement with those that it holds."""

    node: Node
    body: Optional[Statements] = None
    other: Optional[Statements] = None


def spaced(line: str) -> List[str]:
    """The words of a line, without its comment."""
    return re.sub(r"([()])", r" \1 ", line.partition("#")[0]).replace("=", " = ").replace("=  =", "==").split()


def entry(statements: List[Statement], after: List[Node]) -> List[Node]:
    """What may come first of these statements, with this after them; the nodes are linked on the way."""
    for one in reversed(statements):
        node, word = one.node, one.node.words[0]
        if word == "return":
            node.after = []
        elif word == "if":
            assert one.body
            node.after = entry(one.body.all, after) + (entry(one.other.all, after) if one.other else after)
        elif word == "repeat":
            assert one.body
            node.after = after + entry(one.body.all, [node])
        else:
            node.after = after
        after = [node]
    return after


class Frame:
    """One run of a callback: the nodes that each of its events may be of."""

    def __init__(self, callback: Optional[Callback], started: List[str]) -> None:
        self.now: List[Node] = callback.first if callback else []
        self.known = dict(zip(("self", "request"), started))
        self.found: List[Tuple[int, List[Node]]] = []

    def take(self, number: int, event: List[str]) -> None:
        """Notes the nodes that an event may be of, and what may come after them."""
        fitting = list({id(node): node for node in self.now if node.fits(event, self.known)}.values())
        self.found.append((number, fitting))
        self.now = fitting if event[0] == "wait" else [later for node in fitting for later in node.after]

    def lines(self) -> Dict[int, int]:
        """The line of each event that has one line alone, by what came before and after it."""
        lines: Dict[int, int] = {}
        coming: Optional[Set[int]] = None
        for number, nodes in reversed(self.found):
            if coming is not None:
                nodes = [node for node in nodes if id(node) in coming or any(id(later) in coming for later in node.after)]
            coming = {id(node) for node in nodes}
            places = {node.line for node in nodes}
            if len(places) == 1:
                lines[number] = places.pop()
        return lines


class Reader:
    """Reads a trace line by line."""

    def __init__(self, script: Script) -> None:
        self.script = script
        self.lines: Dict[int, int] = {}
        self.stacks: Dict[str, List[int]] = defaultdict(list)
        self.frames: Dict[int, Frame] = {}
        self.taken: Set[int] = set()

    def read(self, number: int, who: str, event: List[str]) -> None:
        """Takes an event: one of a callback, or of who acts from outside."""
        if re.fullmatch(r"cpu\d+", who):
            self.of_processor(number, self.stacks[who], event)
        elif who == "pnp" or who in self.script.blocks:
            self.of_agent(number, who, event)
        elif "." in who and who.rpartition(".")[0] in self.script.blocks:
            self.of_device(number, who.rpartition(".")[0], event)

    def of_processor(self, number: int, stack: List[int], event: List[str]) -> None:
        """An event of a callback on a processor."""
        kind = event[0]
        if kind == "start":
            callback = self.script.callbacks.get((event[1], event[2].rpartition(".")[0]))
            self.frames[number] = Frame(callback, event[2:])
            stack.append(number)
            if callback:
                self.lines[number] = callback.line
        elif kind == "park":
            stack[:] = [frame for frame in stack if frame != int(event[1])]
        elif kind == "unpark":
            stack.append(int(event[1]))
        elif kind == "fault":
            self.lines[number] = int(event[2])
        elif stack:
            self.frames[stack[-1]].take(number, event)
            if kind == "end":
                stack.pop()

    def of_agent(self, number: int, who: str, event: List[str]) -> None:
        """What an app or Plug and Play posts: its first line of this sort that isn't taken yet."""
        wanted = [event[0], *([event[1].rpartition(".")[0]] if "." in event[1] else event[1:2])]
        for line, words in self.script.blocks[who].lines if who in self.script.blocks else []:
            if line not in self.taken and words[2:4] == wanted:
                self.taken.add(line)
                self.lines[number] = line
                return

    def of_device(self, number: int, name: str, event: List[str]) -> None:
        """What a device or a target does by itself: the one line that says so, or the next one where each is for a tick."""
        block = self.script.blocks[name]
        if event[0] == "done":
            self.lines[number] = block.line
            return
        wanted = [event[0], event[1].rpartition(".")[0] or event[1], *event[2:]]
        fitting = [line for line, words in block.lines if " ".join(wanted) in " ".join(words)]
        if len(fitting) > 1 and all(words[0] == "at" for line, words in block.lines if line in fitting):
            fitting = [line for line in fitting if line not in self.taken][:1]
            self.taken.update(fitting)
        if len(fitting) == 1:
            self.lines[number] = fitting[0]


def lines_of(scenario: str, trace: str) -> List[int]:
    """The line of each event of a trace, 0 where it has none or may have several."""
    reader = Reader(Script(scenario))
    count = 0
    for found in EVENT.finditer(trace):
        count = int(found[1])
        reader.read(count, found[2], found[3].split())
    for frame in reader.frames.values():
        reader.lines.update(frame.lines())
    return [reader.lines.get(number, 0) for number in range(1, count + 1)]
