#!/usr/bin/env python3
"""Turns scenarios and their traces into antt: a plan as a record, the events and the wait list as lists.

    tools/scene_to_plan.py specs tools/runs/power/*.scn > crates/law_machine_worked/specs/RunsOfPower.antt
    tools/scene_to_plan.py proofs tools/runs/power/*.scn > crates/law_machine_worked/proofs/RunsOfPower.antt
    tools/scene_to_plan.py specs SCENARIOS OF scenarios/stuck > crates/law_stuck_worked/specs/StuckObjects.antt
    tools/scene_to_plan.py proofs scenarios/stuck/*.scn > crates/law_stuck_worked/proofs/StuckRuns.antt
    tools/scene_to_plan.py specs scenarios/silent/*.scn > crates/law_stuck_worked/specs/SilentRuns.antt
    tools/scene_to_plan.py specs SCENARIOS OF tools/stack > crates/law_stack_worked/specs/StackOrders.antt
    tools/scene_to_plan.py proofs tools/stack/*.scn > crates/law_stack_worked/proofs/StackRuns.antt
    tools/scene_to_plan.py specs SCENARIOS OF tools/idle > crates/law_idle_worked/specs/IdleSequences.antt
    tools/scene_to_plan.py proofs tools/idle/*.scn > crates/law_idle_worked/proofs/IdleRuns.antt
    tools/scene_to_plan.py --check

Each argument after the first is the path of a scenario `NAME.scn` with its trace beside it in `NAME.out`;
NAME names the run. `specs` gives the plan, the events and the wait list of each, `proofs` that the definitions
of wdf_model compute them. The runs of tools/stack have two files of specs: StackOrders with those that have a `pnp`
block, and StackRequests; those of tools/idle likewise IdleSequences and IdleRequests. The runs of scenarios/stuck have three: StuckObjects, StuckRequests and StuckSequences. They
and those of scenarios/spinning are for crates/law_stuck_worked, and so are those of scenarios/silent, which targets
never answer: of these only the specs are written here. What it writes still has to go through `rt fmt` in the crate.
With --check it says which of these files isn't what it would write, but for layout, brackets, comments and imports, and which
scenario is in none or in two files of specs.
It serves the worked runs alone: what the program reads is read by its own parser.
"""
import os
import re
import sys

STATUS = {
    "SUCCESS": "Success", "CANCELLED": "Cancelled", "UNSUCCESSFUL": "Unsuccessful",
    "INVALID_DEVICE_REQUEST": "InvalidDeviceRequest", "INVALID_DEVICE_STATE": "InvalidDeviceState",
    "NO_MORE_ENTRIES": "NoMoreEntries", "WDF_PAUSED": "WdfPaused", "WDF_BUSY": "WdfBusy",
    "INSUFFICIENT_RESOURCES": "InsufficientResources", "DELETE_PENDING": "DeletePending",
}
WORDS = {"self": "OwnObject", "device": "NearestDevice", "request": "OwnRequest",
         "length": "RequestLength", "code": "RequestCode", "status": "CompletionStatus"}
OPERATORS = {"+": "Add", "-": "Subtract", "*": "Multiply", "/": "Divide", "%": "Remainder",
             "&": "BitAnd", "|": "BitOr", "^": "BitXor", "==": "Equals", "!=": "Differs",
             "<": "Below", "<=": "AtMost"}
PLAIN = {"object": "Object", "spinlock": "SpinLock", "waitlock": "WaitLock", "request": "Request"}
DEFERRED = {"dpc": "Dpc", "timer": "Timer", "workitem": "WorkItem"}
ASKS = {"start", "sleep", "wake", "rebalance", "remove", "surprise"}
STAGES = {"hardware": "Hardware", "no_hardware": "NoHardware", "enabled": "Enabled", "disabled": "Disabled",
          "queues_up": "QueuesUp", "queues_down": "QueuesDown", "settled": "Settled", "quiet": "Quiet",
          "closed": "Closed", "working": "Working", "sleeping": "Sleeping", "removed": "Removed"}
COUNTS = {  # the calls with other than one argument
    "WdfObjectCreate": 2, "WdfSpinLockCreate": 2, "WdfWaitLockCreate": 2, "WdfRequestCreate": 2,
    "GetContext": 2, "SetContext": 3, "WdfRequestComplete": 2, "WdfRequestForwardToIoQueue": 2,
    "WdfRequestStopAcknowledge": 2, "WdfRequestSend": 3, "WdfIoQueueReadyNotify": 2, "WdfDpcCancel": 2,
    "WdfTimerStart": 2, "WdfTimerStop": 2, "WdfIoTargetStop": 2,
}


def antt_list(items):
    return " ∷ ".join([f"({i})" for i in items] + ["[]"])


def grouped(text):
    """A list as an argument."""
    return text if text == "[]" else f"({text})"


def long_list(items, pad):
    if not items:
        return "[]"
    return ("\n" + pad + "∷ ").join(items) + "\n" + pad + "∷ []"


class Scene:
    """A scenario, resolved."""

    def __init__(self, text):
        self.lines = []
        for number, line in enumerate(text.split("\n"), 1):
            tokens = re.findall(r"[0-9]+|[A-Za-z][A-Za-z0-9_]*|==|!=|<=|[-+*/%&|^<=()]", line.split("#")[0])
            if tokens:
                self.lines.append((number, tokens))
        self.at = 0
        self.names = ["driver", "req"]
        self.number_of = {}
        self.driver = {"scope": "none", "level": "dispatch"}
        self.objects = [{"kind": "driver"}]
        self.classes, self.registers, self.whens = [], [], []
        self.pnp, self.apps, self.picks = [], [], []
        self.exprs, self.scripts = [], []
        self.read()

    # ---- reading blocks

    def name(self, word):
        self.number_of[word] = len(self.names)
        self.names.append(word)
        return self.number_of[word]

    def next(self):
        self.at += 1
        return self.lines[self.at - 1]

    def read(self):
        raw_scripts = []
        number, tokens = self.next()
        if tokens[0] == "version":
            number, tokens = self.next()
        self.cpus = int(tokens[1])
        self.limit = int(self.next()[1][1])
        self.limit_objects = int(self.next()[1][1])
        while self.at < len(self.lines):
            number, t = self.next()
            if t[0] == "driver":
                while (line := self.next())[1] != ["end"]:
                    self.driver[line[1][0]] = line[1][1]
            elif t[0] == "class":
                self.read_class(t, raw_scripts)
            elif t[0] == "device":
                self.read_device(t, raw_scripts)
            elif t[0] == "app":
                self.read_posts(t)
            elif t[0] == "pnp":
                while (line := self.next())[1] != ["end"]:
                    self.pnp.append((line[0], int(line[1][1]), line[1][2:]))
            elif t[0] == "order":
                while (line := self.next())[1] != ["end"]:
                    self.picks += [int(n) for n in line[1][1:]]
        for owner, number, callback, body in raw_scripts:
            self.scripts.append(Script(self, owner, number, callback, body))

    def read_class(self, t, raw_scripts):
        c = {"name": self.name(t[1]), "word": t[1], "kind": t[2], "parent": t[3] if len(t) > 3 else None,
             "serialize": False, "period": 0}
        self.classes.append(c)
        while (line := self.next())[1] != ["end"]:
            number, u = line
            if u[0] == "serialize":
                c["serialize"] = True
            elif u[0] == "period":
                c["period"] = int(u[1])
            else:
                raw_scripts.append((("class", len(self.classes) - 1), number, u[1], self.body()))

    def read_device(self, t, raw_scripts):
        d = {"kind": "device", "name": self.name(t[1]), "word": t[1], "working": len(t) > 2, "scope": "inherit",
             "level": "inherit", "posts": []}
        self.objects.append(d)
        d["id"] = device = len(self.objects)
        while (line := self.next())[1] != ["end"]:
            number, u = line
            if u[0] in ("scope", "level"):
                d[u[0]] = u[1]
            elif u[0] == "register":
                self.registers.append({"name": self.name(u[1]), "word": u[1], "device": device, "value": int(u[2])})
            elif u[0] == "when":
                self.whens.append((number, u[1], u[2], u[3:-2], int(u[-1])))
            elif u[0] == "at":
                d["posts"].append((number, int(u[1]), u[2:]))
            elif u[0] in ("interrupt", "queue", "target"):
                self.read_part(u, device, raw_scripts)
            else:
                raw_scripts.append((("object", device), number, u[1], self.body()))

    def read_part(self, t, device, raw_scripts):
        o = {"kind": t[0], "name": self.name(t[1]), "word": t[1], "device": device, "scope": "inherit",
             "level": "inherit", "serves": [], "powered": True, "zero": False, "args": t[2:]}
        self.objects.append(o)
        o["id"] = me = len(self.objects)
        while (line := self.next())[1] != ["end"]:
            number, u = line
            if u[0] in ("scope", "level"):
                o[u[0]] = u[1]
            elif u[0] == "default":
                o["serves"].append("rest")
            elif u[0] == "for":
                o["serves"].append(u[1])
            elif u[0] == "power":
                o["powered"] = False
            elif u[0] == "zero":
                o["zero"] = True
            else:
                raw_scripts.append((("object", me), number, u[1], self.body()))

    def read_posts(self, t):
        app = {"name": self.name(t[1]), "word": t[1], "posts": []}
        self.apps.append(app)
        while (line := self.next())[1] != ["end"]:
            app["posts"].append((line[0], int(line[1][1]), line[1][2:]))

    def body(self):
        """The statements up to `end` or `else`: lists of (number, tokens, first branch, second branch)."""
        block, _ = self.branch()
        return block

    def branch(self):
        block = []
        while True:
            number, t = self.next()
            if t[0] in ("end", "else"):
                return block, t[0]
            first = second = None
            if t[0] in ("if", "repeat"):
                first, closed = self.branch()
                if closed == "else":
                    second, _ = self.branch()
            block.append((number, t, first, second or []))

    # ---- words of the plan

    def effective(self, attribute, o):
        value = o[attribute]
        if value == "inherit":
            value = self.driver[attribute] if o["kind"] == "device" else self.effective(attribute, self.objects[o["device"] - 1])
        return value

    def scope(self, o):
        return {"device": "scope.PerDevice", "queue": "scope.PerQueue", "none": "scope.Unscoped"}[self.effective("scope", o)]

    def level(self, o):
        return {"passive": "level.Passive", "dispatch": "level.Dispatch"}[self.effective("level", o)]

    def handle(self, word):
        for k, o in enumerate(self.objects, 1):
            if o.get("word") == word:
                return f"(h {k} {o['name']})"
        raise KeyError(word)

    def printed(self, text):
        """The handle that prints as NAME.ID."""
        word, number = text.split(".")
        return f"(h {number} {0 if word == 'driver' else 1 if word == 'req' else self.number_of[word]})"

    def declared(self, k):
        o = self.objects[k - 1]
        if o["kind"] == "driver":
            return "declared.Driver"
        if o["kind"] == "device":
            working = "true" if o["working"] else "false"
            return f"a_device {o['name']} {working} {self.scope(o)} {self.level(o)}"
        home = f"{o['name']} {o['device']}"
        if o["kind"] == "queue":
            dispatch = {"sequential": "dispatch.Sequential", "manual": "dispatch.Manual"}.get(
                o["args"][0], f"(dispatch.Parallel {o['args'][-1]})")
            serves = " ".join("true" if s in o["serves"] else "false" for s in ("rest", "read", "write", "control"))
            given = f"{'true' if o['powered'] else 'false'} {'true' if o['zero'] else 'false'}"
            return f"a_queue {home} {dispatch} (serves {serves}) {given} {self.scope(o)} {self.level(o)}"
        if o["kind"] == "interrupt":
            irql = 0 if o["args"][0] == "passive" else int(o["args"][0])
            return f"an_interrupt {home} {irql}"
        delay, status, depth = o["args"]
        return f"a_target {home} {delay} status.{STATUS[status]} {depth}"

    def class_info(self, c):
        if c["kind"] in PLAIN:
            return f"class.Plain {c['name']} plain.{PLAIN[c['kind']]}"
        parent = [k for k, o in enumerate(self.objects, 1) if o.get("word") == c["parent"]][0]
        return (f"class.Deferred {c['name']} deferred.{DEFERRED[c['kind']]} (record {{ 0 = {parent} }}) "
                f"{'true' if c['serialize'] else 'false'} {c['period']}")

    def class_number(self, word):
        for k, c in enumerate(self.classes):
            if c["word"] == word:
                return k
        return None

    def register(self, word):
        return [k for k, r in enumerate(self.registers) if r["word"] == word][0]

    def action(self, t):
        if t[0] == "set":
            return f"action.Set {self.register(t[1])} {t[2]}"
        return f"action.{t[0].capitalize()} {self.handle(t[1])}"

    def post(self, t):
        if t[0] in ("read", "write"):
            return f"post.{t[0].capitalize()} {self.handle(t[1])} {t[2]}"
        if t[0] == "control":
            return f"post.Control {self.handle(t[1])} {t[2]} {t[3]}"
        if t[0] == "cancel":
            return f"post.Cancel {t[1]}"
        if t[0] in ASKS:
            return f"post.Ask ask.{t[0].capitalize()} {self.handle(t[1])}"
        return f"post.Act ({self.action(t)})"

    def posts(self, posts):
        return antt_list([f"at {number} {tick} ({self.post(t)})" for number, tick, t in posts])

    def agents(self):
        devices = [o for o in self.objects if o["kind"] == "device"]
        targets = [o for o in self.objects if o["kind"] == "target"]
        return [(a["name"], a["posts"]) for a in self.apps] + [(d["name"], d["posts"]) for d in devices] + [
            (t["name"], []) for t in targets]

    def agent(self, word):
        """The number of the agent that prints so: pnp, an app, NAME.ID of a device or a target."""
        if word == "pnp":
            return 0
        name = self.number_of[word.split(".")[0]]
        return 1 + [n for n, _ in self.agents()].index(name)

    def owner(self, owner):
        return f"declared.OfClass {owner[1]}" if owner[0] == "class" else self.declared(owner[1])

    def plan(self, label):
        """The plan, of which the base says what it has none of."""
        fields = {
            "names": antt_list([f'codes "{n}"' for n in self.names]),
            "declared": long_list([self.declared(k) for k in range(1, len(self.objects) + 1)], "    "),
            "classes": antt_list([self.class_info(c) for c in self.classes]),
            "registers": antt_list([f"record {{ name = {r['name']}; device = record {{ 0 = {r['device']} }}; value = {r['value']} }}"
                                    for r in self.registers]),
            "whens": antt_list([f"record {{ access = access.{a.capitalize()}; register = {self.register(r)}; "
                                f"action = {self.action(t)}; after = {n}; line = {number} }}"
                                for number, a, r, t, n in self.whens]),
            "pnp": self.posts(self.pnp),
            "agents": antt_list([f"an_agent {n} {grouped(self.posts(p))}" for n, p in self.agents()]),
            "exprs": antt_list(self.exprs),
            "scripts": long_list([s.text() for s in self.scripts], "    "),
            "picks": antt_list(self.picks),
        }
        given = [f"  {name} = {text};" for name, text in fields.items() if text != "[]"]
        base = f"record (a_plan {self.cpus} {self.limit} {self.limit_objects}) {{"
        return "\n".join([f"abbrev pub {label}_plan : Plan", f"{label}_plan = {base}", *given, "}"])

    # ---- events

    def value(self, text):
        if re.fullmatch(r"[0-9]+", text):
            return f"(Num {text})"
        if text in STATUS:
            return f"(Stat status.{STATUS[text]})"
        return f"(Obj {self.printed(text)})"

    def call(self, words):
        args = []
        for w in words[1:]:
            c = self.class_number(w) if "." not in w else None
            args.append(f"(Val {self.value(w)})" if c is None else f"(Class {c})")
        args += ["(Val (Num 0))"] * (3 - len(args))
        return f"(c call.{words[0]} {len(words) - 1} {' '.join(args)})"

    def event(self, text):
        w = text.split()
        cpu = re.fullmatch(r"cpu([0-9]+)", w[0])
        if cpu:
            return self.cpu_event(f"(p {cpu.group(1)})", w[1:])
        if w[0] == "fw":
            return self.framework_event(w[1:])
        if w[0] == "clock":
            return f"event.Tick {w[2]}"
        agent = self.agent(w[0])
        answer = "None"
        if "->" in w:
            answer = "None" if w[-1] == "none" else f"(Some {self.printed(w[-1])})"
            w = w[:-2]
        t = [x.split(".")[0] if "." in x else x for x in w[1:]]
        if t[0] == "done":
            return f"event.Posted {agent} (post.Done {self.printed(w[2])} status.{STATUS[w[3]]}) None"
        return f"event.Posted {agent} ({self.post(t)}) {answer}"

    def cpu_event(self, cpu, w):
        kind, *rest = w
        if kind == "start":
            about = f"(Some {self.printed(rest[2])})" if len(rest) > 2 else "None"
            return f"event.Start {cpu} callback.{rest[0]} {self.printed(rest[1])} {about}"
        if kind == "end":
            return f"event.End {cpu} callback.{rest[0]} {self.printed(rest[1])} {self.value(rest[2])}"
        if kind in ("call", "woke"):
            return f"event.{'Did' if kind == 'call' else 'Woke'} {cpu} {self.call(rest[:-2])} {self.value(rest[-1])}"
        if kind == "wait":
            return f"event.Waiting {cpu} {self.call(rest)}"
        if kind in ("park", "unpark"):
            return f"event.{kind.capitalize()} {cpu} (f {rest[0]})"
        if kind in ("get", "put"):
            return f"event.Register {cpu} access.{'Read' if kind == 'get' else 'Write'} {self.register(rest[0])} {rest[-1]}"
        if kind == "fault":
            return f"event.Fault {cpu} fault.{rest[0]} {rest[1]}"
        # a step inside a frame: its line, its value or its ticks
        name, value = {"step": ("Local", rest[0]), "log": ("Log", self.value(rest[0])), "spend": ("Spend", rest[0])}[kind]
        return f"event.{name} {cpu} {value}"

    def framework_event(self, w):
        if w[0] == "stage":
            interrupt = f"(Some {self.printed(w[3])})" if len(w) > 3 else "None"
            return f"event.Stage {self.printed(w[1])} stage.{STAGES[w[2]]} {interrupt}"
        if w[0] == "complete":
            return f"event.Complete {self.printed(w[1])} status.{STATUS[w[2]]}"
        return f"event.{w[0].capitalize()} {self.printed(w[1])}"

    def interrupt_of_step(self, device, step):
        """The interrupt of a device's step, which its line doesn't print: the device must have one alone."""
        if step not in ("enabled", "disabled", "EvtInterruptEnable", "EvtInterruptDisable"):
            return "None"
        owner = int(device.split(".")[1])
        [interrupt] = [o for o in self.objects if o["kind"] == "interrupt" and o["device"] == owner]
        return f"(Some {self.handle(interrupt['word'])})"

    def wait_line(self, text, deleted):
        """A line of a wait list. A request that the driver made, sent and deleted has two: the second one is the object's."""
        w = text.split()
        if w[0] == "frame":
            thing = f"thing.Waiting (f {w[1]}) callback.{w[2]} {self.printed(w[3])}"
            cause = w[5:]
        elif w[0] == "pnp":
            return f"line (thing.Asking {self.printed(w[2])}) None"
        elif w[1] == "owned":
            return f"line (thing.Owned {self.printed(w[0])}) None"
        elif w[1] == "sent" and not deleted:
            return f"line (thing.Sent {self.printed(w[0])} {self.printed(w[2])}) None"
        elif w[1] in ("queued", "returning") and len(w) > 2 and "." in w[2]:
            thing = f"thing.{w[1].capitalize()} {self.printed(w[0])} {self.printed(w[2])}"
            cause = w[3:]
        elif w[1] == "queued":
            thing, cause = f"thing.Deferred {self.printed(w[0])}", w[2:]
        elif len(w) > 2 and w[2] == "waits":
            interrupt = self.interrupt_of_step(w[0], w[1])
            if w[1] in STAGES:
                step = f"(step.Pass stage.{STAGES[w[1]]} {interrupt})"
            else:
                step = f"(step.Run callback.{w[1]} {interrupt})"
            thing, cause = f"thing.Sequence {self.printed(w[0])} {step}", w[3:]
        else:
            thing, cause = f"thing.Leaving {self.printed(w[0])}", w[1:]
        return f"line ({thing}) (Some ({self.cause(cause)}))"

    def cause(self, w):
        if w[0] == "frame":
            return f"cause.ByFrame (f {w[1]})"
        if w[0] == "lock":
            return f"cause.ByLock {self.printed(w[1])} (f {w[4]})"
        if w[0] == "references":
            return f"cause.References {w[1]}"
        named = {"request": "ByRequest", "work": "ByWork", "behind": "Behind", "child": "ByChild", "sent": "AtTarget"}
        if w[0] in named:
            return f"cause.{named[w[0]]} {self.printed(w[1])}"
        return "cause." + {"stopped": "Stopped", "unpowered": "Unpowered", "manual": "Manual", "full": "Full",
                           "scope": "ScopeHeld", "cpus": "NoCpu"}[w[0]]


class Script:
    """The statements of one callback, with the numbers of those that follow."""

    def __init__(self, scene, owner, line, callback, body):
        self.scene, self.owner, self.line, self.callback = scene, owner, line, callback
        self.variables = []
        self.assigned(body)
        self.statements = [None] * self.size(body)
        self.compile(body, 0, len(self.statements), 0)

    def assigned(self, body):
        for _, t, first, second in body:
            word = None
            if t[0] in ("let", "get"):
                word = t[1]
            elif t[0] == "call" and "=" in t:
                word = t[1]
            if word is not None and word not in self.variables:
                self.variables.append(word)
            self.assigned(first or [])
            self.assigned(second)

    def size(self, body):
        return sum(1 + self.size(first or []) + self.size(second) + (t[0] == "repeat") for _, t, first, second in body)

    def compile(self, body, start, following, depth):
        at = start
        for k, (line, t, first, second) in enumerate(body):
            size = self.size([body[k]])
            after = at + size if k + 1 < len(body) else following
            self.statement(at, after, line, t, first, second, depth)
            at += size

    def put(self, at, line, following, act):
        self.statements[at] = f"s {line} {following} ({act})"

    def statement(self, at, after, line, t, first, second, depth):
        if t[0] == "let":
            self.put(at, line, after, f"act.Let {self.variables.index(t[1])} {self.expression(t[3:])}")
        elif t[0] == "call":
            into = "None"
            words = t[1:]
            if "=" in t:
                into, words = f"(Some {self.variables.index(t[1])})", t[3:]
            args = [self.argument(a) for a in words[1:]]
            args += ["arg.NoArgument"] * (3 - len(args))
            assert COUNTS.get(words[0], 1) == len(words) - 1, (line, words)
            self.put(at, line, after, f"act.Call call.{words[0]} {into} {' '.join(args)}")
        elif t[0] == "get":
            self.put(at, line, after, f"act.Get {self.variables.index(t[1])} {self.scene.register(t[3])}")
        elif t[0] == "put":
            self.put(at, line, after, f"act.Put {self.scene.register(t[1])} {self.expression(t[2:])}")
        elif t[0] == "if":
            test = self.expression(t[1:])
            branch, other = at + 1, at + 1 + self.size(first)
            self.put(at, line, branch if first else after, f"act.If {test} {other if second else after}")
            self.compile(first, branch, after, depth)
            self.compile(second, other, after, depth)
        elif t[0] == "repeat":
            count = self.expression(t[1:])
            again = at + 1 + self.size(first)
            self.put(at, line, at + 1, f"act.Repeat {count} {depth} {after}")
            self.compile(first, at + 1, again, depth + 1)
            self.put(again, line, after, f"act.Again {depth} {at + 1}")
        else:
            act = {"spend": "Spend", "log": "Log", "return": "Return"}[t[0]]
            self.put(at, line, after, f"act.{act} {self.expression(t[1:])}")

    def argument(self, word):
        c = self.scene.class_number(word)
        return f"(arg.OfClass {c})" if c is not None else f"(arg.Expression {self.expression([word])})"

    def node(self, text):
        self.scene.exprs.append(text)
        return len(self.scene.exprs) - 1

    def expression(self, tokens):
        number, rest = self.tree(tokens)
        assert rest == [], rest
        return number

    def tree(self, tokens):
        head, rest = tokens[0], tokens[1:]
        if head == "(":
            left, rest = self.tree(rest)
            operator, rest = rest[0], rest[1:]
            right, rest = self.tree(rest)
            assert rest[0] == ")"
            return self.node(f"node.Binary operator.{OPERATORS[operator]} {left} {right}"), rest[1:]
        if re.fullmatch(r"[0-9]+", head):
            return self.node(f"node.Number {head}"), rest
        if head in STATUS:
            return self.node(f"node.Literal status.{STATUS[head]}"), rest
        if head in WORDS:
            return self.node(f"node.Context context.{WORDS[head]}"), rest
        if head in self.variables:
            return self.node(f"node.Variable {self.variables.index(head)}"), rest
        return self.node(f"node.Object {self.scene.handle(head)}"), rest

    def text(self):
        begin, between = ("\n          ", "\n          ∷ ") if len(self.statements) > 1 else (" ", "")
        body = between.join(self.statements)
        body = f"({body} ∷ [])" if body else "[]"
        return f"a_script callback.{self.callback} ({self.scene.owner(self.owner)}) {self.line}{begin}{body}"


# The modules of the stuck runs.
BLAMED = {name: f"law_stuck_worked.specs.{name.capitalize()}Runs" for name in ("stuck", "spinning", "silent")}

SPECS_HEAD = """-- Worked runs: the plan of each, its events, and what it waits for where it is stuck. Made by
-- tools/scene_to_plan.py from the scenarios and traces of FOLDER.
use Rattle.std.specs.Prelude.{List, [], ◌∷◌, Some, None, true, false, codes}
use Rattle.wdf_base.specs.declared.ids.Handle.{Handle}
use Rattle.wdf_base.specs.declared.declared.Declared.TheVariants as declared
use Rattle.wdf_base.specs.declared.declared.ClassInfo.TheVariants as class
use Rattle.wdf_base.specs.declared.declared.PlainKind.TheVariants as plain
use Rattle.wdf_base.specs.declared.declared.DeferredKind.TheVariants as deferred
use Rattle.wdf_base.specs.declared.declared.Scope.TheVariants as scope
use Rattle.wdf_base.specs.declared.declared.ExecutionLevel.TheVariants as level
use Rattle.wdf_base.specs.declared.declared.DispatchKind.TheVariants as dispatch
use Rattle.wdf_base.specs.declared.event.Access.TheVariants as access
use Rattle.wdf_base.specs.declared.event.Action.TheVariants as action
use Rattle.wdf_base.specs.declared.event.Ask.TheVariants as ask
use Rattle.wdf_base.specs.declared.event.Post.TheVariants as post
use Rattle.wdf_base.specs.declared.event.Stage.TheVariants as stage
use Rattle.wdf_base.specs.declared.event.Fault.TheVariants as fault
use Rattle.wdf_base.specs.declared.event.Ending.TheVariants as ending
use Rattle.wdf_base.specs.declared.event.Event.{Event}
use Rattle.wdf_base.specs.declared.event.Event.TheVariants as event
use Rattle.wdf_base.specs.declared.script.ExprNode.TheVariants as node
use Rattle.wdf_base.specs.declared.script.ContextWord.TheVariants as context
use Rattle.wdf_base.specs.declared.script.Operator.TheVariants as operator
use Rattle.wdf_base.specs.declared.script.ArgNode.TheVariants as arg
use Rattle.wdf_base.specs.declared.script.Act.TheVariants as act
use Rattle.wdf_base.specs.declared.call.Arg.TheVariants.{Val, Class}
use Rattle.wdf_base.specs.declared.call.CallKind.TheVariants as call
use Rattle.wdf_base.specs.declared.call.Callback.TheVariants as callback
use Rattle.wdf_base.specs.declared.value.Status.TheVariants as status
use Rattle.wdf_base.specs.declared.value.Value.TheVariants.{Num, Obj, Stat}
use Rattle.wdf_base.specs.declared.plan.Plan.{Plan}
use Rattle.wdf_base.specs.declared.event.Step.TheVariants as step
use Rattle.wdf_base.specs.declared.wait.OpenThing.TheVariants as thing
use Rattle.wdf_base.specs.declared.wait.Cause.TheVariants as cause
use Rattle.wdf_base.specs.declared.wait.WaitLine.{WaitLine}
use Rattle.law_machine_worked.specs.Writing.{h, p, f, c, at, s, line, a_plan, a_device, a_queue, serves, an_interrupt, a_target, an_agent, a_script}
"""

PROOFS_HEAD = """-- Worked runs, computed from the definitions. Made by tools/scene_to_plan.py.
use Rattle.std.proofs.Common.{[], refl}
use Rattle.wdf_base.specs.declared.event.Ending.TheVariants as ending
use Rattle.wdf_base.specs.declared.event.Fault.TheVariants as fault
use Rattle.law_machine_base.specs.Course.{run_by}
use Rattle.wdf_model.specs.rules.Script.{value_of}
use Rattle.law_machine_base.proofs.Course.{worked_of}
use Rattle.law_machine_worked.specs.Shown.{IsShown, is_kept}
"""

# Where a run's ending is another than that it goes on.
OVER = "use Rattle.law_machine_worked.proofs.Ended.{over}\n"
STUCK_OVER = "use Rattle.law_stuck_worked.proofs.Over.{stuck_is_over}\n"

# Runs with stacks of devices.
STACK_HEAD = """-- Worked runs with stacks of devices, computed from the definitions. Made by tools/scene_to_plan.py.
use Rattle.std.proofs.Common.{[], refl}
use Rattle.wdf_base.specs.declared.event.Ending.TheVariants as ending
use Rattle.wdf_model.specs.agents.StackAgent.{stack_agents}
use Rattle.wdf_model.specs.rules.Script.{value_of}
use Rattle.law_machine_base.specs.Course.{run_with}
use Rattle.law_machine_base.proofs.Course.{worked_with}
use Rattle.law_stack.specs.Laws.{keeps_stack_laws}
use Rattle.law_stack.specs.Words.{passings, works}
use Rattle.law_stack_worked.specs.Shown.{IsStackRun}
use Rattle.law_machine_worked.proofs.Ended.{over}
"""

# Runs in which idle devices sleep.
IDLE_HEAD = """-- Worked runs in which idle devices sleep, computed from the definitions. Made by tools/scene_to_plan.py.
use Rattle.std.proofs.Common.{refl}
use Rattle.wdf_base.specs.declared.event.Ending.TheVariants as ending
use Rattle.wdf_model.specs.agents.IdleAgent.{idle_agents}
use Rattle.wdf_model.specs.rules.Script.{value_of}
use Rattle.law_machine_base.specs.Course.{run_with}
use Rattle.law_machine_base.proofs.Course.{worked_with}
use Rattle.law_machine_worked.proofs.Ended.{over}
use Rattle.wdf_laws.specs.Words.{ever}
use Rattle.law_idle.specs.Idling.{time_after, awake_rest, asleep_rest, is_held}
use Rattle.law_idle_worked.specs.Shown.{IsIdleRun}
"""


class Run:
    """A worked run: its scenario, its events, its ending and its wait list."""

    def __init__(self, path):
        self.label = os.path.basename(path)[:-4]
        with open(path) as scenario, open(path[:-4] + ".out") as trace:
            self.scene, lines = Scene(scenario.read()), trace.read().split("\n")[:-1]
        last = [k for k, x in enumerate(lines) if not re.match(r"[0-9]+ ", x)][0]
        self.events = [self.scene.event(x.split(" ", 1)[1]) for x in lines[:last]]
        words = lines[last].split()
        self.ending = "ending." + words[0].capitalize()
        if words[0] == "fault":
            self.ending = "(ending.Fault " + self.events[-1].split()[3] + ")"
        waits = lines[last + 1:]
        self.waits = [self.scene.wait_line(x, x in waits[:k]) for k, x in enumerate(waits)]

    def definitions(self):
        return "\n".join([
            self.scene.plan(self.label),
            "",
            f"abbrev pub {self.label}_events : List Event",
            f"{self.label}_events = " + long_list(self.events, "    "),
        ] + ([
            "",
            f"abbrev pub {self.label}_waits : List WaitLine",
            f"{self.label}_waits = " + antt_list(self.waits),
        ] if self.waits else []))

    def stack_fact(self):
        waits = f"{self.label}_waits" if self.waits else "[]"
        told = f"{self.label}_plan {self.label}_events {self.ending}"
        return "\n".join([
            f"pub {self.label} : IsStackRun {told} {waits}",
            "unfolding run_with value_of keeps_stack_laws passings works",
            f"{self.label} = record {{",
            f"  worked = worked_with {self.label}_plan stack_agents {len(self.events)} {self.label}_events {self.ending} refl refl (over {self.ending} refl);",
            "  stuck = refl;",
            "  keeps = refl;",
            "}",
        ])

    def fact(self, over):
        waits = f"{self.label}_waits" if self.waits else "[]"
        told = f"{self.label}_plan {self.label}_events {self.ending}"
        return "\n".join([
            f"pub {self.label} : IsShown {told} {waits}",
            "unfolding run_by value_of is_kept",
            f"{self.label} = record {{",
            f"  worked = worked_of {self.label}_plan {len(self.events)} {self.label}_events {self.ending} refl refl {over.format(self.ending)};",
            "  agree = refl;",
            "  stuck = refl;",
            "}",
        ])

    def idle_fact(self):
        plan, events = f"{self.label}_plan", f"{self.label}_events"
        return "\n".join([
            f"pub {self.label} : IsIdleRun {plan} {events} {self.ending}",
            "unfolding run_with value_of time_after awake_rest asleep_rest is_held ever",
            f"{self.label} = record {{",
            f"  worked = worked_with {plan} idle_agents {len(self.events)} {events} {self.ending} refl refl (over {self.ending} refl);",
            "  kept = refl;",
            "}",
        ])


def is_used(word, text):
    return re.search(rf"(?<![\w.]){re.escape(word)}(?!\w)", text) is not None


def needed(head, text):
    """The imports of a head that a text needs."""
    lines = []
    for line in head.split("\n"):
        as_module = re.fullmatch(r"use .* as (\w+)", line)
        names = re.fullmatch(r"(use .*\.\{)(.*)(\})", line)
        if names and not line.startswith("use Rattle.std"):
            left = [name for name in names[2].split(", ") if is_used(name, text)]
            line = names[1] + ", ".join(left) + names[3] if left else None
        elif as_module and not is_used(as_module[1], text):
            line = None
        lines += [line] if line is not None else []
    return "\n".join(lines)


def cited_from(runs, subject, with_pnp, others):
    """The imports of what the specs of these runs say: those with a `pnp` block have a file of their own."""
    words = {with_pnp: [], others: []}
    for r in runs:
        of_run = [f"{r.label}_{w}" for w in ("plan", "events", "waits") if w != "waits" or r.waits]
        words[with_pnp if r.scene.pnp else others] += of_run
    return "\n".join(f"use Rattle.law_{subject}_worked.specs.{m}.{{{', '.join(ws)}}}" for m, ws in words.items())


def made(mode, paths):
    """The text of a file: the specs or the proofs of these scenarios, all of one folder."""
    runs = [Run(path) for path in paths]
    folder = os.path.basename(os.path.dirname(paths[0]))
    if mode == "specs":
        head = SPECS_HEAD.replace("FOLDER", "tools/" + (folder if folder in BLAMED or folder in ("stack", "idle") else "runs"))
        texts = [run.definitions() for run in runs]
        parts = [needed(head, "\n".join(texts)), *texts]
    elif folder == "idle":
        parts = [IDLE_HEAD + cited_from(runs, "idle", "IdleSequences", "IdleRequests")] + [run.idle_fact() for run in runs]
    elif folder == "stack":
        parts = [STACK_HEAD + cited_from(runs, "stack", "StackOrders", "StackRequests")] + [run.stack_fact() for run in runs]
    else:
        module = BLAMED.get(folder, "law_machine_worked.specs.RunsOf" + folder.capitalize())
        words = [f"{r.label}_{w}" for r in runs for w in ("plan", "events", "waits") if w != "waits" or r.waits]
        cited = f"use Rattle.{module}.{{{', '.join(words)}}}"
        used, over = (STUCK_OVER, "stuck_is_over") if folder in BLAMED else (OVER, "(over {} refl)")
        parts = [PROOFS_HEAD + used + cited] + [run.fact(over) for run in runs]
    return "\n\n".join(parts)


ROOT = os.path.dirname(os.path.dirname(os.path.abspath(__file__)))
# The files that are made: of each folder of scenarios those of specs, each with some of them, and that of proofs with all.
MADE = {
    **{f"tools/runs/{subject}": ([f"law_machine_worked/specs/RunsOf{subject.capitalize()}"], f"law_machine_worked/proofs/RunsOf{subject.capitalize()}")
       for subject in ("power", "processors", "requests", "serial", "targets")},
    "scenarios/stuck": ([f"law_stuck_worked/specs/Stuck{some}" for some in ("Objects", "Requests", "Sequences")], "law_stuck_worked/proofs/StuckRuns"),
    "scenarios/spinning": (["law_stuck_worked/specs/SpinningRuns"], "law_stuck_worked/proofs/SpinningRuns"),
    "scenarios/silent": (["law_stuck_worked/specs/SilentRuns"], None),
    "tools/stack": ([f"law_stack_worked/specs/Stack{some}" for some in ("Orders", "Requests")], "law_stack_worked/proofs/StackRuns"),
    "tools/idle": ([f"law_idle_worked/specs/Idle{some}" for some in ("Sequences", "Requests")], "law_idle_worked/proofs/IdleRuns"),
}


def bare(text):
    """A text without layout, brackets, comments and imports, which a formatter or a person may change."""
    return re.sub(r"[\s()]+", "", "".join(line for line in text.split("\n") if not re.match(r"\s*(use |--)", line)))


def file_text(name):
    with open(os.path.join(ROOT, "crates", name + ".antt"), encoding="utf-8") as file:
        return file.read()


def differences():
    """What isn't as it would be written, a line each."""
    said = []
    for folder, (specs, proofs) in MADE.items():
        place = os.path.join(ROOT, folder)
        paths = [os.path.join(place, name) for name in sorted(os.listdir(place)) if name.endswith(".scn")]
        texts = [file_text(name) for name in specs]
        mine = [[path for path in paths if re.search(rf"^abbrev pub {os.path.basename(path)[:-4]}_plan :", text, re.M)] for text in texts]
        said += [f"{os.path.relpath(path, ROOT)} is in {found} files of specs" for path in paths for found in [sum(path in some for some in mine)] if found != 1]
        files = [("specs", name, text, some) for name, text, some in zip(specs, texts, mine)]
        files += [("proofs", proofs, file_text(proofs), paths)] if proofs else []
        for mode, name, text, some in files:
            if not some or bare(made(mode, some)) != bare(text):
                said.append(f"crates/{name}.antt isn't what tools/scene_to_plan.py writes")
    return said


def main():
    if sys.argv[1:] == ["--check"]:
        said = differences()
        sys.exit("\n".join(said) if said else 0)
    print(made(sys.argv[1], sys.argv[2:]))


if __name__ == "__main__":
    main()
