"""The one table of words: what each program does, what its words read, which options they have, and an example of each.

The reading of a call, `--help`, completion, the man pages and docs/guide/COMMANDS.md are made from it. The words that a program
itself knows are in its own crate, and are proved; test_command.py compares the two.
"""
from __future__ import annotations

import enum
from typing import NamedTuple, Optional, Tuple


class Reads(enum.Enum):
    """What a word reads where no FILE is named: standard input has it."""

    NOTHING = "nothing"
    SCENARIO = "a scenario"
    RUN = "a scenario, a line `trace` and a trace"
    TABLES = "tables of `kmdfhunt seeds`"


class Writes(enum.Enum):
    """What a word writes, where it refuses nothing."""

    LINES = enum.auto()  # a trace, a table, findings: lines that get colours on a terminal
    SCENARIO = enum.auto()
    PAGE = enum.auto()  # what a browser is for


class Takes(enum.Enum):
    """What may stand after a word and its numbers."""

    NOTHING = enum.auto()
    FILES = enum.auto()
    RUN = enum.auto()  # a scenario's file and a trace's, or one file with both
    WAY = enum.auto()  # the same, or a scenario's file after the way to run it: `order`, `seed N`, `run`
    FOLDER = enum.auto()  # a folder, and its two numbers
    ONE_OF = enum.auto()  # one of the word's choices


class Option(NamedTuple):
    """An option: it stands anywhere after the program's name."""

    name: str
    meaning: str
    value: str = ""
    short: str = ""
    choices: Tuple[str, ...] = ()  # its values; it may then be left out


class Example(NamedTuple):
    """A line for a shell, and what it is for."""

    line: str
    meaning: str


class Word(NamedTuple):
    """A word of a program: what comes first after the program's name."""

    name: str
    meaning: str
    forms: Tuple[str, ...]
    examples: Tuple[Example, ...]
    reads: Reads = Reads.SCENARIO
    takes: Takes = Takes.FILES
    writes: Writes = Writes.LINES
    numbers: Tuple[str, ...] = ()
    usual: Tuple[str, ...] = ()  # the numbers where none is given
    may_jitter: bool = False
    options: Tuple[Option, ...] = ()
    choices: Tuple[str, ...] = ()
    more: Tuple[str, ...] = ()
    is_proved: bool = True  # whether the program itself knows it, and not the launcher alone


class Program(NamedTuple):
    """A program: its name, what it is for, and its words."""

    name: str
    meaning: str
    more: Tuple[str, ...]
    words: Tuple[Word, ...]
    usual: str  # the word that is meant where a file stands alone
    examples: Tuple[Example, ...]

    def word(self, name: str) -> Optional[Word]:
        """The word of this name, if there is one."""
        return next((word for word in self.words if word.name == name), None)


HELP = Option("--help", "shows a page of help, of the program or of the word that is named", short="-h")
VERSION = Option("--version", "says which version this is, and whether the program is proved")
COLOR = Option("--color", "colours `always`, `never`, or `auto`: on a terminal, unless NO_COLOR is set", value="WHEN", choices=("always", "never", "auto"))
COMMON = (HELP, VERSION, COLOR)

JOBS = Option("--jobs", "uses at most N processors", value="N", short="-j")
TIME = Option("--time", "stops each FILE after S seconds, and writes the table so far; COUNT may then be left out", value="S")
QUIET = Option("--no-progress", "shows no line on a terminal of how far it is")
JSON = Option("--json", "writes what was found as JSON; `-` is standard output, in place of the table", value="OUT")
JUNIT = Option("--junit", "writes it as JUnit XML: a test case for each FILE", value="OUT")
SARIF = Option("--sarif", "writes it as SARIF 2.1.0: a result for each kind of ending that isn't as it should be", value="OUT")
REPORTS = (JSON, JUNIT, SARIF)

HELP_WORD = Word(
    "help",
    "shows this help, or that of a word",
    ("help [WORD]",),
    (Example("./{program} help", "the words of the program"),),
    reads=Reads.NOTHING,
    takes=Takes.ONE_OF,
    is_proved=False,
)
COMPLETION_WORD = Word(
    "completion",
    "writes what completes the words of all three programs in a shell",
    ("completion bash", "completion zsh"),
    (Example("source <(./{program} completion bash)", "completes words by the Tab key in this shell"),),
    reads=Reads.NOTHING,
    takes=Takes.ONE_OF,
    choices=("bash", "zsh"),
    is_proved=False,
)
PROVE_WORD = Word(
    "prove",
    "proves and builds the program; it takes hours, can be stopped, and goes on",
    ("prove",),
    (Example("./{program} prove", "proves what is run until then without a proof"),),
    reads=Reads.NOTHING,
    takes=Takes.NOTHING,
    is_proved=False,
)
OF_ALL = (PROVE_WORD, COMPLETION_WORD, HELP_WORD)

SIMULATOR = Program(
    "kmdfsim",
    "runs driver scripts on a written model of the Kernel-Mode Driver Framework",
    (
        "A scenario is a text: a driver's callbacks, its devices, and the apps that use them. A run of it is written as a trace, a line for "
        "each event, and then a line on how it ended. Where no FILE is named, the scenario is read from standard input.",
        "Of several FILEs each is done under its name, and the status is that of the first one that isn't 0.",
    ),
    (
        Word(
            "check",
            "writes the scenario in canonical form, if it is one",
            ("check [FILE..]",),
            (Example("./kmdfsim check driver.kmdf", "says whether driver.kmdf is a scenario, and which line is wrong"),),
            writes=Writes.SCENARIO,
        ),
        Word(
            "order",
            "runs it by the picks of its `order` block, else always by the first event that may come",
            ("order [FILE..]",),
            (
                Example("./kmdfsim order examples/first-read.kmdf", "a first trace"),
                Example("./kmdfsim order examples/*.kmdf", "each of these, under its name"),
            ),
        ),
        Word(
            "seed",
            "runs it in the order that the number N picks: the same N always gives the same run",
            ("seed N [FILE..]",),
            (Example("./kmdfsim seed 10 examples/echo-bug.kmdf", "a run that ends in a fault"),),
            numbers=("N",),
        ),
        Word(
            "run",
            "runs it in threads, which pick the order; each time it may be another one",
            ("run [FILE..]",),
            (Example("./kmdfsim run examples/echo.kmdf > run.trace", "keeps the trace, since nothing else brings this run back"),),
        ),
        Word(
            "watch",
            "does so too, and writes each line while the threads go on",
            ("watch [FILE..]",),
            (Example("./kmdfsim watch examples/echo.kmdf", "looks on"),),
        ),
        Word(
            "replay",
            "says whether a trace is a run of a scenario, or which line is bad",
            ("replay FILE TRACE", "replay [BOTH]"),
            (Example("./kmdfsim replay examples/echo.kmdf run.trace", "checks a trace that was kept"),),
            reads=Reads.RUN,
            takes=Takes.RUN,
            more=("BOTH is a file with the scenario, a line `trace` and the trace; without it standard input has them.",),
        ),
        Word(
            "idle",
            "runs it as `order` does, with devices that sleep when nothing asks for them",
            ("idle [FILE..]",),
            (Example("./kmdfsim idle examples/idle.kmdf", "a device that goes to sleep, and wakes for a request"),),
        ),
        Word(
            "stack",
            "runs it as `order` does, with targets that are the queues of the device below",
            ("stack [FILE..]",),
            (Example("./kmdfsim stack examples/stack.kmdf", "a filter, a function driver and a bus driver"),),
        ),
        Word(
            "lint",
            "finds ways through a callback that misuse a request or a lock, without a run",
            ("lint [FILE..]",),
            (Example("./kmdfsim lint examples/clean.kmdf", "`clean`, or a line for each finding"),),
        ),
        Word(
            "gen",
            "writes a large scenario that the number N makes",
            ("gen N",),
            (Example("./kmdfsim gen 3000 > large.kmdf", "a scenario to try things on"),),
            writes=Writes.SCENARIO,
            reads=Reads.NOTHING,
            takes=Takes.NOTHING,
            numbers=("N",),
        ),
        Word(
            "load",
            "makes that scenario, runs it, and writes a summary",
            ("load N",),
            (Example("./kmdfsim load 3000", "how many events of which sort"),),
            reads=Reads.NOTHING,
            takes=Takes.NOTHING,
            numbers=("N",),
        ),
        *OF_ALL,
    ),
    "order",
    (
        Example("./kmdfsim order examples/first-read.kmdf", "runs a scenario, and writes its trace"),
        Example("./kmdfsim seed 10 examples/echo-bug.kmdf", "runs it in another order, which ends in a fault"),
        Example("./kmdfsim order < examples/first-read.kmdf", "reads it from standard input"),
    ),
)

HUNTER = Program(
    "kmdfhunt",
    "says how the runs of many seeds end, and explains an ending",
    (
        "It runs a scenario by many seeds, each as `./kmdfsim seed N` does, and writes a line for each kind of ending: how many seeds, and "
        "which of them has the shortest run. Comments `#!` in the scenario say what must not happen.",
        "A hunt that is stopped by Ctrl-C, by SIGTERM or by `--time` writes the table so far.",
    ),
    (
        Word(
            "seeds",
            "runs COUNT seeds from FROM on, 1000 from 0 on where neither is given, and writes the table of their endings",
            ("seeds [FROM COUNT] [jitter TICKS] [FILE..]", "seeds [FROM] --time S [jitter TICKS] [FILE..]"),
            (
                Example("./kmdfhunt seeds 0 500 examples/echo-bug.kmdf", "five hundred seeds"),
                Example("./kmdfhunt seeds --time 10 examples/echo-bug.kmdf", "as many as there are in ten seconds"),
                Example("./kmdfhunt seeds 0 500 -j 2 --sarif found.sarif examples/echo-bug.kmdf", "by two processors, and a report"),
            ),
            numbers=("FROM", "COUNT"),
            usual=("0", "1000"),
            may_jitter=True,
            options=(JOBS, TIME, QUIET, *REPORTS),
            more=("With `jitter TICKS` each seed also moves each `at` line by 0 to TICKS ticks to later.",),
        ),
        Word(
            "shrink",
            "makes the run of the seed N plain, and writes the scenario with its picks",
            ("shrink N [jitter TICKS] [FILE]",),
            (Example("./kmdfhunt shrink 10 examples/echo-bug.kmdf > story.kmdf", "a story that `./kmdfsim order story.kmdf` runs"),),
            writes=Writes.SCENARIO,
            numbers=("N",),
            may_jitter=True,
        ),
        Word(
            "explain",
            "says how a run ended and why",
            ("explain N FILE", "explain order FILE", "explain FILE TRACE", "explain [BOTH]"),
            (
                Example("./kmdfhunt explain 10 examples/echo-bug.kmdf", "why seed 10 ends in a fault"),
                Example("./kmdfhunt explain order examples/deadlock.kmdf", "why the plain run is stuck"),
                Example("./kmdfhunt explain driver.kmdf driver.trace", "the same of a trace that was kept"),
            ),
            reads=Reads.RUN,
            takes=Takes.WAY,
            choices=("order", "seed", "run"),
            more=("BOTH is a file with the scenario, a line `trace` and the trace; without it standard input has them.",),
        ),
        Word(
            "test",
            "tries the seeds 0 to 99, or others, of each scenario in a folder, and writes a line of TAP for each",
            ("test FOLDER [FROM COUNT]",),
            (
                Example("./kmdfhunt test scenarios/not-found", "a suite of five"),
                Example("./kmdfhunt test scenarios/not-found --junit results.xml", "and a report for a build server"),
            ),
            reads=Reads.NOTHING,
            takes=Takes.FOLDER,
            numbers=("FROM", "COUNT"),
            usual=("0", "100"),
            options=(JOBS, *REPORTS),
        ),
        Word(
            "sum",
            "adds tables of ranges that join",
            ("sum [TABLE..]",),
            (Example("./kmdfhunt sum part1 part2", "the table of both"),),
            reads=Reads.TABLES,
        ),
        *OF_ALL,
    ),
    "seeds",
    (
        Example("./kmdfhunt seeds 0 500 examples/echo-bug.kmdf", "how five hundred runs end"),
        Example("./kmdfhunt explain 10 examples/echo-bug.kmdf", "why seed 10 ends in a fault"),
        Example("./kmdfhunt shrink 10 examples/echo-bug.kmdf > story.kmdf", "makes that run plain"),
    ),
)

WAY_EXAMPLES = (
    Example("./kmdfview html seed 10 examples/echo-bug.kmdf > bug.html", "the run of seed 10, with the script and the story beside it"),
    Example("./kmdfview html order examples/deadlock.kmdf > deadlock.html", "the plain run"),
    Example("./kmdfview html driver.kmdf driver.trace > driver.html", "a trace that was kept"),
)
BOTH = "BOTH is a file with the scenario, a line `trace` and the trace; without it standard input has them. A scenario alone is run by `order`."

VIEWER = Program(
    "kmdfview",
    "draws a run as a page for a browser, or for Perfetto",
    ("It draws runs of `order`, `seed N`, `run` and `watch`; those of `idle` and `stack` it refuses.",),
    (
        Word(
            "html",
            "writes a page that shows the run",
            ("html order FILE", "html seed N FILE", "html run FILE", "html FILE TRACE", "html [BOTH]"),
            WAY_EXAMPLES,
            reads=Reads.RUN,
            takes=Takes.WAY,
            choices=("order", "seed", "run"),
            more=(
                "It opens at the fault or the wait list, else with the whole run in the window. Where a FILE is named, the page has the script "
                "beside the run, with the line of the event that is chosen, and says why a run went wrong.",
                BOTH,
            ),
            writes=Writes.PAGE,
        ),
        Word(
            "perfetto",
            "writes it as JSON, for https://ui.perfetto.dev and chrome://tracing",
            ("perfetto order FILE", "perfetto seed N FILE", "perfetto run FILE", "perfetto FILE TRACE", "perfetto [BOTH]"),
            (Example("./kmdfview perfetto seed 10 examples/echo-bug.kmdf > bug.json", "for ui.perfetto.dev"),),
            reads=Reads.RUN,
            takes=Takes.WAY,
            choices=("order", "seed", "run"),
            more=(BOTH,),
            writes=Writes.PAGE,
        ),
        *OF_ALL,
    ),
    "html",
    WAY_EXAMPLES,
)

# What may stand after some words, and what it says.
CHOICES = {
    "order": "the run by the `order` block",
    "seed": "the run of a seed, N",
    "run": "a run in threads",
    "jitter": "moves `at` lines by up to so many ticks",
    "bash": "for bash",
    "zsh": "for zsh",
}

PROGRAMS = {program.name: program for program in (SIMULATOR, HUNTER, VIEWER)}

# What a status says, in a few words.
STATUSES = {
    0: "a run finished, or all is in order",
    1: "a run breaks what a comment expects, or a file isn't as it should be",
    2: "the words are wrong",
    3: "a run ended in a fault of the driver",
    4: "a run is stuck",
    5: "a run came to its limit of events",
    6: "a trace or a table has a bad line",
    7: "`lint` found something",
    10: "the text is no scenario",
    11: "the scenario has no plan",
    12: "a read failed",
    13: "a write failed",
    14: "the input is longer than it may be",
    15: "there is no memory",
    130: "stopped by Ctrl-C (143 by SIGTERM)",
}
# Those with which the program wrote why it refused, and nothing else.
REFUSED = (2, 6, 10, 11, 12, 14, 15)
