"""Tests of the command line: each habit of a person, at the launcher."""
from __future__ import annotations

import json
import os
import re
import shutil
import signal
import subprocess
import sys
import tempfile
import time
import unittest
from typing import Dict, List, Optional, Set
from xml.etree import ElementTree

sys.dont_write_bytecode = True
sys.path.insert(0, os.path.dirname(os.path.dirname(os.path.abspath(__file__))))
from command import completion, man, running, tables  # noqa: E402 (their folder is on the path only now)
from command.call import Call, WrongCall, parsed  # noqa: E402
from command.running import ROOT  # noqa: E402
from command.terminal_for_tests import END_OF_FILE, INTERRUPT, Seen, Terminal, environment  # noqa: E402
from command.words import PROGRAMS  # noqa: E402

FIRST, BUG, STUCK = "examples/first-read.kmdf", "examples/echo-bug.kmdf", "examples/deadlock.kmdf"
BAD = "scenarios/refused/BadLine.kmdf"  # (its first line says what is answered)
ESCAPE = "\x1b["
# The trace of the first scenario of the guide, as its page has it.
FIRST_TRACE = """1 A read D.2 16 -> req.4
2 cpu0 start EvtIoRead Q.3 req.4
3 cpu0 call WdfRequestComplete req.4 SUCCESS -> SUCCESS
4 cpu0 end EvtIoRead Q.3 SUCCESS
5 fw cleanup req.4
6 fw destroy req.4
finished 6
"""


def called(line: str, given: str = "", env: Optional[Dict[str, str]] = None) -> "subprocess.CompletedProcess[str]":
    """What a line of words does where nothing is a terminal."""
    words = [f"./{line.split()[0]}", *line.split()[1:]]
    return subprocess.run(words, cwd=ROOT, input=given, capture_output=True, text=True, env=environment(env), check=False)


def shown(line: str, path: Optional[str] = None, more: Optional[Dict[str, str]] = None, keys: bytes = b"", is_piped: bool = False) -> Seen:
    """What a line of words does in a terminal."""
    words = [f"./{line.split()[0]}", *line.split()[1:]]
    terminal = Terminal(words, ROOT, os.path.join(ROOT, path) if path else None, is_piped, more)
    terminal.type(keys)
    return terminal.end()


def text_of(path: str) -> str:
    """The text of a file of the repository."""
    with open(os.path.join(ROOT, path), encoding="ascii") as file:
        return file.read()


def due_refusal() -> str:
    """The line that the refused scenario gets, by its own first line."""
    return text_of(BAD).split("\n")[0].partition(": ")[2]


def running_below(process: "subprocess.Popen[str]", path: str) -> Set[str]:
    """The processes that a process has started and that have become the program at this path."""
    found: Set[str] = set()
    with open(f"/proc/{process.pid}/task/{process.pid}/children", encoding="ascii") as file:
        children = file.read().split()
    for child in children:
        try:
            with open(f"/proc/{child}/cmdline", "rb") as words:
                is_it = os.path.basename(words.read().split(b"\0")[0]) == os.path.basename(os.fsencode(path))
            found.update({child} if is_it else ())
        except OSError:  # (it is gone)
            pass
    return found


class Built(unittest.TestCase):
    """Tests over the programs, which are built first where they aren't there."""

    @classmethod
    def setUpClass(cls) -> None:
        for name in PROGRAMS:
            running.program_of(name)


class Help(unittest.TestCase):
    """`--help`: a page with examples, status 0, for each program and word."""

    def test_programs(self) -> None:
        for name, program in PROGRAMS.items():
            with self.subTest(name):
                done = called(f"{name} --help")
                self.assertEqual((done.returncode, done.stderr), (0, ""))
                self.assertIn("\nExamples\n", done.stdout)
                for word in program.words:
                    self.assertIn(f"\n  {word.forms[0]}", done.stdout)

    def test_words(self) -> None:
        from command import help_pages

        for program in PROGRAMS.values():
            for word in program.words:
                page = help_pages.of_word(program, word)
                self.assertIn(f"{program.name} {word.forms[-1]}", page)
                self.assertIn("\nExamples\n", page)
                self.assertLessEqual(max(map(len, page.split("\n"))), 110)

    def test_forms(self) -> None:
        page = called("kmdfsim order --help").stdout
        for line in ("kmdfsim order -h", "kmdfsim help order", "kmdfsim --help order"):
            done = called(line)
            self.assertEqual((done.returncode, done.stdout), (0, page), line)

    def test_version(self) -> None:
        version = text_of("VERSION").strip()
        for line in ("kmdfsim --version", "kmdfsim order --version"):
            done = called(line)
            self.assertEqual(done.returncode, 0)
            self.assertRegex(done.stdout, rf"^kmdfsim {version} \((proved|NOT PROVED: .*|not built so far: .*)\)\n$")


class Table(Built):
    """The table of words against what the programs say of theirs."""

    def test_usage(self) -> None:
        for name, program in PROGRAMS.items():
            usage = subprocess.run([running.program_of(name)], input="", capture_output=True, text=True, check=False)
            known = {form.split()[0] for form in usage.stdout.partition(f"usage: {name} ")[2].split("|")}
            self.assertEqual({word.name for word in program.words if word.is_proved}, known)

    def test_examples_are_calls(self) -> None:
        for program in PROGRAMS.values():
            for example in (*program.examples, *(one for word in program.words for one in word.examples)):
                line = example.line.format(program=program.name)
                if "completion" in line:
                    continue
                words = line.partition(" > ")[0].partition(" < ")[0].split()
                self.assertIsInstance(parsed(PROGRAMS[words[0][2:]], words[1:]), Call, line)


class Wrong(Built):
    """Wrong words: what is meant is asked on standard error, with status 2."""

    CASES = (
        ("kmdfsim ordr", "no word `ordr`; did you mean `order`?"),
        ("kmdfsim seeds 0 1", "no word `seeds` here; `kmdfhunt` has it"),
        (f"kmdfsim {FIRST}", f"did you mean `order {FIRST}`?"),
        (f"kmdfsim order {FIRST} --colour=never", "no option `--colour`; did you mean `--color`?"),
        (f"kmdfsim seed ten {FIRST}", "`seed` takes the number N, and `ten` is none"),
        (f"kmdfsim gen 5 {FIRST}", "`gen` doesn't take"),
        (f"kmdfhunt seeds 0 {FIRST}", "`seeds` takes two numbers, FROM and COUNT"),
        (f"kmdfhunt seeds 0 0 {FIRST}", "COUNT is from 1"),
        (f"kmdfhunt seeds --time soon {FIRST}", "`--time` takes a number of seconds"),
        (f"kmdfhunt seeds -j 0 {FIRST}", "`--jobs` takes a number above 0"),
        (f"kmdfhunt explain 1 --time 5 {FIRST}", "`explain` has no option `--time`"),
        (f"kmdfview html idle {FIRST}", "and not of `idle`"),
        (f"kmdfsim order --color=red {FIRST}", "`--color` takes always, never or auto, and not `red`"),
        ("kmdfsim order 12345", "no file `12345`"),
        ("kmdfsim", "no word says what to do"),
    )

    def test_cases(self) -> None:
        for line, why in self.CASES:
            with self.subTest(line):
                done = called(line)
                self.assertEqual(done.returncode, 2)
                self.assertIn(why, done.stderr)

    def test_both_outputs_in_one_file(self) -> None:
        words = ["./kmdfsim", "ordr"]
        both = subprocess.run(words, cwd=ROOT, stdin=subprocess.DEVNULL, stdout=subprocess.PIPE, stderr=subprocess.STDOUT, text=True, check=False)
        self.assertIn("did you mean `order`?", both.stdout)

    def test_usage_stays(self) -> None:
        self.assertTrue(called("kmdfsim ordr").stdout.startswith("usage: kmdfsim check | order"))

    def test_terminal(self) -> None:
        seen = shown("kmdfsim ordr")
        self.assertEqual(seen.status, 2)
        self.assertIn("did you mean `order`?", seen.screen)

    def test_after_two_dashes_no_word_is_an_option(self) -> None:
        self.assertEqual(parsed(PROGRAMS["kmdfsim"], ["order", "--", "--help"]).files, ("--help",))
        with self.assertRaises(WrongCall):
            parsed(PROGRAMS["kmdfsim"], ["order", "--hlp"])


class Files(Built):
    """A word of a file, and of several."""

    def test_one(self) -> None:
        for line in (f"kmdfsim order {FIRST}", f"kmdfsim --color=never order {FIRST}", f"kmdfsim order {FIRST} --color never"):
            done = called(line)
            self.assertEqual((done.returncode, done.stdout, done.stderr), (0, FIRST_TRACE, ""), line)

    def test_several(self) -> None:
        done = called(f"kmdfsim order {FIRST} {STUCK} {BAD}")
        parts = done.stdout.split("==> ")
        self.assertEqual(parts[1], f"{FIRST} <==\n{FIRST_TRACE}\n")
        self.assertTrue(parts[2].startswith(f"{STUCK} <==\n1 "))
        self.assertEqual(parts[3], f"{BAD} <==\n{due_refusal()}\n")
        self.assertEqual(done.returncode, 4)
        self.assertIn(f"the status is 4, that of {STUCK}: the first of 3 files", done.stderr)

    def test_missing(self) -> None:
        done = called(f"kmdfsim order no-such.kmdf --color=never {FIRST}")
        self.assertEqual(done.returncode, 12)
        self.assertIn("no-such.kmdf: No such file or directory", done.stderr)
        self.assertIn(FIRST_TRACE, done.stdout)

    def test_pipe_with_a_name(self) -> None:
        words = ["bash", "-c", f"./kmdfsim order <(cat {FIRST})"]
        self.assertEqual(subprocess.run(words, cwd=ROOT, stdin=subprocess.DEVNULL, capture_output=True, text=True, check=False).stdout, FIRST_TRACE)

    def test_replay_and_sum(self) -> None:
        with tempfile.TemporaryDirectory() as folder:
            for name, line in (("trace", "kmdfsim seed 5"), ("one", "kmdfhunt seeds 0 30"), ("two", "kmdfhunt seeds 30 20")):
                with open(f"{folder}/{name}", "w", encoding="ascii") as file:
                    file.write(called(line, text_of(BUG)).stdout)
            self.assertRegex(called(f"kmdfsim replay {BUG} {folder}/trace").stdout, r"^accepted \w+ \d+\n$")
            added = called(f"kmdfhunt sum {folder}/two {folder}/one").stdout
            self.assertEqual(added, called("kmdfhunt seeds 0 50", text_of(BUG)).stdout)


class Refused(Built):
    """Refusals are on standard error too where standard output is no terminal."""

    def test_file(self) -> None:
        done = called(f"kmdfsim order {BAD}")
        self.assertEqual((done.returncode, done.stdout, done.stderr), (10, f"{due_refusal()}\n", f"kmdfsim: {BAD}: {due_refusal()}\n"))

    def test_standard_input(self) -> None:
        with open(os.path.join(ROOT, BAD), "rb") as file:
            done = subprocess.run(["./kmdfsim", "order"], cwd=ROOT, stdin=file, capture_output=True, text=True, check=False)
        self.assertEqual((done.returncode, done.stdout, done.stderr), (10, f"{due_refusal()}\n", f"kmdfsim: {due_refusal()}\n"))

    def test_pipe(self) -> None:
        done = called("kmdfsim order", text_of(BAD))
        self.assertEqual((done.returncode, done.stdout), (10, f"{due_refusal()}\n"))
        self.assertIn("the text is no scenario (status 10)", done.stderr)

    def test_pipe_into_a_file(self) -> None:
        with tempfile.TemporaryFile("w+") as file:
            file.write("before\n")
            file.flush()
            done = subprocess.run(["./kmdfsim", "order"], cwd=ROOT, input=text_of(BAD), stdout=file, stderr=subprocess.PIPE, text=True, check=False)
            file.seek(0)
            self.assertEqual((file.read(), done.stderr), (f"before\n{due_refusal()}\n", f"kmdfsim: {due_refusal()}\n"))

    def test_where_it_is_seen_it_is_there_once(self) -> None:
        with open(os.path.join(ROOT, BAD), "rb") as file:
            both = subprocess.run(["./kmdfsim", "order"], cwd=ROOT, stdin=file, stdout=subprocess.PIPE, stderr=subprocess.STDOUT, text=True, check=False)
        self.assertEqual(both.stdout, f"{due_refusal()}\n")
        self.assertEqual(shown("kmdfsim order", BAD, {"NO_COLOR": "1"}).screen, f"{due_refusal()}\n")

    def test_finished(self) -> None:
        self.assertEqual(called("kmdfsim order", text_of(FIRST)).stderr, "")


class OnTerminal(Built):
    """A terminal as input is told of; lines have colours on a terminal, and none elsewhere."""

    def test_waits(self) -> None:
        seen = shown("kmdfsim order", keys=END_OF_FILE)
        self.assertIn("waits for a scenario from the terminal; Ctrl-D on a line of its own ends it", seen.screen)
        self.assertEqual(seen.status, 10)

    def test_reads_nothing(self) -> None:
        self.assertNotIn("waits", shown("kmdfsim load 1").screen)

    def test_colours(self) -> None:
        self.assertIn("\x1b[32mfinished 6\x1b[0m\n", shown(f"kmdfsim order {FIRST}").screen)
        self.assertIn("\x1b[32mfinished 6\x1b[0m\n", shown("kmdfsim order", FIRST).screen)
        self.assertIn("\x1b[31mfault 44\x1b[0m", shown(f"kmdfsim seed 10 {BUG}").screen)
        self.assertIn("\x1b[33mreq.7 owned\x1b[0m", shown(f"kmdfsim order {STUCK}").screen)
        self.assertEqual(called(f"kmdfsim order --color=always {FIRST}").stdout.count("\x1b[32m"), 1)

    def test_none(self) -> None:
        for more in ({"NO_COLOR": "1"}, {"TERM": "dumb"}):
            self.assertEqual(shown(f"kmdfsim order {FIRST}", more=more).screen, FIRST_TRACE)
        self.assertEqual(shown(f"kmdfsim order {FIRST} --color=never").screen, FIRST_TRACE)
        self.assertEqual(shown(f"kmdfsim order {FIRST}", is_piped=True).output, FIRST_TRACE)
        self.assertNotIn(ESCAPE, shown(f"kmdfsim check {FIRST}").screen)


class Shown(Built):
    """`explain` and the pictures run the scenario themselves."""

    def test_explain(self) -> None:
        by_hand = called("kmdfhunt explain", f"{text_of(BUG)}trace\n{called('kmdfsim seed 10', text_of(BUG)).stdout}")
        self.assertEqual(called(f"kmdfhunt explain 10 {BUG}").stdout, by_hand.stdout)
        self.assertIn("ended in the fault CompleteBeforeCancelCallback at line 17", by_hand.stdout)
        self.assertIn("is stuck", called(f"kmdfhunt explain order {STUCK}").stdout)

    def test_refused(self) -> None:
        for line in (f"kmdfhunt explain 1 {BAD}", f"kmdfview html order {BAD}"):
            done = called(line)
            self.assertEqual((done.returncode, done.stdout), (10, f"{due_refusal()}\n"))
            self.assertIn(f"{BAD}: {due_refusal()}", done.stderr)

    def test_page_is_no_text_for_a_terminal(self) -> None:
        seen = shown(f"kmdfview html order {FIRST}")
        self.assertEqual(seen.status, 2)
        self.assertIn("end the line with `> run.html`", seen.screen)

    def test_page(self) -> None:
        trace = called("kmdfsim seed 10", text_of(BUG)).stdout
        both = f"{text_of(BUG)}trace\n{trace}"
        made = called(f"kmdfview html seed 10 {BUG}").stdout
        before, data, after = made.partition('<script type="application/json" id="source">')
        text, end, rest = after.partition("</script>\n")
        self.assertEqual(before + rest, called("kmdfview html", both).stdout)
        values = json.loads(text)
        self.assertEqual((values["name"], values["script"]), ("echo-bug.kmdf", text_of(BUG)))
        self.assertEqual(values["story"], called("kmdfhunt explain", both).stdout)
        self.assertEqual((len(values["lines"]), values["lines"][-1]), (44, 17))
        with tempfile.TemporaryDirectory() as folder:
            for name, content in (("trace", trace), ("both", both)):
                with open(f"{folder}/{name}", "w", encoding="ascii") as file:
                    file.write(content)
            self.assertEqual(called(f"kmdfview html {BUG} {folder}/trace").stdout, made)
            self.assertEqual(called(f"kmdfview html {folder}/both").stdout, made.replace('"name":"echo-bug.kmdf"', '"name":"both"'))

    def test_perfetto(self) -> None:
        by_hand = called("kmdfview perfetto", f"{text_of(FIRST)}trace\n{FIRST_TRACE}").stdout
        self.assertEqual(called(f"kmdfview perfetto {FIRST}").stdout, by_hand)
        self.assertTrue(json.loads(by_hand)["traceEvents"])


class Hunts(Built):
    """Hunts in pieces: the table of all, the table so far, and reports."""

    def due(self, last: tables.Table) -> str:
        """What the program itself writes of the seeds of a table."""
        return called(f"kmdfhunt seeds {last.first} {last.count}", text_of(BUG)).stdout

    def test_pieces(self) -> None:
        done = called(f"kmdfhunt seeds 0 500 {BUG}")
        self.assertEqual((done.returncode, done.stdout), (3, called("kmdfhunt seeds 0 500", text_of(BUG)).stdout))
        self.assertIn("173 seeds, seed 22 in 49 events: fault StaleHandle at line 49\n", done.stdout)

    def test_jitter(self) -> None:
        path = "scenarios/not-found/another-tick.kmdf"
        done = called(f"kmdfhunt seeds 0 1000 jitter 2 {path}")
        self.assertEqual(done.stdout, called("kmdfhunt seeds 0 1000 jitter 2", text_of(path)).stdout)

    def test_time(self) -> None:
        done = called(f"kmdfhunt seeds --time 0.5 {BUG}")
        self.assertEqual(done.stdout, self.due(tables.read(done.stdout)))

    def stopped(self, how: int) -> Seen:
        """A hunt without end, stopped once it has shown how far it is."""
        terminal = Terminal(["./kmdfhunt", "seeds", "0", "4000000000", BUG], ROOT, is_piped=True)
        terminal.wait_for(b" a second")
        if how == signal.SIGINT:
            terminal.type(INTERRUPT)
        else:
            terminal.process.send_signal(how)
        return terminal.end()

    def test_stopped(self) -> None:
        for how, status in ((signal.SIGINT, 130), (signal.SIGTERM, 143)):
            seen = self.stopped(how)
            table = tables.read(seen.output)
            self.assertEqual((seen.status, seen.output), (status, self.due(table)))
            self.assertIn(f"stopped: the table is of {table.count} seeds of the 4000000000", seen.screen)

    def test_stopped_over_standard_input(self) -> None:
        words, program = ["./kmdfhunt", "seeds", "0", "4000000000"], running.program_of("kmdfhunt")
        outputs = {"stdout": subprocess.PIPE, "stderr": subprocess.DEVNULL}
        with open(os.path.join(ROOT, BUG), "rb") as file, subprocess.Popen(words, cwd=ROOT, stdin=file, text=True, **outputs) as hunt:  # type: ignore[call-overload]
            pieces: Set[str] = set()
            while len(pieces) < 3 and hunt.poll() is None:
                pieces |= running_below(hunt, program)
                time.sleep(0.01)
            for _ in range(2):  # (as `timeout` does)
                hunt.send_signal(signal.SIGTERM)
            table = hunt.communicate()[0]
        self.assertEqual((hunt.returncode, table), (143, self.due(tables.read(table))))

    def test_full(self) -> None:
        for line in (f"seeds 0 2000 {BUG}", "seeds 0 2000", f"explain 10 {BUG}", "--help"):
            with open("/dev/full", "wb") as full, open(os.path.join(ROOT, BUG), "rb") as file:
                done = subprocess.run(["./kmdfhunt", *line.split()], cwd=ROOT, stdin=file, stdout=full, stderr=subprocess.PIPE, text=True, check=False)
            self.assertEqual(done.returncode, 13, line)
            self.assertNotIn("Traceback", done.stderr)

    def test_jobs(self) -> None:
        words = [sys.executable, "-c", "import os; print(len(os.sched_getaffinity(0)))"]
        self.assertEqual(running.answer(words, b"", most=1), (0, b"1\n"))

    def test_suite(self) -> None:
        with tempfile.TemporaryDirectory() as folder:
            done = called(f"kmdfhunt test scenarios/not-found --junit {folder}/out.xml")
            top = ElementTree.parse(f"{folder}/out.xml").getroot()
        self.assertEqual((done.returncode, done.stdout), (1, called("kmdfhunt test scenarios/not-found").stdout))
        cases = list(top.iter("testcase"))
        self.assertEqual([case.get("name", "").rpartition("/")[2] for case in cases if case.find("failure") is not None], ["lost-update.kmdf", "wrong-status.kmdf"])
        self.assertEqual((top.tag, top.get("tests"), top.get("failures"), top.get("errors"), len(cases)), ("testsuites", "5", "2", "0", 5))

    def test_report_that_cannot_be_written(self) -> None:
        done = called(f"kmdfhunt seeds 0 4000000000 --json /no-such-folder/out.json {BUG}")
        self.assertEqual((done.returncode, done.stdout), (13, ""))
        self.assertIn("/no-such-folder/out.json: No such file or directory", done.stderr)

    def test_json(self) -> None:
        values = json.loads(called(f"kmdfhunt seeds 0 500 --json - {BUG} {BAD}").stdout)
        one, refused = values["files"]
        self.assertEqual((one["first"], one["last"], one["runs"], one["events"]), (0, 499, 500, 31244))
        self.assertEqual(one["kinds"][4]["line"], 17)
        self.assertEqual((one["kinds"][4]["name"], one["kinds"][4]["seed"], one["kinds"][4]["seeds"]), ("CompleteBeforeCancelCallback", 10, 54))
        self.assertEqual(refused["refused"], due_refusal())

    def test_sarif(self) -> None:
        log = json.loads(called(f"kmdfhunt seeds 0 500 --sarif - {BUG}").stdout)
        self.assertEqual((log["version"], len(log["runs"])), ("2.1.0", 1))
        run = log["runs"][0]
        self.assertEqual(run["tool"]["driver"]["name"], "kmdfhunt")
        rules = [rule["id"] for rule in run["tool"]["driver"]["rules"]]
        self.assertEqual(len(run["results"]), 6)
        for result in run["results"]:
            self.assertIn(result["ruleId"], rules)
            self.assertTrue(result["message"]["text"])
            self.assertEqual(result["level"], "error")
            place = result["locations"][0]["physicalLocation"]
            self.assertEqual(place["artifactLocation"]["uri"], BUG)
            self.assertGreaterEqual(place["region"]["startLine"], 1)


class HandedOn(Built):
    """The proved words with standard input: nothing is changed, and a signal ends the program."""

    def test_signals(self) -> None:
        program = running.program_of("kmdfsim")
        for how in (signal.SIGTERM, signal.SIGKILL):
            with subprocess.Popen(["./kmdfsim", "order"], cwd=ROOT, stdin=subprocess.PIPE, stdout=subprocess.PIPE, text=True) as launcher:
                assert launcher.stdin and launcher.stdout
                while launcher.poll() is None and not running_below(launcher, program):
                    time.sleep(0.01)  # (the program waits for its input)
                launcher.send_signal(how)
                self.assertEqual(launcher.stdout.read(), "")  # (which comes to its end where the program has ended too)
            self.assertEqual(launcher.returncode, -how)

    def test_statuses(self) -> None:
        self.assertEqual(called("kmdfsim seed 10", text_of(BUG)).returncode, 3)
        with open("/dev/full", "wb") as full:
            done = subprocess.run(["./kmdfsim", "load", "10"], cwd=ROOT, stdin=subprocess.DEVNULL, stdout=full, check=False)
        self.assertEqual(done.returncode, 13)


class Pages(unittest.TestCase):
    """Man pages and completion."""

    def test_guide(self) -> None:
        script = os.path.join(ROOT, "tools", "command", "pages.py")
        self.assertEqual(subprocess.run([sys.executable, script, "guide", "--check"], check=False).returncode, 0)

    def test_man(self) -> None:
        if not shutil.which("groff"):
            self.skipTest("no `groff` on the PATH")
        for program in PROGRAMS.values():
            made = subprocess.run(["groff", "-man", "-ww", "-P-c", "-Tascii"], input=man.of_program(program), capture_output=True, text=True, check=True)
            self.assertEqual(made.stderr, "")
            page = re.sub(".\b", "", made.stdout)  # (a bold letter is struck twice)
            self.assertIn(f"{program.name} - {program.meaning}"[:60], page)
            for word in program.words:
                self.assertIn(f"{program.name} {word.forms[0]}".partition(" [")[0], page)

    def complete(self, shell: List[str], words: List[str]) -> str:
        """What bash offers for the last of these words."""
        quoted = " ".join(f"'{word}'" for word in words)
        line = f"{completion.bash()}\nCOMP_WORDS=({quoted}); COMP_CWORD={len(words) - 1}; _kmdfsim 2> /dev/null; printf '%s\\n' \"${{COMPREPLY[@]}}\""
        return subprocess.run([*shell, "-c", line], cwd=ROOT, capture_output=True, text=True, check=True).stdout

    def test_bash(self) -> None:
        cases = (
            ("./kmdfsim or", "order\n"),
            ("kmdfhunt seeds --ti", "--time\n"),
            ("kmdfhunt seeds --time 5 ji", "jitter\n"),
            ("kmdfview html or", "order\n"),
            ("kmdfsim order examples/first", "examples/first-read.kmdf\n"),
            ("kmdfhunt test scenarios/not", "scenarios/not-found\n"),
            ("kmdfsim completion z", "zsh\n"),
        )
        for line, due in cases:
            self.assertEqual(self.complete(["bash", "--norc"], line.split(" ")), due, line)

    def test_zsh(self) -> None:
        if not shutil.which("zsh"):
            self.skipTest("no `zsh` on the PATH")
        done = subprocess.run(["zsh", "-f", "-c", "autoload -U compinit; compinit -D -u; eval \"$(cat)\"; print $_comps[kmdfhunt]"], input=completion.zsh(), capture_output=True, text=True, check=False)
        self.assertEqual((done.stdout, done.stderr), ("_kmdfsim\n", ""))


if __name__ == "__main__":
    unittest.main()
