"""Tests of the scripts that write files from a source, over a copy of both: each says nothing of what it has written, and sees
a file that was changed, a source that was changed, and what it writes anew is what was there."""

import shutil
import subprocess
import sys
import tempfile
import unittest
from pathlib import Path

ROOT = Path(__file__).resolve().parent.parent
# What the copy has.
PARTS = (
    "tools/editors.py",
    "tools/runs_to_tests.py",
    "tools/scene_to_plan.py",
    "tools/view",
    "tools/runs",
    "tools/idle",
    "tools/stack",
    "scenarios",
    "editors",
    "crates/wdf_tokens/src",
    "crates/wdf_scene/src",
    "crates/wdf_base/src",
    "crates/wdf_picture/src",
    "crates/test_worked_texts/src",
    "crates/law_machine_worked",
    "crates/law_stuck_worked",
    "crates/law_stack_worked",
    "crates/law_idle_worked",
)
# A script; files that it writes, each with a text in it and another; sources, likewise; whether it writes them by itself.
EDITORS = (
    "tools/editors.py",
    [("editors/vim/syntax/kmdf.vim", "syn case match", "syn case ignore"), ("editors/vscode/language-configuration.json", "lineComment", "blockComment")],
    [("editors/words.txt", "WdfRequestComplete", "WdfRequestCompleted"), ("crates/wdf_base/src/words.rt", '"WdfRequestComplete"', '"WdfRequestEnd"')],
    True,
)
WORKED_TEXTS = (
    "tools/runs_to_tests.py",
    [("crates/test_worked_texts/src/power.rt", "events: ", "events: 1"), ("crates/test_worked_texts/src/idle.rt", "scenario: ", "Scenario: ")],
    [("tools/runs/power/removed.out", "1 ", "2 "), ("tools/idle/started.scn", "cpus", "Cpus")],
    True,
)
PICTURES = (
    "tools/view/embed.py",
    [("crates/wdf_picture/src/style.rt", "{", "["), ("crates/wdf_picture/src/script.rt", "(", "[")],
    [("tools/view/picture.css", "{", "["), ("tools/view/picture.js", "(", "[")],
    True,
)
PLANS = (
    "tools/scene_to_plan.py",
    [
        ("crates/law_machine_worked/specs/RunsOfPower.antt", "(a_plan 1 ", "(a_plan 2 "),
        ("crates/law_stuck_worked/proofs/StuckRuns.antt", "agree = refl", "agree = sym"),
        ("crates/law_idle_worked/specs/IdleRequests.antt", "events : List Event", "events : List"),
    ],
    [("tools/runs/serial/serial_port.scn", "limit ", "limit 1"), ("scenarios/stuck/stopped.out", "stuck ", "limit ")],
    False,
)


def run(room, script, *words):
    """How a script ends in the copy, and what it says."""
    ran = subprocess.run([sys.executable, "-B", str(room / script), *words], stdout=subprocess.PIPE, stderr=subprocess.STDOUT, text=True, check=False)
    return ran.returncode, ran.stdout


class Copy(unittest.TestCase):
    """A copy of the sources and of what is made of them."""

    def setUp(self):
        folder = tempfile.TemporaryDirectory()
        self.addCleanup(folder.cleanup)
        self.room = Path(folder.name)
        for part in PARTS:
            source, place = ROOT / part, self.room / part
            place.parent.mkdir(parents=True, exist_ok=True)
            if source.is_dir():
                shutil.copytree(source, place, ignore=shutil.ignore_patterns("out"))
            else:
                shutil.copy(source, place)

    def change(self, file, old, new):
        """Changes a text in a file once; what was there."""
        text = (self.room / file).read_text(encoding="utf-8")
        self.assertIn(old, text, f"{file}: another change is needed in this test")
        (self.room / file).write_text(text.replace(old, new, 1), encoding="utf-8")
        return text

    def assert_sees(self, script, made, sources, writes):
        """The script says nothing of what is there, sees each change, and writes what was there."""
        self.assertEqual(run(self.room, script, "--check"), (0, ""))
        for file, old, new in made + sources:
            with self.subTest(file=file):
                text = self.change(file, old, new)
                self.assertNotEqual(run(self.room, script, "--check")[0], 0)
                if writes and (file, old, new) in made:
                    run(self.room, script)
                    self.assertEqual((self.room / file).read_text(encoding="utf-8"), text)
                (self.room / file).write_text(text, encoding="utf-8")

    def test_editors(self):
        self.assert_sees(*EDITORS)

    def test_worked_texts(self):
        self.assert_sees(*WORKED_TEXTS)

    def test_pictures(self):
        self.assert_sees(*PICTURES)

    def test_plans(self):
        self.assert_sees(*PLANS)


if __name__ == "__main__":
    unittest.main()
