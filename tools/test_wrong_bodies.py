"""Tests of tools/wrong_bodies.py over a small made tree: which wrong bodies can be applied, and why others can't."""

import contextlib
import io
import tempfile
import unittest
from pathlib import Path
from unittest import mock

import wrong_bodies

CODE = "fn one() -> u32 {\n    1\n}\n\nfn two() -> u32 {\n    one() + 1\n}\n"
# Each wrong body, and why it can't be applied.
EDITS = {
    "must-fail/two_is_one.edit": ("file: src/lib.rt\nold:     one() + 1\nnew:     one()\n", None),
    "wrong/both.edit": ("file: src/lib.rt\nold: one() + 1\nnew: one() + 2\nold: one() + 2\nnew: 3\n", None),
    "wrong/nothing_there.edit": ("file: src/lib.rt\nold: three()\nnew: 3\n", "its old text is 0 times in src/lib.rt: three()"),
    "wrong/twice_there.edit": ("file: src/lib.rt\nold: -> u32\nnew: -> u64\n", "its old text is 2 times in src/lib.rt: -> u32"),
    "wrong/no_file.edit": ("file: src/none.rt\nold: 1\nnew: 2\n", "src/none.rt isn't there"),
}


class Edits(unittest.TestCase):
    def setUp(self):
        room = tempfile.TemporaryDirectory()
        self.addCleanup(room.cleanup)
        self.folder = Path(room.name) / "crates/wdf_part"
        for place, text in {"src/lib.rt": CODE, **{name: told for name, (told, _) in EDITS.items()}}.items():
            (self.folder / place).parent.mkdir(parents=True, exist_ok=True)
            (self.folder / place).write_text(text)
        patch = mock.patch.multiple(wrong_bodies, ROOT=Path(room.name), CRATES=Path(room.name) / "crates")
        patch.start()
        self.addCleanup(patch.stop)

    def test_which_can_be_applied(self):
        for name, (_, why) in EDITS.items():
            with self.subTest(name=name):
                self.assertEqual(wrong_bodies.why_not_applied(self.folder, self.folder / name), why)

    def test_a_look_at_all(self):
        said = io.StringIO()
        with contextlib.redirect_stdout(said):
            self.assertEqual(wrong_bodies.look(["wdf_part"]), 3)
        self.assertEqual(said.getvalue().count("can't be applied"), 3)

    def test_a_line_of_another_form(self):
        (self.folder / "wrong/odd.edit").write_text("file: src/lib.rt\nis: 1\n")
        with self.assertRaises(SystemExit) as end:
            wrong_bodies.why_not_applied(self.folder, self.folder / "wrong/odd.edit")
        self.assertIn("line 2: can't be read: is: 1", str(end.exception))


if __name__ == "__main__":
    unittest.main()
