"""Tests of tools/check_all.py with small made scripts: its table, its status, and that each script of its own rows is there."""

import contextlib
import io
import os
import re
import sys
import tempfile
import unittest
from unittest import mock

import check_all

SCRIPTS = {
    "good.py": "import sys\nprint('first')\nprint('all of', len(sys.argv) - 1, 'well')\n",
    "bad.py": "import sys\nprint('one is wrong')\nsys.exit(1)\n",
}
GOOD = ("good", "good.py P more", None)
BAD = ("bad", "bad.py", None)
GONE = ("gone", "gone.py", None)
LACKS = ("lacks", "good.py P", "no-such-command")
LONGER = ("longer", "good.py", None)


class Table(unittest.TestCase):
    def setUp(self):
        room = tempfile.TemporaryDirectory()
        self.addCleanup(room.cleanup)
        for name, text in SCRIPTS.items():
            with open(os.path.join(room.name, name), "w", encoding="ascii") as file:
                file.write(text)
        for place, name, value in ((check_all, "ROOT", room.name), (check_all, "LONG", (LONGER,)), (tempfile, "tempdir", room.name)):
            patch = mock.patch.object(place, name, value)
            patch.start()
            self.addCleanup(patch.stop)

    def ends(self, rows, *words):
        """How check_all ends with these rows and words, and its table but for the seconds."""
        out, given = io.StringIO(), ["check_all.py", "--program", sys.executable, *words]
        with mock.patch.object(check_all, "ROWS", rows), mock.patch.object(sys, "argv", given), self.assertRaises(SystemExit) as end:
            with contextlib.redirect_stdout(out), contextlib.redirect_stderr(io.StringIO()):
                check_all.main()
        return end.exception.code, [" ".join(re.sub(r" \d+ s ", " ", line).split()) for line in out.getvalue().splitlines()]

    def test_rows_that_are_well_or_left_out(self):
        table = ["good well all of 2 well", "gone left out no gone.py", "lacks left out no `no-such-command` on the PATH"]
        self.assertEqual(self.ends((GOOD, GONE, LACKS)), (0, table))

    def test_a_row_that_is_not_well(self):
        status, table = self.ends((GOOD, BAD))
        self.assertEqual(status, 1)
        self.assertRegex(table[1], r"^bad NOT WELL one is wrong \(")

    def test_one_row_alone(self):
        self.assertEqual(self.ends((GOOD, BAD), "good"), (0, ["good well all of 2 well"]))

    def test_the_long_rows(self):
        status, table = self.ends((GOOD,), "--long")
        self.assertEqual((status, [line.split()[0] for line in table]), (0, ["good", "longer"]))

    def test_a_row_that_is_not_there(self):
        self.assertEqual(self.ends((GOOD,), "goods")[0], 2)


class Rows(unittest.TestCase):
    def test_each_script_is_there(self):
        for _, command, _ in check_all.ROWS + check_all.LONG:
            self.assertIsNone(check_all.lacking(command, None))


if __name__ == "__main__":
    unittest.main()
