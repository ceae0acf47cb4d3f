"""Tests of what the scripts of bench/ share: a run has its answer, status and figures; a program that isn't there ends the script;
a table's cell has its exponent only where that says something; events are read off an ending; the crates below one are found;
modules come in the order in which they were written. The texts of scenarios have as many lines as they are asked for."""

import os
import sys
import tempfile
import unittest

sys.path.insert(0, os.path.join(os.path.dirname(os.path.dirname(os.path.abspath(__file__))), "bench"))
import functions
import machine
import measure
import modules
import table

TRACE = b"1 tick 1\nfinished 24\n"
CRATES = "low:\nmiddle: low  # a word\nhigh: middle kit_crate\n"


class Bench(unittest.TestCase):
    def setUp(self):
        room = tempfile.TemporaryDirectory()
        self.addCleanup(room.cleanup)
        self.room = room.name

    def test_a_run(self):
        program = os.path.join(self.room, "program")
        with open(program, "w", encoding="ascii") as file:
            file.write('#!/bin/sh\necho "$@"\ncat\nexit 5\n')
        os.chmod(program, 0o755)
        answer, status, (clock, processor, memory) = measure.run("seed 5", b"text\n", program)
        self.assertEqual((answer, status), (b"seed 5\ntext\n", 5))
        self.assertTrue(clock > 0 <= processor and 0 < memory < 1000, (clock, processor, memory))
        self.assertEqual(measure.program_of(["script", program]), program)

    def test_a_program_that_is_not_there(self):
        with self.assertRaises(SystemExit):
            measure.program_of(["script", os.path.join(self.room, "program")])

    def test_modules_come_as_they_were_written(self):
        for at, name in ((30, "b.Lts"), (10, "a.Proof"), (20, "c.Answers")):
            path = os.path.join(self.room, f"{name}.oantt")
            open(path, "w", encoding="ascii").close()
            os.utime(path, (at, at))
        self.assertEqual(modules.modules_below(self.room), [(10, "a.Proof"), (20, "c.Answers"), (30, "b.Lts")])

    def test_events_of_an_ending(self):
        self.assertEqual(table.events_of(TRACE), 24)
        with self.assertRaises(SystemExit):
            table.events_of(b"1 tick 1\n")

    def test_cells(self):
        self.assertEqual(table.cell((2000, 0.081, 7), (1000, 0.021, 7), 0.001).split(), ["40.50", "2.00", "7"])
        self.assertEqual(table.cell((2000, 0.08, 7), (1000, 0.0029, 7), 0.001).split(), ["40.00", "7"])
        self.assertEqual(table.cell(None, None, 0.001).split(), ["too", "long"])

    def test_the_crates_below_one(self):
        crates = functions.crates_of(CRATES)
        self.assertEqual(crates, {"low": [], "middle": ["low"], "high": ["middle", "kit_crate"]})
        self.assertEqual(functions.below(crates, "high"), ["middle", "low"])

    def test_sizes_of_scenarios(self):
        self.assertEqual(machine.reads(7).count("at 0 read D 16\n"), 7)
        self.assertEqual(machine.removal(3).count("read"), 3)
        self.assertIn("limit 9\n", machine.interrupts(9))


if __name__ == "__main__":
    unittest.main()
