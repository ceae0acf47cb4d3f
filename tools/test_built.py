"""Tests of tools/built.py: which program a script is given, and what ends it."""

import os
import tempfile
import unittest
from unittest import mock

import built

LAUNCHER = """#!/bin/sh
[ "$*" = --build ] && echo "${0%/*}/quick"
"""


class Programs(unittest.TestCase):
    def setUp(self):
        room = tempfile.TemporaryDirectory()
        self.addCleanup(room.cleanup)
        self.room, self.path = room.name, os.path.join(room.name, "program")
        self.addCleanup(built.launched.cache_clear)

    def put(self, path, text="#!/bin/sh\n", mode=0o755):
        path = os.path.join(self.room, path)
        os.makedirs(os.path.dirname(path), exist_ok=True)
        with open(path, "w", encoding="ascii") as file:
            file.write(text)
        os.chmod(path, mode)
        return path

    def assert_ends(self, said, call, *words):
        with self.assertRaises(SystemExit) as end:
            call(*words)
        self.assertIn(said, str(end.exception))

    def test_a_program_that_is_there(self):
        self.put("program")
        self.assertEqual(built.program_at(self.path), self.path)
        self.assertEqual(built.program_at(os.path.relpath(self.path)), self.path)

    def test_a_program_that_is_not_there(self):
        self.assert_ends(f"no program at {self.path}. Build it first: `./program` at the top does", built.program_at, self.path)

    def test_a_program_that_cannot_be_run(self):
        # Who may run everything, as root on some systems, may not run a file without the mark either.
        self.put("program", mode=0o644)
        self.assert_ends(f"no program at {self.path}", built.program_at, self.path)

    def test_a_command_that_is_there(self):
        self.assertIsNone(built.needs("sh", "a shell"))

    def test_a_command_that_is_not_there(self):
        self.assert_ends("`no-such-command` isn't on the PATH: it is needed here", built.needs, "no-such-command", "it is needed here")

    def test_a_program_of_a_folder(self):
        path = self.put("program")
        with mock.patch.dict(os.environ, {"KMDFSIM_PROGRAMS": self.room}):
            self.assertEqual(built.launched("program"), path)

    def test_the_program_that_the_launcher_runs(self):
        self.put("kmdfsim", LAUNCHER)
        quick = self.put("quick")
        self.put("kmdfhunt", "#!/bin/sh\nexit 1\n")
        with mock.patch.object(built, "ROOT", self.room), mock.patch.dict(os.environ, {"KMDFSIM_PROGRAMS": ""}):
            self.assertEqual(built.launched("kmdfsim"), quick)
            self.assertEqual(built.program_at(os.path.join(self.room, "kmdfsim")), quick)
            self.assert_ends("./kmdfhunt isn't built", built.launched, "kmdfhunt")


if __name__ == "__main__":
    unittest.main()
