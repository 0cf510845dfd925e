"""Runs each command line of careless.toml, and compares the output exactly."""
import os
import tempfile
import unittest

from psyntool.program import path as program
from upkeep import careless, counts, sweeps

STORED = os.path.join(sweeps.TOP, "tools", "tests", "careless.toml")


class Lines(unittest.TestCase):
    def wrong_of(self, line):
        with tempfile.TemporaryDirectory() as room:
            wrong = careless.wrong_of(room, line, program())
        return wrong and f"{line['name']}: {wrong}"

    def test_each(self):
        lines = careless.read(STORED)
        counts.ran("examples", "careless command lines", len(lines))
        self.assertEqual([wrong for wrong in sweeps.at_once(self.wrong_of, lines) if wrong], [])

    def test_a_program_that_is_left_is_seen(self):
        line = {
            "name": "left",
            "command": "./slow > /dev/null 2>&1 & while [ ! -s pid ]; do sleep 0.05; done",
            "error": "",
            "status": 0,
        }
        with tempfile.TemporaryDirectory() as room:
            wrong = careless.wrong_of(room, line, program())
            with open(os.path.join(room, "pid"), encoding="utf-8") as file:
                os.kill(int(file.read()), 9)
        self.assertEqual(wrong, "the program is left at work")

    def test_another_word_is_seen(self):
        line = {"name": "other", "command": "psyn chek", "error": "no\n", "status": 2}
        with tempfile.TemporaryDirectory() as room:
            self.assertIn("there is no command chek", careless.wrong_of(room, line, program()))


if __name__ == "__main__":
    unittest.main()
