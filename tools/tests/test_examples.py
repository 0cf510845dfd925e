"""Tests the examples that users copy: a Makefile and a workflow that judge circuits, and a grammar for editors."""
import json
import os
import re
import shutil
import subprocess
import sys
import unittest

from psyntool.program import path as program
from psyntool.tlsf import expressions, reading
from psyntool.tlsf.sentences import CALLED
from tests.tool import TOOL, OnFiles
from upkeep.sweeps import TOP

EXAMPLES = os.path.join(TOP, "examples")


@unittest.skipUnless(shutil.which("make"), "make is not installed")
class Project(OnFiles):
    def setUp(self):
        super().setUp()
        shutil.copy(os.path.join(EXAMPLES, "project", "Makefile"), self.room)
        shutil.copy(os.path.join(EXAMPLES, "gallery", "crossing.tlsf"), self.room)
        self.environment = {**os.environ, "PSYN": f"{sys.executable} {TOOL}", "MAKEFLAGS": ""}
        command = f"#!/bin/sh\nPSYN={program()} exec {sys.executable} {TOOL} \"$@\"\n"
        os.chmod(self.file("psyn", command.encode()), 0o755)
        self.environment["PSYN"] = "./psyn"

    def make(self, *words):
        return subprocess.run(
            ["make", "-s", *words], cwd=self.room, env=self.environment, capture_output=True, text=True, check=False
        )

    def there(self):
        return {name for name in os.listdir(self.room) if name.startswith("crossing.")}

    def test_what_is_made_is_judged(self):
        self.assertEqual((self.make().returncode, self.make("check").returncode), (0, 0))
        self.assertEqual(self.there(), {f"crossing.{it}" for it in ("tlsf", "aag", "v", "c", "checked")})

    def test_a_circuit_that_loses_is_told(self):
        self.assertEqual(self.make().returncode, 0)
        path = os.path.join(self.room, "crossing.aag")
        with open(path, encoding="utf-8") as file:
            lines = file.read().split("\n")
        inputs, latches, outputs = map(int, lines[0].split()[2:5])
        for row in range(1 + inputs + latches, 1 + inputs + latches + outputs):
            lines[row] = "1"
        self.file("crossing.aag", "\n".join(lines).encode())
        done = self.make("check")
        self.assertNotEqual(done.returncode, 0)
        self.assertNotIn("crossing.checked", self.there())

    def test_a_specification_without_a_controller_ends_it(self):
        text = "INFO { SEMANTICS: Mealy TARGET: Mealy } MAIN { INPUTS { r; } OUTPUTS { g; } GUARANTEE { G r; } }\n"
        self.file("none.tlsf", text.encode())
        done = self.make()
        self.assertNotEqual(done.returncode, 0)
        self.assertNotIn("none.v", os.listdir(self.room))

    def test_the_workflow_runs_what_the_makefile_has(self):
        with open(os.path.join(EXAMPLES, "project", "ci.yml"), encoding="utf-8") as file:
            runs = re.findall(r"run: (make.*)", file.read())
        self.assertEqual(runs, ["make check"])


class Grammar(unittest.TestCase):
    def test_each_word_has_a_colour(self):
        with open(os.path.join(EXAMPLES, "editors", "tlsf.tmLanguage.json"), encoding="utf-8") as file:
            grammar = json.load(file)
        signs = [re.compile(one["match"]) for one in grammar["patterns"] if "match" in one]
        words = {*expressions.WORDS, *CALLED, *expressions.KEYWORDS, *reading.SECTIONS, "INFO", "MAIN", "GLOBAL", "GF"}
        words |= {"&&", "||", "->", "<->", "!", "==", "12", "// said"}
        words -= {"_"}
        self.assertGreater(len(words), 60)
        self.assertEqual([word for word in sorted(words) if not any(sign.fullmatch(word) for sign in signs)], [])


if __name__ == "__main__":
    unittest.main()
