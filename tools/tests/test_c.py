"""Tests `c`: the functions compile without a warning, and do what the circuit does; names, comments, refusals."""
import os
import random
import re
import shutil
import subprocess
import unittest

from psyntool.program import path as program
from psyntool.texts import c, circuit
from tests.test_verilog import drawn
from tests.tool import CIRCUIT, OnFiles
from upkeep.sweeps import TOP

GALLERY = os.path.join(TOP, "examples", "gallery")
WARNINGS = ["-std=c99", "-Wall", "-Wextra", "-Werror", "-pedantic"]
STEPS = 10_000
# A program that reads letters, a line each, and prints the outputs of each step.
MAIN = """
#include <stdio.h>
int main(void)
{
  it_state state;
  char line[256];
  it_init(&state);
  while (fgets(line, sizeof line, stdin)) {
    it_inputs inputs;
    it_outputs outputs;
    char *letter = line;
    %(read)s
    it_step(&state, &inputs, &outputs);
    %(shown)s
    putchar('\\n');
  }
  return 0;
}
"""


def fields(source, kind):
    found = re.search(r"typedef struct \{((?:(?!typedef)[\s\S])*)\} it_" + kind, source)
    return [name for name in re.findall(r"bool (\w+);", found[1]) if name != "unused"]


@unittest.skipUnless(shutil.which("cc"), "cc is not installed")
class Compiled(OnFiles):
    @classmethod
    def setUpClass(cls):
        program()

    def outputs(self, made, letters):
        """The outputs of a circuit's functions, letter by letter, and what `sim` says."""
        source = c.source(made, "it")
        read = " ".join(f"inputs.{name} = *letter++ == '1';" for name in fields(source, "inputs")) or "(void)letter;"
        if read == "(void)letter;":
            read += " inputs.unused = false;"
        shown = " ".join(f"putchar(outputs.{name} ? '1' : '0');" for name in fields(source, "outputs"))
        path = self.file("it.c", (source + MAIN % {"read": read, "shown": shown}).encode())
        subprocess.run(["cc", *WARNINGS, "-O1", "-o", "it", path], cwd=self.room, check=True)
        given = "".join(f"{letter}\n" for letter in letters)
        done = subprocess.run(["./it"], cwd=self.room, input=given, capture_output=True, text=True, check=True)
        said = self.tool("sim", self.file("it.aag", made.text().encode()), "-", given=given.encode()).stdout
        return done.stdout.splitlines(), [row.split("|")[2] for row in said.decode().splitlines()]

    def test_controllers_of_the_gallery(self):
        chance = random.Random("controllers")
        for name in ("crossing", "vending", "bridge"):
            answer = self.tool("synth", "--quiet", os.path.join(GALLERY, f"{name}.tlsf")).stdout.decode()
            made = circuit.read(answer.partition("\n")[2])
            letters = ["".join(chance.choice("01") for _ in made.inputs) for _ in range(STEPS)]
            found, wanted = self.outputs(made, letters)
            self.assertEqual((len(found), found), (STEPS, wanted), name)

    def test_random_circuits_with_odd_names(self):
        chance = random.Random("circuits of C")
        for number in range(40):
            made = drawn(chance)
            letters = ["".join(chance.choice("01") for _ in made.inputs) for _ in range(40)]
            with self.subTest(number):
                self.assertEqual(*self.outputs(made, letters))


class Texts(OnFiles):
    def test_names_that_c_does_not_allow_are_changed_and_told(self):
        text = "aag 3 2 0 1 1\n2\n4\n6\n6 2 4\ni0 int\ni1 a'[0]\no0 _Bool\n"
        said = c.source(circuit.read(text), "1st")
        for line in (
            "/* The input int_2 is 'int' in the circuit. */",
            '/* The input a__0_ is "a\'[0]" in the circuit. */',
            "/* The output x_Bool is '_Bool' in the circuit. */",
            "void x_1st_init(x_1st_state *state)",
            "  outputs->x_Bool = inputs->int_2 && inputs->a__0_;",
        ):
            self.assertIn(line + "\n", said)

    def test_a_comment_ends_where_it_should(self):
        said = c.source(circuit.read("aag 1 1 0 1 0\n2\n2\n"), "it", ["*/ int x; /*"])
        self.assertTrue(said.startswith("/* * / int x; / * */\n"))

    def test_a_circuit_that_loses_has_no_function(self):
        sections = b"INPUTS { r; } OUTPUTS { g; } GUARANTEE { G (r -> g); }"
        path = self.file("it.tlsf", b"INFO { SEMANTICS: Mealy TARGET: Mealy } MAIN { " + sections + b" }\n")
        self.file("never.aag", b"aag 1 1 0 1 0\n2\n0\ni0 r\no0 g\n")
        done = self.tool("c", "never.aag", path)
        told = b"psyn: never.aag loses, so there is no function: `verify` tells a counterexample\n"
        self.assertEqual((done.stdout, done.stderr, done.returncode), (b"", told, 1))
        self.file("grant.aag", b"aag 1 1 0 1 0\n2\n2\ni0 r\no0 g\n")
        done = self.tool("c", "grant.aag", path)
        lines = b"  /* g is r of the same step. */\n  /* - G (r -> g) */\n  outputs->g = inputs->r;\n"
        self.assertIn(lines, done.stdout)
        self.assertIn(b"  (void)state;\n", done.stdout)

    def test_a_circuit_that_is_none(self):
        self.file("lamp.aag", CIRCUIT)
        self.assertEqual(self.tool("c", "lamp.aag").returncode, 0)
        self.file("broken.aag", CIRCUIT.replace(b"8 5 3", b"8 8 3"))
        done = self.tool("c", "broken.aag")
        self.assertEqual((done.stdout, done.stderr.split(b" ")[:2], done.returncode), (b"", [b"fault", b"65"], 1))


if __name__ == "__main__":
    unittest.main()
