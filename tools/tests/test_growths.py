"""Tests psyn's answers when an allocation fails, and that tools/refuse-growths detects a program that ignores the
failure."""
import os
import subprocess
import tempfile
import unittest

from upkeep import counts, growths, sweeps
from psyntool.program import path as program

ANSWER = (b"closed\n", 0)
CARELESS = """\
#include <stdlib.h>
#include <unistd.h>

/* Answers something else where its second block is refused. */
int main(void) {
    char *first = malloc(16);
    if (first == NULL) {
        (void)!write(1, "fault 24 OutOfMemory\\n", 21);
        return 1;
    }
    char *second = realloc(first, 1 << 20);
    (void)!write(1, second == NULL ? "opened\\n" : "closed\\n", 7);
    return 0;
}
"""


class Sweeps(unittest.TestCase):
    def test_a_careless_program_is_seen(self):
        with tempfile.TemporaryDirectory() as room, sweeps.library("refuse_growth.c") as shim:
            source, built = os.path.join(room, "careless.c"), os.path.join(room, "careless")
            with open(source, "w", encoding="utf-8") as file:
                file.write(CARELESS)
            subprocess.run(["cc", "-O0", "-o", built, source], check=True)
            swept = growths.sweep(built, shim, source, ANSWER)
        self.assertEqual(swept, (2, 1, [(2, (b"opened\n", 0))]))

    def test_each_example_meets_each_refused_growth(self):
        folder, path = os.path.join(sweeps.TOP, "examples"), program()
        inputs = sweeps.inputs_of(folder)
        with sweeps.library("refuse_growth.c") as shim:
            swept = sweeps.at_once(
                lambda name: growths.sweep(path, shim, os.path.join(folder, name), inputs[name]), inputs
            )
        counts.ran("sweeps", "examples with each growth refused", len(swept))
        self.assertEqual([(name, wrong) for name, (_, _, wrong) in zip(inputs, swept) if wrong], [])
        self.assertEqual([name for name, (asked, _, _) in zip(inputs, swept) if not asked], [])


if __name__ == "__main__":
    unittest.main()
