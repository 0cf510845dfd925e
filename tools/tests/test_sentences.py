"""Tests of `synth --tlsf` on the specifications of examples/specifications: the answer is the one that the first line
of the text states, and `verify --tlsf` passes the circuit that is printed."""
import glob
import os
import re
import subprocess
import unittest

from psyntool.program import path as program
from upkeep import counts, sweeps
from upkeep.sweeps import TOP

FOLDER = os.path.join(TOP, "examples", "specifications")
STATUSES = {"REALIZABLE": 10, "UNREALIZABLE": 20}


def answered(words, text):
    """The answer to a command: its first line, the rest, and the exit status."""
    done = subprocess.run(
        [program()], input=f"{words}\n{text}".encode(), stdout=subprocess.PIPE, timeout=60, check=False
    )
    first, _, rest = done.stdout.decode().partition("\n")
    return first, rest, done.returncode


def wrong(path):
    """What is wrong with the answer to a specification, or None."""
    with open(path, encoding="utf-8") as file:
        text = file.read()
    wanted = re.match(r"// answer: (\w+)\n", text)[1]
    first, circuit, status = answered("synth --tlsf", text)
    if (first, status) != (wanted, STATUSES[wanted]):
        return f"{os.path.basename(path)}: {first} with status {status}"
    env = " --env" * (first == "UNREALIZABLE")
    judged, _, _ = answered(f"verify --tlsf{env}", f"{text}%%\n{circuit}")
    return None if judged == "wins" else f"{os.path.basename(path)}: verify says {judged}"


class Sentences(unittest.TestCase):
    def test_each_is_answered_and_judged(self):
        paths = sorted(glob.glob(os.path.join(FOLDER, "*.tlsf")))
        self.assertEqual([it for it in sweeps.at_once(wrong, paths) if it], [])
        counts.ran("examples", "specifications that are answered and judged", len(paths))


if __name__ == "__main__":
    unittest.main()
