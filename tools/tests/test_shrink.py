"""Tests of `shrink` on the gallery: `verify` passes each circuit that it prints, which has few gates and latches, and
is the same each time."""
import os
import unittest

from psyntool.texts import circuit
from tests.tool import OnFiles
from upkeep.sweeps import TOP

# The most latches and gates of the circuit that `shrink` prints, and whether it is an environment.
SIZES = {
    "arbiter": (1, 4, False),
    "traffic": (2, 6, False),
    "lift": (7, 60, False),
    "lift-deadline": (0, 0, True),
    "balancer": (0, 0, False),
    "buffer": (1, 2, False),
    "handshake": (0, 0, True),
    "pump": (0, 0, False),
}


def conjunctions(count):
    """An automaton that requires the output to be the conjunction of both inputs, in each state."""
    lines = ['HOA: v1 Start: 0 AP: 3 "i0" "i1" "o" controllable-AP: 2 Acceptance: 0 t --BODY--\n']
    for q in range(count):
        lines.append(f"State: {q} [0&1&2] {(q + 1) % count} [!(0&1)&!2] {(q * 3 + 2) % count}\n")
    return "".join(lines) + "--END--\n"


class Large(OnFiles):
    def test_a_circuit_of_thousands_of_gates(self):
        automaton = self.file("large.hoa", conjunctions(1000).encode())
        made = self.tool("synth", automaton).stdout
        before = circuit.read(made.split(b"\n", 1)[1].decode())
        self.assertGreater(len(before.gates), 3000)
        given = self.file("large.aag", before.text().encode())
        done = self.tool("shrink", automaton, given)
        self.assertEqual(self.tool("verify", automaton, "-", given=done.stdout).stdout, b"wins\n")
        after = circuit.read(done.stdout.decode())
        self.assertLessEqual((len(after.latches), len(after.gates)), (0, 1))


class Gallery(OnFiles):
    def shrunk(self, name, flags):
        """The circuit that is printed for a specification of the gallery, which `verify` must pass."""
        self.tool("synth", "--parts", "-o", name, os.path.join(TOP, "examples", "gallery", f"{name}.parts"))
        done = self.tool("shrink", *flags, f"{name}.hoa", f"{name}.aag")
        self.assertEqual(done.returncode, 0, done.stderr)
        small = self.file("small", done.stdout)
        self.assertEqual(self.tool("verify", *flags, f"{name}.hoa", small).stdout, b"wins\n")
        return circuit.read(done.stdout.decode())

    def test_each_circuit_of_the_gallery(self):
        for name, (latches, gates, is_environment) in SIZES.items():
            small = self.shrunk(name, ["--env"] if is_environment else [])
            self.assertLessEqual(len(small.latches), latches, name)
            self.assertLessEqual(len(small.gates), gates, name)

    def test_the_answer_is_the_same_each_time(self):
        self.assertEqual(self.shrunk("arbiter", []).text(), self.shrunk("arbiter", []).text())


if __name__ == "__main__":
    unittest.main()
