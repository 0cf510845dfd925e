"""Tests `show --table`: tables of circuits, read back and judged by `verify`; names, and what is refused."""
import itertools
import os
import random
import unittest

from psyntool import machines
from psyntool.program import path as program
from psyntool.texts import circuit
from psyntool.texts.circuit import Circuit, Gate, Latch
from tests.test_verilog import drawn
from tests.tool import CIRCUIT, OnFiles
from upkeep.sweeps import TOP

GALLERY = os.path.join(TOP, "examples", "gallery")


def read_back(text):
    """The machine of a text in the form KISS2."""
    lines = [line.split() for line in text.splitlines() if line]
    named = {words[0]: words[1:] for words in lines if words[0].startswith(".")}
    moves = [[] for _ in range(int(named[".s"][0]))]
    for words in lines:
        if not words[0].startswith("."):
            inputs = tuple(None if sign == "-" else int(sign) for sign in words[0]) if int(named[".i"][0]) else ()
            outputs = tuple(map(int, words[3].replace("-", "")))
            moves[int(words[1][1:])].append(machines.Move(inputs, outputs, int(words[2][1:])))
    assert sum(map(len, moves)) == int(named[".p"][0]) and named[".r"] == ["s0"]
    return machines.Machine(tuple(named.get(".ilb", ())), tuple(named.get(".ob", ())), tuple(map(tuple, moves)))


def circuit_of(machine):
    """A circuit that does what a machine does, with a latch for each state but the first."""
    count, gates = itertools.count(1), []
    inputs = [2 * next(count) for _ in machine.inputs]
    held = [2 * next(count) for _ in machine.moves[1:]]

    def both(one, other):
        gates.append(Gate(2 * next(count), (one, other)))
        return gates[-1].literal

    def all_of(literals):
        found = 1
        for literal in literals:
            found = both(found, literal)
        return found

    places = [all_of(literal ^ 1 for literal in held), *held]
    taken = [
        (all_of([place, *(it ^ (1 - bit) for it, bit in zip(inputs, move.inputs) if bit is not None)]), move)
        for place, moves in zip(places, machine.moves)
        for move in moves
    ]

    def some(chosen):
        return all_of(literal ^ 1 for literal, move in taken if chosen(move)) ^ 1

    latches = [Latch(it, some(lambda move: move.target == state)) for state, it in enumerate(held, 1)]
    outputs = [some(lambda move: move.outputs[place]) for place in range(len(machine.outputs))]
    names = (("i", machine.inputs), ("o", machine.outputs))
    symbols = {(kind, place): name for kind, them in names for place, name in enumerate(them)}
    return Circuit(tuple(inputs), tuple(latches), tuple(outputs), tuple(gates), symbols)


class Tables(OnFiles):
    @classmethod
    def setUpClass(cls):
        program()

    def test_tables_of_the_gallery_win(self):
        for name in ("crossing", "vending", "bridge"):
            path = os.path.join(GALLERY, f"{name}.tlsf")
            self.assertEqual(self.tool("synth", "--quiet", "-o", name, path).returncode, 10)
            table = self.tool("show", "--table", "kiss2", f"{name}.aag").stdout.decode()
            back = self.file("back.aag", circuit_of(read_back(table)).text().encode())
            self.assertEqual(self.tool("verify", path, back).stdout, b"wins\n", name)
            self.file("it.hoa", self.tool("show", "--table", "hoa", f"{name}.aag").stdout)
            self.assertEqual(self.tool("verify", "it.hoa", f"{name}.aag").stdout, b"wins\n", name)
            # The automaton allows one answer to each letter, which is the circuit's.
            made = self.tool("synth", "it.hoa").stdout.partition(b"\n")[2]
            self.assertEqual(self.tool("verify", path, self.file("made.aag", made)).stdout, b"wins\n", name)

    def test_random_circuits_do_what_their_tables_say(self):
        chance = random.Random("tables")
        for number in range(60):
            made = drawn(chance)
            symbols = {(kind, place): f"{kind}{place}" for kind in "io" for place in range(len(made.names(kind)))}
            made = Circuit(made.inputs, made.latches, made.outputs, made.gates, symbols)
            path = self.file("it.aag", made.text().encode())
            table = self.tool("show", "--table", "kiss2", path).stdout.decode()
            back = self.file("back.aag", circuit_of(read_back(table)).text().encode())
            letters = "".join("".join(chance.choice("01") for _ in made.inputs) + "\n" for _ in range(60)).encode()
            rows = [
                [row.split(b"|")[1:] for row in self.tool("sim", one, "-", given=letters).stdout.splitlines()]
                for one in (path, back)
            ]
            with self.subTest(number):
                self.assertEqual(*rows)
                self.file("it.hoa", self.tool("show", "--table", "hoa", path).stdout)
                self.assertEqual(self.tool("verify", "it.hoa", path).stdout, b"wins\n")

    def test_a_small_table(self):
        text = 'aag 2 1 1 1 0\n2\n4 2\n4\ni0 a b\no0 q"\n'
        self.assertEqual(
            machines.kiss(machines.machine_of(circuit.read(text))),
            ".i 1\n.o 1\n.s 2\n.p 4\n.r s0\n.ilb a_b\n.ob q\"\n0 s0 s0 0\n1 s0 s1 0\n0 s1 s0 1\n1 s1 s1 1\n.e\n",
        )
        self.assertIn('AP: 2 "a b" "q\\""\n', machines.hoa(machines.machine_of(circuit.read(text))))

    def test_what_has_no_table(self):
        self.file("lamp.aag", CIRCUIT)
        self.file("unset.aag", b"aag 1 0 1 1 0\n2 2 2\n2\n")
        self.file("it.pg", b"0 0 0 0;\n")
        inputs = "".join(f"{2 * it}\n" for it in range(1, 31))
        latches = "".join(f"{2 * it + 60} {2 * it}\n" for it in range(1, 31))
        self.file("many.aag", f"aag 60 30 30 1 0\n{inputs}{latches}62\n".encode())
        for words, why in (
            (("kiss", "lamp.aag"), "--table FORM: 'kiss' is none of kiss2, hoa"),
            (("kiss2", "it.pg"), "show --table is for a circuit"),
            (("kiss2", "--reach", "3", "lamp.aag"), "show --table is for a circuit, without --reach"),
            (
                ("kiss2", "unset.aag"),
                "a latch of this circuit has no first value, so there is no table (--zero-resets gives it 0)",
            ),
            (("hoa", "many.aag"), "the table of this circuit has more than 100,000 rows"),
        ):
            with self.subTest(words):
                done = self.tool("show", "--table", *words)
                self.assertEqual((done.stdout, done.stderr.decode(), done.returncode), (b"", f"psyn: {why}\n", 2))


if __name__ == "__main__":
    unittest.main()
