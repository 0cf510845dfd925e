"""Tests of the tool's own parsers: automata and their labels, circuits, certificates, solutions."""
import glob
import os
import random
import subprocess
import unittest

from psyntool.files import Text, returns_at_line_ends
from psyntool.kinds import Kind, kind_of
from psyntool.program import path as program
from psyntool.texts import (
    Unreadable, automaton, binary, certificate, circuit, game, labels, report, solution, stimulus, vcd
)
from tests.tool import AUTOMATON, CERTIFICATE, CIRCUIT, GAME
from upkeep.sweeps import TOP


def read(body, names=3, extra=""):
    said = " ".join(f'"p{number}"' for number in range(names))
    return automaton.read(
        f"HOA: v1 Start: 0 AP: {names} {said} controllable-AP: 1 {extra} Acceptance: 1 Inf(0) --BODY-- {body} --END--"
    )


def is_met(label, true, made):
    return labels.first_met([label], {number: number in true for number in range(len(made.names))}, made.aliases) == 0


def a_circuit(chance):
    """The text of a random circuit, with its variables and its gates in any order."""
    counts = inputs, latches, outputs, gates = [chance.randrange(5) for _ in range(4)]
    variables = chance.sample(range(1, 40), inputs + latches + gates)
    literals = [2 * variable for variable in variables]
    rows = [
        [literal, *(chance.choice([0, 1, *literals[:place]]) ^ chance.randrange(2) for _ in range(2))]
        for place, literal in enumerate(literals)
    ]
    gate_rows = chance.sample(rows[inputs + latches :], gates)
    latch_rows = [
        [literal, chance.choice([0, 1, *literals]), chance.randrange(2)]
        for literal in literals[inputs : inputs + latches]
    ]
    ends = [[chance.choice([0, 1, *literals]) ^ chance.randrange(2)] for _ in range(outputs)]
    lines = [["aag", 40, *counts], *([literal] for literal in literals[:inputs]), *latch_rows, *ends, *gate_rows]
    return "".join(" ".join(map(str, line)) + "\n" for line in lines)


def outputs_of(made, letters):
    """The outputs of a circuit for a list of input letters, evaluated recursively from the outputs."""
    gates = {gate.literal // 2: gate.sides for gate in made.gates}
    held, answers = {latch.literal // 2: latch.reset for latch in made.latches}, []
    for letter in letters:
        known = {0: 0, **held, **{literal // 2: bit for literal, bit in zip(made.inputs, letter)}}

        def bit(literal, known=known):
            variable = literal // 2
            if variable not in known:
                known[variable] = bit(gates[variable][0]) & bit(gates[variable][1])
            return known[variable] ^ literal % 2

        answers.append([bit(literal) for literal in made.outputs])
        held = {latch.literal // 2: bit(latch.next) for latch in made.latches}
    return answers


class Files(unittest.TestCase):
    def test_no_return_inside_a_name_is_dropped(self):
        quoted = b'0 0 0 0 "a\r\nb";\r\n'
        self.assertEqual(returns_at_line_ends(Kind.GAME, quoted), [quoted.rindex(b"\r")])
        mixed = b"aag 1 1 0 0 0\n2\r\ni0 name\r\n"
        self.assertEqual(returns_at_line_ends(Kind.CIRCUIT, mixed), [15])

    def test_offsets_lead_back_to_the_file(self):
        text = Text(Kind.GAME, "game", b"0\r\n1\r\n2\r\n")
        text.drop_returns()
        self.assertEqual(text.bytes, b"0\n1\n2\n")
        self.assertEqual([text.place_in_file(place) for place in range(7)], [0, 2, 3, 5, 6, 8, 9])

    def test_offsets_lead_back_over_a_byte_order_mark(self):
        text = Text(Kind.GAME, "game", b"\xef\xbb\xbf0\r\n1\r\n")
        text.drop_mark()
        text.drop_returns()
        self.assertEqual(text.bytes, b"0\n1\n")
        self.assertEqual([text.place_in_file(place) for place in range(5)], [0, 2, 3, 5, 6])

    def test_kinds_are_known_by_beginnings(self):
        known = {
            Kind.AUTOMATON: [AUTOMATON, b" /* a */ HOA: v1"],
            Kind.GAME: [GAME, b"parity 1;\n0 0 1 0;", b"start 0;"],
            Kind.CERTIFICATE: [CERTIFICATE],
            Kind.CIRCUIT: [CIRCUIT, b"aig 1 1 0 0 0\n"],
            Kind.STIMULUS: [b"01\n-\n", b"-\n1\n", b"01"],
            Kind.SOLUTION: [b"paritysol 3;"],
            Kind.ANSWER: [b"REALIZABLE\naag", b"UNREALIZABLE\n"],
            None: [b"", b"module top;", b"digraph {"],
        }
        for kind, texts in known.items():
            self.assertEqual([kind_of(text) for text in texts], [kind] * len(texts))


class Labels(unittest.TestCase):
    def test_labels_mean_their_letters(self):
        made = read("State: 0 [!0&(1|2)] 0 [@a|!@b&t] 0", extra="Alias: @a 0&1 Alias: @b @a|2")
        first, second = (edge.label for edge in made.edges[0])
        for letter in range(8):
            true = {number for number in range(3) if letter >> number & 1}
            a, b = {0, 1} <= true, {0, 1} <= true or 2 in true
            self.assertEqual(is_met(first, true, made), 0 not in true and bool({1, 2} & true))
            self.assertEqual(is_met(second, true, made), a or not b)

    def test_aliases_are_written_out_while_that_is_short(self):
        made = read("State: 0 [@b & !(1 | @a)] 0", extra="Alias: @a 0&1 Alias: @b @a|2")
        self.assertEqual(made.written(made.edges[0][0].label), "((p0 & p1) | p2) & !(p1 | (p0 & p1))")
        chain = "Alias: @x0 0 " + " ".join(f"Alias: @x{n} @x{n - 1}&@x{n - 1}" for n in range(1, 60))
        made = read("State: 0 [@x59] 0", extra=chain)
        self.assertLess(len(made.written(made.edges[0][0].label)), 5_000)
        self.assertEqual(labels.meeting([made.edges[0][0].label], made.aliases), {0: True})

    def test_a_shared_letter_is_one(self):
        made = read("State: 0 [0 | 1] 0 [!0 & 2] 1 [!1 & !0] 1")
        first, second, third = (edge.label for edge in made.edges[0])
        self.assertEqual(labels.meeting([first, second], {}), {0: False, 1: True, 2: True})
        self.assertIsNone(labels.meeting([first, third], {}))
        self.assertEqual(labels.letter_text({0: False, 2: True}, ("r", "s", "g")), "!r g")

    def test_deep_nesting_is_read(self):
        depth = 20_000
        made = read(f"State: 0 [{'(' * depth}0{')' * depth}] 0 [{'!' * depth}0] 0")
        self.assertTrue(is_met(made.edges[0][0].label, {0}, made))
        self.assertTrue(is_met(made.edges[0][1].label, {0}, made))
        self.assertEqual(made.written(made.edges[0][0].label), "p0")


class Automata(unittest.TestCase):
    def test_parts(self):
        made = automaton.read(AUTOMATON.decode())
        self.assertEqual(
            (made.names, made.controllable, made.acceptance, made.states), (("r", "g"), {1}, "Inf(0)", [0, 1])
        )
        self.assertEqual([made.title_of(state) for state in (0, 1)], ["0 off", "1"])
        self.assertEqual(made.owners(), [[(0, "r")], [(1, "g")]])
        self.assertEqual(made.edge_at(0, {0}).target, 1)
        self.assertEqual(AUTOMATON[made.edges[1][0].offset :][:3], b"[1]")

    def test_marks_of_states_and_letters_without_labels(self):
        made = read("State: 0 {0} 0 1 {1} 0 1", names=2)
        self.assertEqual([edge.marks for edge in made.edges[0]], [{0}, {0, 1}, {0}, {0}])
        self.assertEqual([made.edge_at(0, letter).target for letter in (set(), {0}, {1}, {0, 1})], [0, 1, 0, 1])

    def test_priorities_are_those_of_the_game(self):
        paths = sorted(glob.glob(os.path.join(TOP, "examples", "*", "*.hoa")))
        self.assertTrue(paths)
        for path in paths:
            with open(path, "rb") as file:
                text = file.read()
            done = subprocess.run([program()], input=b"game\n" + text, stdout=subprocess.PIPE, check=False)
            if done.returncode:
                continue
            made = automaton.read(text.decode())
            reached = {
                (edge.target, made.chain.priority(edge.marks)) for edges in made.edges.values() for edge in edges
            }
            named = [
                vertex.name.split("/") for vertex in game.read(done.stdout.decode()).vertices if "/" in vertex.name
            ]
            found = {(int(state), int(priority)) for state, priority in named if state != "sink"}
            with self.subTest(path):
                self.assertLessEqual(found - {(made.start, 0)}, reached)

    def test_what_is_none(self):
        for text in (
            "",
            "no",
            "HOA: v1",
            "HOA: v1 --BODY-- State: x",
            "HOA: v1 --BODY-- State: 0 [(0] 0 --END--",
            "HOA: v1 --BODY-- State: 0 [@a] 0 --END--",
            "HOA: v1 Alias: @a @b Alias: @b 0 --BODY-- --END--",
            "HOA: v1 Alias: @a 0 Alias: @a 0 --BODY-- --END--",
        ):
            with self.subTest(text), self.assertRaises(Unreadable):
                automaton.read(text)


class Others(unittest.TestCase):
    def test_a_game_and_its_text(self):
        made = game.read('parity 1;\n0 0 1 0,1,0 "a";\n1 1 1 1;\n')
        self.assertEqual(made.vertices[0].successors, (0, 1))
        self.assertEqual(made.text(), 'parity 1;\n0 0 1 0,1 "a";\n1 1 1 1;\n')
        for text in ("", "no game", "0 0 0 1;", "0 0 0 0; 0 0 0 0;", "9" * 5_000 + " 0 0 0;"):
            with self.subTest(text[:20]), self.assertRaises(Unreadable):
                game.read(text)

    def test_a_certificate_in_both_forms(self):
        plain = certificate.read("psyncert 1\nvertices 2\nodd 1\neven 0\n0 0 1 7\n1 1 - 0\n")
        compact = certificate.read("psyncert 2\nvertices 2\nodd 1\neven 0\n0 0 1 1:7\n1 1 -\n")
        self.assertEqual(plain, compact)
        self.assertEqual((plain.entries[0].winner, plain.entries[0].move, plain.entries[0].counts), (0, 1, {1: 7}))
        self.assertEqual(plain.text(), "psyncert 1\nvertices 2\nodd 1\neven 0\n0 0 1 7\n1 1 - 0\n")
        for text in (
            "psyncert 3\n",
            "psyncert 1\nvertices 1\nodd\neven\n0 x -\n",
            "psyncert 1\n",
            "psyncert 2\nvertices 1\nodd\neven\n0 0 - 7\n",
        ):
            with self.subTest(text), self.assertRaises(Unreadable):
                certificate.read(text)

    def test_a_circuit(self):
        made = circuit.read(CIRCUIT.decode())
        self.assertEqual(
            (made.names("i"), made.names("l"), made.names("o")), (["push"], ["lamp"], ["dark", "o1", "o2"])
        )
        for text in (
            "", "aag x", "aag 1 1 0 0 0\n", "aag 1 1 0 0 0\nx\n", "aag " + "9" * 5_000 + " 0 0 0 0\n", "aag ² 0 0 0 0\n"
        ):
            with self.subTest(text[:20]), self.assertRaises(Unreadable):
                circuit.read(text)

    def test_a_binary_circuit_has_its_ascii_form(self):
        made = binary.ascii_form(b"aig 3 1 1 1 1\n6\n7\n\x02\x02i0 a\nc\nnote\n")
        self.assertEqual(made, b"aag 3 1 1 1 1\n2\n4 6\n7\n6 4 2\ni0 a\nc\nnote\n")

    def test_a_circuit_has_its_binary_form(self):
        made = binary.binary_form(circuit.read("aag 9 1 1 1 2\n4\n10 6 1\n7\n6 14 11\n14 4 10\ni0 a\nc\nnote\n"))
        self.assertEqual(made, b"aig 4 1 1 1 2\n8 1\n9\n\x02\x02\x02\x01i0 a\nc\nnote\n")
        self.assertEqual(binary.ascii_form(made), b"aag 4 1 1 1 2\n2\n4 8 1\n9\n6 4 2\n8 6 5\ni0 a\nc\nnote\n")

    def test_circuits_come_back_from_the_binary_form(self):
        chance = random.Random("binary form")
        for _ in range(200):
            text = a_circuit(chance)
            made = binary.binary_form(circuit.read(text))
            again = binary.ascii_form(made).decode()
            self.assertEqual(circuit.read(again).text(), again)
            self.assertEqual(binary.binary_form(circuit.read(again)), made)
            letters = [[chance.randrange(2) for _ in circuit.read(text).inputs] for _ in range(8)]
            self.assertEqual(outputs_of(circuit.read(again), letters), outputs_of(circuit.read(text), letters))

    def test_what_has_no_binary_form(self):
        for text, said in (
            ("aag 3 1 0 1 2\n2\n4\n4 6 2\n6 4 2\n", "depends on itself"),
            ("aag 2 1 0 1 0\n2\n4\n", "defined exactly once"),
            ("aag 2 1 0 1 2\n2\n4\n4 2 2\n4 3 3\n", "defined exactly once"),
            ("aag 2 1 0 1 1\n2\n2\n2 0 0\n", "defined exactly once"),
            ("aag 2 1 0 1 1\n2\n4\n5 2 2\n", "defined exactly once"),
        ):
            with self.subTest(text), self.assertRaisesRegex(Unreadable, said):
                binary.binary_form(circuit.read(text))

    def test_an_input_that_nothing_reads_is_dropped(self):
        made = circuit.read("aag 4 3 0 1 1\n2\n4\n6\n8\n8 2 6\ni0 a\ni1 clk\ni2 b\no0 c\n")
        self.assertEqual(made.without_input("clk").text(), "aag 4 2 0 1 1\n2\n6\n8\n8 2 6\ni0 a\ni1 b\no0 c\n")
        for name, said in (("a", "the circuit reads it"), ("c", "no input"), ("reset", "no input")):
            with self.subTest(name), self.assertRaisesRegex(Unreadable, said):
                made.without_input(name)

    def test_a_stimulus(self):
        lasso = stimulus.read("1\n-\n0\n1\n")
        self.assertEqual((lasso.stem, lasso.lap), (("1",), ("0", "1")))
        self.assertEqual([lasso.letters(count) for count in (0, 1, 4)], [[], ["1"], ["1", "0", "1", "0"]])
        self.assertIsNone(stimulus.read("1\n").lap)
        with self.assertRaises(Unreadable):
            stimulus.read("-\n-\n")

    def test_a_solution_is_read_exactly(self):
        for text in ("paritysol 1;\n0 0 1;\n1 1;\n", "0 00 1 ; 1\t01;"):
            read = solution.read(text)
            self.assertEqual([(v, it.winner, it.move) for v, it in read.entries.items()], [(0, 0, 1), (1, 1, None)])
            self.assertEqual(read.text(), "paritysol 1;\n0 0 1;\n1 1;\n")
        for text in (
            "", "paritysol 1;", "paritysol 1;\n0 0 1;\ngarbage here\n", "paritysol 1;\n0 0 1; 0 1 1;\n",
            "paritysol 1;\n0 2;\n",
        ):
            with self.subTest(text), self.assertRaises(Unreadable):
                solution.read(text)

    def test_an_answer_of_synth(self):
        made = report.read("UNREALIZABLE\naag\n%%\ngame\n%%\ncert\n")
        self.assertEqual((made.word, made.parts), ("UNREALIZABLE", ("aag\n", "game\n", "cert\n")))
        self.assertEqual(report.read("REALIZABLE\naag\n").parts, ("aag\n",))
        for text in ("", "REALIZABLE", "realizable\naag\n", "REALIZABLE\naag\n%%\ngame\n"):
            with self.subTest(text), self.assertRaises(Unreadable):
                report.read(text)

    def test_a_wave_of_another_circuit(self):
        with self.assertRaises(Unreadable):
            vcd.wave(circuit.read(CIRCUIT.decode()), "1|1|1\n")


if __name__ == "__main__":
    unittest.main()
