"""Tests of pictures: the contents of the DOT texts, and that Graphviz, if it is installed, accepts them."""
import os
import shutil
import subprocess
import unittest
import unittest.mock

from psyntool import families
from psyntool.ends import Refused
from psyntool.pictures import automata, circuits, games
from psyntool.texts import Unreadable, automaton, certificate, circuit, game
from tests.tool import AUTOMATON, CERTIFICATE, CIRCUIT, GAME


def made_of(dot):
    """Returns the DOT text unchanged; if Graphviz is installed, checks first that it can draw the text."""
    if shutil.which("dot"):
        subprocess.run(["dot", "-Tsvg", "-o", os.devnull], input=dot.encode(), check=True)
    return dot


class Automata(unittest.TestCase):
    def test_many_edges_are_joined_and_more_are_refused(self):
        states = "".join(
            f"State: {state} " + " ".join(f"[t] {target}" for target in range(26)) + " " for state in range(26)
        )
        read = automaton.read(f"HOA: v1 Start: 0 AP: 0 Acceptance: 0 t --BODY-- {states} --END--")
        dot = made_of(automata.picture(read))
        self.assertEqual((dot.count(" -> "), dot.count("dir=both")), (1 + 26 + 325, 325))
        self.assertIn("a line stands for all edges of two states", dot)
        self.assertIn("  s3 -> s3;\n  s3 -> s4 [dir=both];", dot)
        with unittest.mock.patch.object(automata, "MOST_JOINED", 675), self.assertRaisesRegex(
            Refused, "26 vertices and 676 edges, and a picture of more than 675 edges can't be read: --reach 0 draws"
        ):
            automata.picture(read)
        self.assertEqual(made_of(automata.picture(read, 0)).count("  s"), 1)


class Games(unittest.TestCase):
    def drawn(self, text, *others, **more):
        return made_of(games.picture(game.read(text.decode()), *others, **more))

    def test_a_game_with_its_certificate(self):
        dot = self.drawn(GAME, certificate.read(CERTIFICATE.decode()))
        self.assertIn('v0 [shape=box, label="0: 0", style=filled, fillcolor=lightsalmon];', dot)
        self.assertIn("v0 -> v1 [style=bold, penwidth=3, color=firebrick];", dot)
        self.assertIn("v0 -> v0;", dot)
        self.assertIn("player 1 wins from there, by the bold edges", dot)
        self.assertNotIn("bold", self.drawn(GAME))

    def test_names_of_the_automaton(self):
        spec = automaton.read(AUTOMATON.decode().replace("[1] 0 {0}", "[1 & 0] 0 {0}"))
        text = (
            b'0 0 1 1,2 "0/0";1 0 0 3 "0:0";2 0 0 4,3 "0:1";3 2 1 1,2 "0/2";4 1 1 5,6 "1/1";5 0 0 4,7 "1:0";6 0 0 3,4 '
            b'"1:1";7 1 1 8 "sink/1";8 0 0 7 "sink:0";'
        )
        dot = self.drawn(text, None, spec)
        self.assertIn('v0 [shape=box, label="0 off\\n0"];', dot)
        self.assertIn('v1 [shape=diamond, label="0"];', dot)
        self.assertIn('v0 -> v2 [label=" r "];', dot)
        self.assertIn('v2 -> v4 [label=" !g "];', dot)
        self.assertIn('v2 -> v3 [label=" g "];', dot)
        self.assertIn('v5 -> v7 [label=" g "];', dot)
        self.assertIn("v7 -> v8;", dot)
        self.assertIn('v7 [shape=box, label="no edge\\n1"];', dot)
        self.assertIn("one letter of those that lead alike", dot)

    def test_letters_of_a_large_game_stand_in_tables(self):
        states = "".join(f'State: {n} "s{n}" [0&1] {(n + 1) % 20} {{0}} [!0] {n} ' for n in range(20))
        spec = automaton.read(
            f'HOA: v1 Start: 0 AP: 2 "r" "g" controllable-AP: 1 Acceptance: 1 Inf(0) --BODY-- {states} --END--'
        )
        rows = []
        for n in range(20):
            at, after = 4 * n, 4 * ((n + 1) % 20)
            rows += [(at, 2, 1, [at + 2, at + 3], f"{n}/2"), (at + 1, 1, 1, [at + 2, at + 3], f"{n}/1")]
            rows += [(at + 2, 0, 0, [at + 1], f"{n}:0"), (at + 3, 0, 0, [80, after], f"{n}:1")]
        rows += [(80, 1, 1, [81], "sink/1"), (81, 0, 0, [80], "sink:0")]
        text = "".join(f'{v} {p} {o} {",".join(map(str, to))} "{name}";' for v, p, o, to, name in rows)
        moves = {v: to[-1] if o == 0 else None for v, _, o, to, _ in rows}
        made = certificate.Certificate((1,), (0, 2), {v: certificate.Entry(0, move, {}) for v, move in moves.items()})
        dot = self.drawn(text.encode(), made, spec)
        self.assertIn(
            '<tr><td bgcolor="palegreen">0: r</td></tr><tr><td port="t80" align="left">!g   to no edge</td></tr>', dot
        )
        self.assertIn('<tr><td port="t4" align="left"><b>g   to 1</b></td></tr>', dot)
        self.assertIn("v3:t4 -> v4 [style=bold", dot)
        self.assertNotIn("-> v80 [", dot.replace("v81 -> v80", ""))
        self.assertIn("the controller moves there, a row for each choice", dot)

    def test_names_where_the_controller_moves_first(self):
        text = (
            b'0 0 0 1,2 "0/0";1 0 1 3,4 "0:0";2 0 1 3 "0:1";3 2 0 1,2 "0/2";4 1 0 5,6 "1/1";5 0 1 4 "1:0";6 '
            b'0 1 3 "1:1";'
        )
        dot = self.drawn(text, None, automaton.read(AUTOMATON.decode()))
        self.assertIn('v0 -> v1 [label=" !g "];', dot)
        self.assertIn('v1 -> v4 [label=" r "];', dot)

    def test_a_game_of_another_automaton(self):
        for text in (GAME, b'0 0 1 0 "7/0";', b'0 0 1 1 "0/0";1 0 0 0 "0:00";'):
            with self.subTest(text), self.assertRaises(Unreadable):
                self.drawn(text, None, automaton.read(AUTOMATON.decode()))

    def test_a_certificate_of_another_game(self):
        with self.assertRaises(Unreadable):
            self.drawn(b"0 0 0 0;", certificate.read(CERTIFICATE.decode()))

    def test_a_large_game_is_drawn_in_part(self):
        large = families.game_of(families.path(1_000))
        with self.assertRaisesRegex(
            Refused, "has 1000 vertices, and .* more than 400 can't be read: --reach 399 draws"
        ):
            games.picture(large)
        self.assertEqual(
            games.picture(large, reach=399).count("shape=box") + games.picture(large, reach=399).count("shape=diamond"),
            400,
        )
        with self.assertRaisesRegex(Refused, "--reach 400 draws 401 vertices"):
            games.picture(large, reach=400)
        self.assertIn("v2 -> more2", made_of(games.picture(large, reach=2)))


class Automata(unittest.TestCase):
    def drawn(self, text, **more):
        return made_of(automata.picture(automaton.read(text.decode()), **more))

    def test_a_part_that_does_not_say_whose_its_propositions_are(self):
        dot = self.drawn(AUTOMATON.replace(b"controllable-AP: 1\n", b""))
        self.assertIn('<td align="left">propositions</td><td align="left">r, g</td>', dot)
        self.assertNotIn("environment", dot)

    def test_an_automaton(self):
        dot = self.drawn(AUTOMATON)
        self.assertIn('s0 -> s0 [label="!r | g {0}"];', dot)
        self.assertIn('<td align="left">controller</td><td align="left">g</td>', dot)
        self.assertIn('s0 [label="0 off"];', dot)

    def test_long_names_and_labels_are_wrapped_and_aliases_written_out(self):
        named = AUTOMATON.replace(b'"off"', b'"waits until the client is granted"').replace(
            b"[!0|1]", b"[@a0 & (0 | !1) & (0 | !1) & 0]"
        )
        dot = self.drawn(named.replace(b"--BODY--", b"Alias: @a0 !0&1 --BODY--"))
        self.assertIn('s0 [shape=box, style=rounded, label="0\\nwaits until the client is\\ngranted"];', dot)
        self.assertIn('label="!r & g & (r | !g) & (r |\\n!g) & r {0}"', dot)

    def test_an_edge_without_a_label_bears_its_letter(self):
        dot = self.drawn(b'HOA: v1 States: 1 Start: 0 AP: 1 "a" Acceptance: 0 t --BODY-- State: 0 0 0 --END--')
        self.assertIn('s0 -> s0 [label="!a\\na"];', dot)

    def test_labels_of_many_edges_stand_in_tables(self):
        edges = "".join(f'State: {n} "<{n}>" [0] {n} [!0] {(n + 1) % 5} ' for n in range(5))
        dot = self.drawn(f'HOA: v1 Start: 0 AP: 1 "a" Acceptance: 0 t --BODY-- {edges} --END--'.encode())
        self.assertIn('<tr><td bgcolor="lightgrey">4 &lt;4&gt;</td></tr>', dot)
        self.assertIn('<td port="t0" align="left" balign="left">!a<br align="left"/>   to 0</td>', dot)
        self.assertIn("s4:t0 -> s0;", dot)
        self.assertNotIn("s4 -> ", dot)

    def test_a_part_of_an_automaton(self):
        edges = "".join(f"State: {n} [t] {n + 1} " for n in range(500)) + "State: 500 [t] 500"
        text = f"HOA: v1 Start: 0 AP: 0 Acceptance: 0 t --BODY-- {edges} --END--".encode()
        with self.assertRaisesRegex(Refused, "--reach 399 "):
            self.drawn(text)
        self.assertIn("s2 ", self.drawn(text, reach=2))
        self.assertNotIn("s3 ", self.drawn(text, reach=2))


class Circuits(unittest.TestCase):
    def test_a_circuit(self):
        dot = made_of(circuits.picture(circuit.read(CIRCUIT.decode())))
        self.assertIn('n1 [shape=invtriangle, label="push"];', dot)
        self.assertIn("n4 -> n5 [style=dashed];", dot)
        self.assertIn("n0 -> o2 [style=dashed];", dot)
        self.assertIn("negated", dot)

    def test_a_large_circuit_is_drawn_from_its_outputs_back(self):
        gates = "".join(f"{2 * n} {2 * n - 2} 2\n" for n in range(2, 1_002))
        large = circuit.read(f"aag 1001 1 0 1 1000\n2\n2002\n{gates}")
        with self.assertRaisesRegex(Refused, "1002 vertices"):
            circuits.picture(large)
        dot = made_of(circuits.picture(large, reach=5))
        self.assertIn("n1001 ", dot)
        self.assertNotIn("n990 ", dot)
        self.assertIn("before_n996_0 -> n996", dot)


if __name__ == "__main__":
    unittest.main()
