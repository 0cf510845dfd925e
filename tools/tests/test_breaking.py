"""Whether a controller's circuit breaks assumptions: compared with `verify` on random circuits; and what is told of
it."""
import os
import random
import subprocess
import unittest

from psyntool.program import path as program
from psyntool.texts import circuit
from psyntool.tlsf import breaking, expanding, obligations
from tests.tool import OnFiles

HEAD = "INFO {{ SEMANTICS: {0} TARGET: {0} }}\nMAIN {{\n  INPUTS {{ {1} }}\n  OUTPUTS {{ {2} }}\n"
# Assumptions on the inputs a, b and the outputs g, h.
ASSUMED = (
    "G F (a && g)", "G (g -> F a)", "G (a -> F h)", "G !g", "G (g -> X !a)", "F (g && X h)", "a U g", "G F g && G F !g",
    "G (a && !g -> X a)", "G (a -> (g W h))", "G F (b -> g)", "X X h",
)


def specification(order, assumed, guaranteed, inputs="a; b;", outputs="g; h;"):
    sections = ((word, those) for word, those in (("ASSUME", assumed), ("GUARANTEE", guaranteed)) if those)
    lines = [f"  {word} {{\n" + "".join(f"    {one};\n" for one in those) + "  }\n" for word, those in sections]
    return "".join([HEAD.format(order, inputs, outputs), *lines, "}\n"])


def drawn(draw):
    """The text of a random circuit with two inputs, two outputs, and a few latches and gates."""
    latches, gates = draw.randrange(3), draw.randrange(4)
    lines, last = ["2\n", "4\n"], 2
    literals = [0, 2, 4, *range(6, 6 + 2 * latches, 2)]
    of_gates = []
    for number in range(gates):
        sides = [draw.choice(literals) ^ draw.randrange(2) for _ in range(2)]
        literals.append(6 + 2 * (latches + number))
        of_gates.append(f"{literals[-1]} {max(sides)} {min(sides)}\n")
    last = max(literals) // 2
    for place in range(latches):
        lines.append(f"{6 + 2 * place} {draw.choice(literals) ^ draw.randrange(2)} {draw.randrange(2)}\n")
    lines += [f"{draw.choice(literals) ^ draw.randrange(2)}\n" for _ in range(2)]
    return f"aag {last} 2 {latches} 2 {gates}\n" + "".join([*lines, *of_gates]) + "i0 a\ni1 b\no0 g\no1 h\n"


class Found(unittest.TestCase):
    def verified(self, text, made):
        given = f"verify --tlsf\n{text}%%\n{made}".encode()
        return subprocess.run([program()], input=given, stdout=subprocess.PIPE, check=False).stdout.startswith(b"wins")

    def test_who_breaks_them_always_by_verify(self):
        """That no trace of a circuit keeps the assumptions is what `verify` says of a guarantee that one fails."""
        draw, told = random.Random("breaking"), {}
        for _ in range(150):
            those, made = draw.sample(ASSUMED, draw.randrange(1, 4)), drawn(draw)
            basic = expanding.basic(specification("Mealy", those, []), {})
            with obligations.limited():
                it = breaking.Breaking(basic, circuit.read(made))
                graph = it.on_circuit(it.assumptions, it.table.start, (0,) * len(it.assumptions))
                keeps = graph.start in graph.keeping(len(it.assumptions))
            fails = specification("Mealy", [], ["!(" + " && ".join(f"({one})" for one in those) + ")"])
            self.assertEqual(self.verified(fails, made), not keeps, (those, made))
            told[keeps] = told.get(keeps, 0) + 1
        self.assertGreater(min(told.values()), 20, told)

    def lines(self, text, made):
        return breaking.lines(expanding.basic(text, {}), circuit.read(made))

    def test_how_they_are_broken(self):
        never = "aag 2 2 0 2 0\n2\n4\n0\n0\ni0 a\ni1 b\no0 g\no1 h\n"
        told = self.lines(specification("Mealy", ["G F a", "G F (b && g)"], ["G F h"]), never)
        self.assertEqual(told[:2], [
            "this controller can make the assumption of line 7 fail, and so win without keeping the guarantees:",
            "  G F (b && g)",
        ])  # fmt: skip
        ends = "so it can play:", "  step 1 comes again and again, which does not keep it"
        self.assertEqual((told[2], told[-1]), ends)
        told = self.lines(specification("Mealy", ["G (a -> g)", "G F a"], []), never)
        self.assertEqual(told[:1], [
            "this controller can make these 2 assumptions fail together, and so win without keeping the guarantees:"
        ])  # fmt: skip
        # g is what a was in some step before; b is not safe either, so this is the controller's doing
        later = "aag 4 2 1 2 1\n2\n4\n6 9\n9\n0\n8 3 7\ni0 a\ni1 b\no0 g\no1 h\n"
        told = self.lines(specification("Mealy", ["G !g"], ["G F h"]), later)
        self.assertEqual(told[-2:], ["  0     a            g", "  step 0 breaks the assumption of line 6"])

    def test_what_is_the_environments_doing(self):
        always = "aag 2 2 0 2 0\n2\n4\n1\n1\ni0 a\ni1 b\no0 g\no1 h\n"
        for assumed in ("G (g -> X !a)", "G (a -> !g)", "G F a", "G (a -> (a W !g))", "G (g -> F b)"):
            for order in ("Mealy", "Moore"):
                self.assertEqual(self.lines(specification(order, [assumed], ["G F g"]), always), [], assumed)

    def test_where_it_is_not_found_out_nothing_is_told(self):
        never = "aag 2 2 0 2 0\n2\n4\n0\n0\ni0 a\ni1 b\no0 g\no1 h\n"
        for assumed in (["F G g"], ["G F (g && (a || b) && (" + " || ".join(f"p{n}" for n in range(12)) + "))"]):
            names = "".join(f"p{n}; " for n in range(12))
            self.assertEqual(self.lines(specification("Mealy", assumed, ["G F h"], f"a; b; {names}"), never), [])


class OfTheTool(OnFiles):
    def test_it_is_the_first_hint(self):
        guaranteed = ["G (a -> X g)", "G (a -> X !g)", "G !h"]
        self.file("it.tlsf", specification("Mealy", ["G F (b && h)", "G F b"], guaranteed).encode())
        told = "this controller can make the assumption of line 6 fail, and so win without keeping the guarantees:\n"
        told += "  G F (b && h)\nso it can play:\n"
        for words in (["synth"], ["synth", "--small"], ["synth", "-o", "it"], ["core"]):
            said = self.tool(*words, "it.tlsf").stderr.decode()
            said = said[said.index("\n") + 1 :] if said.startswith("gates: ") else said
            self.assertTrue(said.startswith(told), (words, said))
            self.assertEqual(self.tool(*words, "--quiet", "it.tlsf").stderr, b"")
        said = self.tool("verilog", "it.aag", "it.tlsf")
        self.assertTrue(said.stderr.decode().startswith(told), said.stderr)
        self.assertEqual((said.returncode, self.tool("verilog", "--quiet", "it.aag", "it.tlsf").stderr), (0, b""))

    def test_of_a_list_of_parts_it_is_first_too(self):
        self.file("it.parts", b"--outs g\n--assume \"G F (a & g)\"\n--guarantee \"G (a -> X g)\" \"G (a -> X !g)\"\n")
        told = self.tool("synth", "--parts", "-o", "it", "it.parts").stderr.decode()
        self.assertTrue(told.startswith("a controller can make the assumption G F (a & g) fail"), told)
        told = self.tool("verilog", "it.aag", "it.parts").stderr.decode()
        self.assertTrue(told.startswith("a controller can make the assumption G F (a & g) fail"), told)


if __name__ == "__main__":
    unittest.main()
