"""`lasso --tlsf` against a second evaluator of formulas (`formulas`) and a second reader of specifications
(`tlsf_reader`)."""

import random
import subprocess
import unittest

from psyntool.program import path as program
from tests import formulas, tlsf_reader
from tests.formulas import holds
from upkeep import counts, sweeps

NAMES = ("a", "b", "c", "d")
FORMULAS = 1000
BROKEN = 1000
# The sections of a text that is broken at random.
WHOLE = b"""INFO { TITLE: "one" /* of /* two */ */ TAGS: a, b // and a line
  DESCRIPTION: "its words" SEMANTICS: Mealy, Strict TARGET: Mealy }
MAIN { INPUTS { a; b } OUTPUTS { c; d'@; }
  INITIALLY { !a; } PRESET { c || d'@ } REQUIRE { a -> X b -> c; } ASSERTIONS { }
  ASSUME { G F (a && !b); } GUARANTEE { (a U b) <-> (c R d'@) ; F (G c W d'@) && true || false; }
}
""".replace(b"ASSERTIONS", b"INVARIANTS")
PIECES = (
    b" ", b"\n", b"//", b"/*", b"*/", b'"', b"{", b"}", b"(", b")", b";", b":", b",", b"!", b"&&", b"&", b"||", b"->",
    b"<->", b"<", b"U ", b"X", b"R ", b"W ", b"true", b"a", b"b ", b"zz", b"INFO", b"MAIN", b"TITLE", b"TAGS:",
    b"SEMANTICS: Moore", b"TARGET", b"Mealy", b"Strict,", b"INPUTS", b"OUTPUTS {", b"GUARANTEE {", b"\x80", b"1",
)  # fmt: skip

# Parts that stand in the text, each with one that makes another fault likely.
EXCHANGED = (
    (b"TARGET: Mealy", b"TARGET: Moore"), (b"SEMANTICS: Mealy, Strict", b""), (b"TARGET: Mealy", b""),
    (b"TAGS: a, b", b'TAGS: TITLE: "x"'), (b"INPUTS { a; b }", b"INPUTS { a; b; a }"), (b"OUTPUTS {", b"OUTPUTS { b; "),
    (b"INPUTS {", b"INPUTS { } INPUTS {"), (b"PRESET", b"OUTPUTS { e } PRESET"), (b"(a U b)", b"a U b"),
    (b"!a", b"!" * 257 + b"a"), (b"!b", b"(" * 256 + b"!b" + b")" * 256),
    (b"b }", b"; ".join(b"b%d" % n for n in range(64)) + b" }"),
)  # fmt: skip


def answered(given):
    """The program's answer to an input."""
    return subprocess.run([PROGRAM[0]], input=given, stdout=subprocess.PIPE, check=False).stdout


PROGRAM = []


def expected(text):
    """The beginning of the right answer to a text in front of the smallest circuit, whose run is told only of a
    specification without names."""
    try:
        read = tlsf_reader.read(text)
    except tlsf_reader.Rejected as fault:
        return f"{fault}\n".encode()
    if read.names:
        return b"fault 72 Symbols\n"
    return b"satisfied stem 0 lap 1\n" if holds(read.whole, [], [[]]) else b"violated stem 0 lap 1\n"


def broken(chance):
    """A text of which some parts are left out, repeated, exchanged or put in."""
    text = WHOLE
    for _ in range(chance.choice((0, 1, 1, 2))):
        text = text.replace(*chance.choice(EXCHANGED), 1)
    for _ in range(chance.choice((0, 1, 1, 2, 3)) or text == WHOLE):
        start = chance.randrange(len(text) + 1)
        end = min(len(text), start + chance.choice((0, 1, 1, 2, 5, 20)))
        new = chance.choice((b"", chance.choice(PIECES), chance.choice(PIECES), text[start:end] * 2))
        text = text[:start] + new + text[end:]
    return text


class Formulas(unittest.TestCase):
    @classmethod
    def setUpClass(cls):
        PROGRAM[:] = [program()]

    def test_random_formulas(self):
        chance, asked = random.Random(11), []
        for _ in range(FORMULAS):
            names = NAMES[: chance.randrange(1, len(NAMES) + 1)]
            formula = formulas.a_formula(chance, chance.randrange(1, 31), len(names))
            stem, lap = formulas.a_lasso(chance, len(names))
            given = formulas.input_of(formulas.specification_of(formula, names), names, stem, lap)
            word = "satisfied" if holds(formula, stem, lap) else "violated"
            asked.append((given, f"{word} stem {len(stem)} lap {len(lap)}\n"))
        counts.ran("formulas", "against an evaluator in Python", len(asked))
        answers = sweeps.at_once(lambda one: answered(one[0].encode()), asked)
        wrong = [(given, answer) for (given, wanted), answer in zip(asked, answers) if answer != wanted.encode()]
        self.assertEqual(wrong[:3], [])

    def test_broken_texts(self):
        chance = random.Random(12)
        texts = [broken(chance) for _ in range(BROKEN)]
        counts.ran("formulas", "broken texts against a reader in Python", len(texts))
        answers = sweeps.at_once(
            lambda text: answered(b"lasso --tlsf\n" + text + b"\n%%\naag 0 0 0 0 0\n%%\n-\n\n"), texts
        )
        wrong = [(text, answer) for text, answer in zip(texts, answers) if answer != expected(text + b"\n")]
        self.assertEqual(wrong[:3], [])
        found = {answer[:8] for answer in answers}
        self.assertTrue({b"fault 72", *(b"fault %d" % number for number in range(80, 85))} <= found, found)


class Evaluator(unittest.TestCase):
    def test_worked_formulas(self):
        a, b = ("name", 0), ("name", 1)
        self.assertTrue(holds(("W", a, b), [], [[1, 0]]))
        self.assertFalse(holds(("U", a, b), [], [[1, 0]]))
        self.assertTrue(holds(("R", a, b), [], [[0, 1]]))
        self.assertFalse(holds(("R", a, b), [[0, 1]], [[1, 0]]))
        self.assertTrue(holds(("F", ("G", a)), [[0]], [[1]]))
        self.assertFalse(holds(("F", ("G", a)), [], [[1], [0]]))
        self.assertTrue(holds(("G", ("F", ("&&", a, ("X", b)))), [], [[1, 0], [0, 1]]))
        self.assertTrue(holds(("->", a, ("->", b, ("name", 2))), [], [[0, 1, 0]]))


if __name__ == "__main__":
    unittest.main()
