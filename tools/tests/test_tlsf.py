"""The second reader of specifications (`tlsf_reader`), on worked texts."""

import unittest

from tests import tlsf_reader
from tests.tlsf_reader import Rejected, read

HEAD = b'INFO { TITLE: "t" DESCRIPTION: "d" SEMANTICS: Mealy TARGET: Mealy } '


def main_part(sections):
    return HEAD + b"MAIN { INPUTS { r; } OUTPUTS { g; } " + sections + b" }"


def formula(text):
    """The formula of a text over the propositions r and g."""
    return read(main_part(b"GUARANTEE { " + text + b" }")).formulas[0][3]


class Reading(unittest.TestCase):
    def assert_rejected(self, text, number, offset):
        with self.assertRaises(Rejected) as caught:
            read(text)
        self.assertEqual((caught.exception.number, caught.exception.offset), (number, offset))

    def test_operators_group_as_the_grammar_says(self):
        r, g = ("name", 0), ("name", 1)
        self.assertEqual(formula(b"r -> g -> r"), ("->", r, ("->", g, r)))
        self.assertEqual(formula(b"r && g && r"), ("&&", ("&&", r, g), r))
        self.assertEqual(formula(b"r || g && r <-> g"), ("<->", ("||", r, ("&&", g, r)), g))
        self.assertEqual(formula(b"! X r U G g"), ("U", ("!", ("X", r)), ("G", g)))

    def test_faults_of_worked_texts(self):
        mixed = main_part(b"GUARANTEE { r U g && g; }")
        self.assert_rejected(mixed, 80, mixed.index(b"&&"))
        unknown = HEAD + b"MAIN { OUTPUTS { b; } GUARANTEE { a; } }"
        self.assert_rejected(unknown, 81, unknown.index(b"a; }"))
        orders = b"INFO { SEMANTICS: Mealy TARGET: Moore } MAIN { }"
        self.assert_rejected(orders, 83, orders.index(b"MAIN"))
        self.assert_rejected(b"INFO { }", 80, 8)
        self.assert_rejected(b"INFO { } MAIN", 83, 9)
        operator = main_part(b"GUARANTEE { r && U; }")
        self.assert_rejected(operator, 80, operator.index(b"U; }"))
        twice = b"INFO { TAGS: TAGS: }"
        self.assert_rejected(twice, 82, 13)

    def test_limits(self):
        deep = main_part(b"GUARANTEE { " + b"!" * 257 + b"r }")
        self.assert_rejected(deep, 84, deep.index(b"!") + 256)
        self.assertEqual(len(read(main_part(b"GUARANTEE { " + b"!" * 256 + b"r }")).formulas), 1)
        chain = b"r -> " * 32767 + b"r"
        self.assertEqual(len(read(main_part(b"GUARANTEE { " + chain + b" }")).formulas), 1)
        longer = main_part(b"GUARANTEE { " + chain + b"; r }")
        self.assert_rejected(longer, 84, len(longer) - 5)
        self.assert_rejected(b" " * (tlsf_reader.TEXT_LIMIT + 1), 84, tlsf_reader.TEXT_LIMIT)

    def test_strictness(self):
        sections = b"REQUIRE { r; } ASSERT { g; }"
        usual = read(main_part(sections)).whole
        strict = read(main_part(sections).replace(b"SEMANTICS: Mealy", b"SEMANTICS: Strict, Mealy")).whole
        self.assertEqual(usual[2][2][2][1], ("G", ("name", 1)))
        self.assertEqual(strict[2][1][2], ("W", ("name", 1), ("!", ("name", 0))))


if __name__ == "__main__":
    unittest.main()
