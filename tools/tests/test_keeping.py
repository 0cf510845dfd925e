"""The tool's own judgement of sentences by lassos, against a second evaluator (`lassos`) and against `lasso --tlsf`;
and the sentences that `verify` and `lasso --trace` name."""
import random
import unittest

from psyntool.program import path as program
from psyntool.tlsf import expanding, formulas, keeping, obligations
from tests import lassos, tlsf_reader
from tests.test_formulas import PROGRAM, answered
from tests.test_full_tlsf import built, drawn
from tests.tool import OnFiles
from upkeep import counts, sweeps

NAMES = "abcd"
SECTIONS = ("INITIALLY", "PRESET", "REQUIRE", "ASSERT", "ASSUME", "GUARANTEE")
ASKED = 300


def letters_of(lasso):
    """The letters of a lasso as the sets of the names that are true."""
    return [frozenset(name for name, bit in zip(NAMES, letter) if bit) for letter in lasso.letters]


def meaning_of(formula):
    """A formula of the basic form, as the second reader reads its text."""
    parser = tlsf_reader.Parser(formulas.text_of(formula).encode())
    parser.result.names = [(name, False) for name in NAMES]
    return parser.formula()


class Obligations(unittest.TestCase):
    def setUp(self):
        self.draw = random.Random("obligations")
        self.made = formulas.Formulas()
        self.obligations = obligations.Obligations()
        self.remains = obligations.Remains(self.obligations)

    def formula(self):
        return built(self.made, drawn(self.draw, 4))

    def test_truths_are_those_of_the_second_evaluator(self):
        for _ in range(200):
            formula, lasso = self.formula(), lassos.drawn(self.draw, len(NAMES))
            for holds in (True, False):
                found = obligations.truths(self.obligations.of(formula, holds), letters_of(lasso), lasso.stem, {})
                self.assertEqual(
                    found,
                    [truth == holds for truth in lasso.truths(meaning_of(formula))],
                    (formulas.text_of(formula), lasso),
                )

    def test_behind_a_broken_step_nothing_keeps_a_formula(self):
        broken = 0
        for _ in range(200):
            formula, lasso = self.formula(), lassos.drawn(self.draw, len(NAMES))
            letters, one = letters_of(lasso), self.obligations.of(formula)
            step = self.remains.breaks(one, letters, lasso.stem)
            begin = [
                letters[
                    place if place < len(letters) else lasso.stem + (place - lasso.stem) % (len(letters) - lasso.stem)
                ]
                for place in range(0 if step is None else step + 1)
            ]
            for _ in range(5 if begin else 0):
                other = lassos.drawn(self.draw, len(NAMES))
                self.assertFalse(
                    obligations.truths(one, [*begin, *letters_of(other)], len(begin) + other.stem, {})[0],
                    formulas.text_of(formula),
                )
            broken += step is not None
        self.assertGreater(broken, 20)

    def test_a_safety_formula_that_a_lasso_violates_has_a_broken_step(self):
        tried = 0
        for _ in range(400):
            formula, lasso = self.formula(), lassos.drawn(self.draw, len(NAMES))
            one, letters = self.obligations.of(formula), letters_of(lasso)
            if has_until(one) or obligations.truths(one, letters, lasso.stem, {})[0]:
                continue
            self.assertIsNotNone(self.remains.breaks(one, letters, lasso.stem), formulas.text_of(formula))
            tried += 1
        self.assertGreater(tried, 40)

    def test_the_broken_step_of_worked_formulas(self):
        for text, word, step in (
            ("G (a -> X b)", ["a", "b", "a", ""], 3), ("a U b", ["a", "a", "", "b"], 2), ("F a", [""], None),
            ("X X a", ["", "", "b"], 2), ("G (a -> X b) && G (a -> X !b)", ["", "a", ""], 1),
            ("G F a", ["", "a"], None), ("a W b && !b", ["b"], 0), ("G !(a && b)", ["ab"], 0),
        ):  # fmt: skip
            formula = expanding.basic(
                f"INFO {{ SEMANTICS: Mealy TARGET: Mealy }} MAIN {{ INPUTS {{ a; b; "
                f"}} GUARANTEE {{ ({text}) || false; }} }}",
                {},
            ).sentences
            both = self.obligations.both([self.obligations.of(one.formula) for one in formula])
            self.assertEqual(
                self.remains.breaks(both, [frozenset(letter) for letter in word], len(word) - 1), step, text
            )

    def test_texts(self):
        for text, said in (
            ("G (a -> F b)", "G (!a || F b)"), ("a W b", "a W b"), ("!(a U b)", "!a R !b"), ("X (a R b)", "X (a R b)")
        ):
            [one] = expanding.basic(
                f"INFO {{ SEMANTICS: Mealy TARGET: Mealy }} MAIN {{ INPUTS {{ a; b; }} GUARANTEE {{ {text}; }} }}", {}
            ).sentences
            self.assertEqual(obligations.text_of(self.obligations.of(one.formula)), said)


class Shown(unittest.TestCase):
    def test_a_sentence_is_shown_as_the_text_has_it(self):
        for text, said in (
            ("G (a\n   -> X b)", "G (a -> X b)"), ("G (a // one\n -> b)", "G (a -> b)"),
            ("G (a /* ä */ -> b)", "G (a -> b)"), ("G (a || " + "b || " * 60 + "b)", None),
        ):
            [one] = expanding.basic(
                f"INFO {{ SEMANTICS: Mealy TARGET: Mealy }} MAIN {{ INPUTS {{ a; b; }} GUARANTEE {{ {text}; }} }}", {}
            ).sentences
            self.assertEqual(one.said, said or formulas.text_of(one.formula))
        both = expanding.basic(
            "INFO { SEMANTICS: Mealy TARGET: Mealy }\nMAIN { INPUTS { a; b; }\nASSERT { a & !b; } }", {}
        ).sentences
        self.assertEqual([(one.said, one.row, one.names) for one in both], [("a", 3, ["a"]), ("!b", 3, ["b"])])


def has_until(one):
    return one.sign == "U" or any(has_until(part) for part in one.operands if isinstance(part, obligations.Obligation))


class AgainstTheProgram(unittest.TestCase):
    def test_sentences_of_all_sections(self):
        """Of random specifications, some of them strict, a lasso violates some guarantee that binds it exactly if the
        program says that it violates the specification."""
        PROGRAM[:] = [program()]
        draw, made, asked = random.Random("sections"), formulas.Formulas(), []
        for _ in range(ASKED):
            sections = {
                word: [formulas.text_of(built(made, drawn(draw, 2))) for _ in range(draw.randrange(3))]
                for word in SECTIONS
            }
            strict = ", Strict" * draw.randrange(2)
            inside = " ".join(
                f"{word} {{ {''.join(f'{text}; ' for text in texts)}}}" for word, texts in sections.items()
            )
            text = (
                f"INFO {{ SEMANTICS: Mealy{strict} TARGET: Mealy }}\n"
                f"MAIN {{ INPUTS {{ {'; '.join(NAMES)} }} {inside} }}\n"
            )
            asked.append((text, lassos.drawn(draw, len(NAMES), 4)))
        counts.ran("formulas", "specifications on lassos against the tool's own judgement", len(asked))
        answers = sweeps.at_once(lambda one: answered(given(*one)), asked)
        found = [
            bool(keeping.violated(expanding.basic(text, {}), letters_of(lasso), lasso.stem)) for text, lasso in asked
        ]
        wrong = [
            one
            for one, answer, violated in zip(asked, answers, found)
            if not answer.startswith(b"violated" if violated else b"satisfied")
        ]
        self.assertEqual(wrong[:3], [])
        self.assertGreater(min(found.count(True), found.count(False)), ASKED // 10)


def given(text, lasso):
    """The input of `lasso --tlsf` for a lasso whose letters are all inputs."""
    circuit = "aag 4 4 0 0 0\n2\n4\n6\n8\n" + "".join(f"i{place} {name}\n" for place, name in enumerate(NAMES))
    rows = ["".join("01"[bit] for bit in letter) + "\n" for letter in lasso.letters]
    return (
        f"lasso --tlsf\n{text}%%\n{circuit}%%\n{''.join(rows[: lasso.stem])}-\n{''.join(rows[lasso.stem :])}".encode()
    )


SPEC = b"""INFO { SEMANTICS: Mealy TARGET: Mealy }
MAIN {
  INPUTS { r; reset; }
  OUTPUTS { g; busy; }
  REQUIRE { !(r && reset); }
  GUARANTEE {
    G (r -> X (g || reset));
    G (g -> X !g);
    G F !busy;
  }
}
"""
# It grants in the step behind a request, and is always busy.
HASTY = b"aag 3 2 1 2 0\n2\n4\n6 2\n6\n1\ni0 r\ni1 reset\no0 g\no1 busy\n"
TRACED = """\
violated stem 1 lap 2
step  letter
0     r !reset !g busy
the lap begins; it comes again after step 2
1     !r !reset g busy
2     r !reset !g busy
the run violates the guarantee of line 9
  G F !busy
"""


class OfTheTool(OnFiles):
    def setUp(self):
        super().setUp()
        self.file("s.tlsf", SPEC)
        self.file("hasty.aag", HASTY)

    def test_the_broken_sentence_is_named_and_the_table_stops_there(self):
        self.file("b.tlsf", SPEC.replace(b"!busy", b"busy"))
        done = self.tool("verify", "b.tlsf", "hasty.aag")
        self.assertEqual(done.stdout.split(b"\n")[0], b"loses")
        told = done.stderr.decode().splitlines()
        at = next(place for place, line in enumerate(told) if line.startswith("step ") and "breaks" in line)
        step = told[at].split()[1]
        self.assertEqual(told[at:], [f"step {step} breaks the guarantee of line 8", "  G (g -> X !g)"])
        self.assertEqual(told[at - 1].split()[0], step)

    def test_a_sentence_that_no_step_breaks_is_named_too(self):
        done = self.tool("lasso", "--trace", "s.tlsf", "hasty.aag", "-", given=b"10\n-\n00\n10\n")
        self.assertEqual((done.stdout.decode(), done.stderr), (TRACED, b""))

    def test_of_a_run_that_breaks_an_assumption_no_guarantee_is_named(self):
        done = self.tool("lasso", "--trace", "s.tlsf", "hasty.aag", "-", given=b"-\n11\n")
        self.assertEqual(done.stdout.decode().splitlines()[0], "satisfied stem 1 lap 1")
        self.assertNotIn(b"the guarantee", done.stdout)

    def test_of_an_environment_that_loses_the_assumptions_are_named(self):
        self.file("e.tlsf", SPEC.replace(b"G F !busy", b"g; !g"))
        self.file("env.aag", b"aag 2 2 0 2 0\n2\n4\n1\n1\ni0 g\ni1 busy\no0 r\no1 reset\n")
        done = self.tool("verify", "--env", "e.tlsf", "env.aag")
        self.assertEqual(done.stdout.split(b"\n")[0], b"loses")
        self.assertEqual(
            done.stderr.decode().splitlines()[-2:], ["step 0 breaks the assumption of line 5", "  !(r && reset)"]
        )

    def test_a_line_is_that_of_the_full_form(self):
        full = SPEC.replace(b"MAIN", b"GLOBAL { PARAMETERS {\n n = 1; } }\nMAIN").replace(b"X !g", b"X[n] !g").replace(
            b"!busy", b"busy"
        )
        self.file("full.tlsf", full)
        for words in ([], ["--set", "n=2"]):
            told = self.tool("verify", *words, "full.tlsf", "hasty.aag").stderr.decode().splitlines()
            self.assertTrue(told[-2].endswith("breaks the guarantee of line 10"), told)
            self.assertEqual(told[-1], "  G (g -> X[n] !g)")


if __name__ == "__main__":
    unittest.main()
