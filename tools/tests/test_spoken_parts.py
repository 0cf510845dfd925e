"""Sentences in temporal logic as parts of a specification, beside automata and alone."""
import os
import random
import unittest

from psyntool.ends import Refused
from psyntool.parts import spoken
from psyntool.parts.diagrams import Diagrams
from psyntool.parts.part import Moves
from psyntool.tlsf import formulas, obligations
from tests import lassos
from tests.test_full_tlsf import built, drawn
from tests.test_keeping import NAMES, letters_of, meaning_of
from tests.test_sane import ASSUMING
from tests.tool import OnFiles
from upkeep.sweeps import TOP


def accepts(moves, lasso):
    """Whether a part, whose moves are given, accepts a lasso: it never breaks and, if it is a Büchi part, is met again
    and again."""
    letters = [{place for place, bit in enumerate(letter) if bit} for letter in lasso.letters]
    state, place, seen, met = moves.start, 0, {}, []
    while (state, place) not in seen:
        seen[state, place] = len(met)
        move = None if state is None else moves.diagrams.at(moves.of[state], letters[place])
        if move is None:
            return False
        met.append(move.is_met or not moves.part.is_buchi)
        state, place = move.target, place + 1 if place + 1 < len(letters) else lasso.stem
    return any(met[seen[state, place] :])


class Meanings(unittest.TestCase):
    def test_a_part_accepts_what_satisfies_its_sentence(self):
        draw, made, told = random.Random("parts"), formulas.Formulas(), {True: 0, False: 0, "no part": 0}
        for _ in range(150):
            formula = built(made, drawn(draw, 3))
            text = formulas.text_of(formula)
            try:
                part = spoken.part_of(text, "", formula, formulas.names_in(formula))
            except Refused:
                told["no part"] += 1
                continue
            moves = Moves(part, {name: NAMES.index(name) for name in part.names}, Diagrams())
            meaning = ("true",) if formula is True else ("false",) if formula is False else meaning_of(formula)
            for _ in range(8):
                lasso = lassos.drawn(draw, len(NAMES))
                truth = bool(lasso.truths(meaning)[0])
                self.assertEqual(accepts(moves, lasso), truth, (text, lasso))
                told[truth] += 1
        self.assertGreater(min(told.values()), 10, told)

    def test_which_sentences_are_no_parts(self):
        for text, is_part in (
            ("GF a -> GF b", False), ("FG a", False), ("G (a -> F b)", True), ("a U (b U c)", True),
            ("F G a | G b", False), ("(a W b) W F c", True), ("GF a & (a -> F b)", True),
        ):
            formula, names = spoken.read(text)
            try:
                spoken.part_of(text, "", formula, names)
                self.assertTrue(is_part, text)
            except Refused:
                self.assertFalse(is_part, text)

    def test_one_letter_at_each_step_is_told_by_what_is_owed(self):
        part = spoken.part_of("it", "", *spoken.read("G (a -> within 2 b)"))
        self.assertEqual(list(part.automaton.state_names.values()), ["nothing owed", "owed: b || X b", "owed: b"])
        self.assertFalse(part.is_buchi)
        one = obligations.Obligations()
        self.assertFalse(spoken.has_until(one.of(spoken.read("G (a -> X b)")[0]), {}))


class OfTheTool(OnFiles):
    def refused(self, *words):
        done = self.tool(*words)
        self.assertEqual((done.stdout, done.returncode, done.stderr.count(b"\n")), (b"", 2, 1), done.stderr)
        return done.stderr.decode().removeprefix("psyn: ").rstrip("\n")

    def test_beside_automata(self):
        answered = f"{TOP}/examples/parts/answered.hoa"
        self.file(
            "l.parts",
            "--outs g h\n# A sentence above.\n--guarantee 'G !(g & h)'\n"
            f"--guarantee {answered} --as request=r answer=g\n"
            "--guarantee 'G (s -> within 1 h)' 'G (g -> !s)'\n".encode(),
        )
        done = self.tool("core", "l.parts")
        self.assertEqual((done.stdout.splitlines()[0], done.returncode), (b"UNREALIZABLE", 20))
        self.assertIn(b"  G (g -> !s)", done.stdout)
        self.assertIn(b"  answered(r,g)", done.stdout)
        self.assertEqual(
            self.tool(
                "synth", "--guarantee", "G (r -> X g)", answered, "--as", "request=r", "answer=h", "--outs", "g", "h"
            ).returncode,
            10,
        )

    def test_what_is_refused_with_its_line(self):
        self.file("l.parts", b"--outs g\n--guarantee 'G (r -> F g'\n")
        self.assertEqual(
            self.refused("compose", "l.parts"),
            "l.parts:2: 'G (r -> F g': column 12: `)` is expected here, and this is the end of the text",
        )
        self.file("l.parts", b"--outs g\n\n--guarantee 'FG g'\n")
        self.assertEqual(
            self.refused("compose", "l.parts"),
            "l.parts:3: 'FG g': as a part it would have to say what holds for ever at last, and a part can't: "
            "give the specification to `synth` as a whole",
        )
        self.file("l.parts", b"--outs g\n--guarantee 'G g' --as g=h\n")
        self.assertEqual(
            self.refused("compose", "l.parts"),
            "l.parts:2: 'G g': --as renames propositions of files; write the sentence with the names that are wanted",
        )
        said = "there is no file g; a sentence that is one name stands in parentheses, '(g)'"
        self.assertEqual(self.refused("compose", "--guarantee", "g", "--outs", "g"), said)
        many = " & ".join(f"p{number}" for number in range(11))
        self.assertIn(
            "it mentions 11 propositions, and as a part at most 10",
            self.refused("compose", "--guarantee", f"G ({many})", "--outs", "p0"),
        )

    def test_a_specification_in_temporal_logic(self):
        self.file("s.tlsf", ASSUMING)
        composed = self.tool("compose", "s.tlsf")
        self.assertEqual((composed.returncode, composed.stderr), (0, b""))
        self.assertIn(b'part: "assume" "G F ready" ""', composed.stdout)
        self.assertEqual(self.tool("synth", "--parts", "-o", "s", "s.tlsf").returncode, 10)
        self.assertEqual(self.tool("verify", "s.tlsf", "s.aag").stdout, b"wins\n")
        self.assertIn(b"</html>", self.tool("page", "--parts", "s.tlsf").stdout)
        self.assertIn(b"</html>", self.tool("page", "--circuit", "s.aag", "s.tlsf").stdout)
        self.assertTrue(self.tool("show", "s.tlsf").stdout.startswith(b"digraph automaton {"))
        self.file("m.tlsf", ASSUMING.replace(b"Mealy", b"Moore"))
        self.assertEqual(self.tool("synth", "--parts", "m.tlsf").returncode, 20)

    def test_a_specification_that_no_parts_say(self):
        self.file("s.tlsf", ASSUMING.replace(b"SEMANTICS: Mealy", b"SEMANTICS: Mealy,Strict"))
        self.assertEqual(
            self.refused("compose", "s.tlsf"),
            "s.tlsf: semantics are strict, and those of parts are not: give the specification to `synth` as a whole",
        )
        self.file("s.tlsf", ASSUMING.replace(b"ASSUME", b"PRESET { g; } ASSUME"))
        self.assertIn("PRESET binds even where an assumption fails", self.refused("compose", "s.tlsf"))
        self.file("s.tlsf", ASSUMING.replace(b"G F ready", b"F G ready"))
        self.assertTrue(self.refused("compose", "s.tlsf").startswith("s.tlsf: line 5: as a part it would have to say"))

    def test_sentences_that_are_no_parts_are_shown_by_one_automaton(self):
        said = (
            "s.tlsf: line 5: as a part it would have to say what holds for ever at last, and a part can't: "
            "one automaton of all sentences is shown\n"
        )
        for order in (b"Mealy", b"Moore"):
            self.file("s.tlsf", PERSISTENT.replace(b"Mealy", order))
            self.assertEqual(self.tool("synth", "--automaton", "--force", "-o", "s", "s.tlsf").returncode, 10)
            for words in (["page", "s.tlsf"], ["page", "s", "s.tlsf"], ["page", "--circuit", "s.aag", "s.tlsf"]):
                done = self.tool(*words)
                wanted = "" if words == ["page", "s", "s.tlsf"] else said  # synth has written the automaton
                self.assertEqual(
                    (done.returncode, done.stderr.decode().replace(" (written out)", "")), (0, wanted), words
                )
                for told in (
                    "What is wanted, in 2 parts",
                    "guaranteed, but no part by itself: <code>FG dead -&gt; FG alarm</code>",
                    "guaranteed:  <code>G (dead -&gt; within 1 alarm)</code>",
                    "</html>",
                ):
                    self.assertIn(told, done.stdout.decode())
            self.assertIn(
                f"In each step the {'controller' if order == b'Moore' else 'environment'} moves first.".encode(),
                done.stdout,
            )
            self.assertTrue(self.tool("show", "s.tlsf").stdout.startswith(b"digraph automaton {"))
            self.assertIn(b"the loop begins", self.tool("play", "--auto", "s", "s.tlsf").stdout)

    def test_what_has_no_automaton_has_no_page(self):
        fake = self.file("psyn", b"#!/bin/sh\ncat > none\necho 'fault 75 NotTranslated'\nexit 1\n")
        os.chmod(fake, 0o755)
        self.file("s.tlsf", PERSISTENT)
        done = self.tool("page", "s.tlsf", environment={"PSYN": fake})
        self.assertEqual((done.stdout, done.returncode, done.stderr.count(b"\n")), (b"", 2, 1), done.stderr)
        self.assertIn(
            b"give the specification to `synth` as a whole; `translate` answers: fault 75 NotTranslated", done.stderr
        )


PERSISTENT = b"""INFO { SEMANTICS: Mealy TARGET: Mealy }
MAIN {
  INPUTS { dead; } OUTPUTS { alarm; }
  GUARANTEE {
    FG dead -> FG alarm;
    G (dead -> within 1 alarm);
  }
}
"""


if __name__ == "__main__":
    unittest.main()
