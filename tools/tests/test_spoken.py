"""Sentences on the command line, in the syntax of other tools."""
import os
import random
import unittest

from psyntool.tlsf import expanding, spoken
from tests import lassos, tlsf_reader
from tests.tool import OnFiles

NAMES = "abcd"
# How the operators bind, in other tools: those that bind less come first; and how they group.
LEVELS = (("->", "<->"), ("xor",), ("||",), ("&&",), ("U", "R", "W", "M"))
GROUPS_RIGHT = {"->", "<->", "U", "R", "W", "M"}
BINDS = {sign: level for level, signs in enumerate(LEVELS) for sign in signs}
UNARY = len(LEVELS)
SPELLINGS = {"->": ["->", "=>"], "<->": ["<->", "<=>"], "xor": ["xor", "^"]} | {
    "||": ["|", "||", "\\/", "or"], "&&": ["&", "&&", "/\\", "and"], "R": ["R", "V"],
    "!": ["!", "~", "not "], "F": ["F ", "<>"], "G": ["G ", "[]"], "X": ["X "],
}  # fmt: skip


def drawn(draw, depth):
    if not depth or draw.random() < 0.15:
        return ("name", draw.randrange(4)) if draw.random() < 0.9 else (draw.choice(["true", "false"]),)
    if draw.random() < 0.4:
        return (draw.choice("!XFG"), drawn(draw, depth - 1))
    return (draw.choice(list(BINDS)), drawn(draw, depth - 1), drawn(draw, depth - 1))


def said(draw, formula, least=0):
    """The text of a formula as an operand of an operator that binds as `least`."""
    sign = formula[0]
    if sign == "name":
        return NAMES[formula[1]]
    if sign in ("true", "false"):
        return draw.choice([sign, "1" if sign == "true" else "0", "tt" if sign == "true" else "ff"])
    written = draw.choice(SPELLINGS.get(sign, [sign]))
    if sign in "!XFG":
        binds, text = UNARY, written + said(draw, formula[1], UNARY)
    else:
        binds = BINDS[sign]
        sides = (binds + 1, binds) if sign in GROUPS_RIGHT else (binds, binds + 1)
        text = f"{said(draw, formula[1], sides[0])} {written} {said(draw, formula[2], sides[1])}"
    return f"({text})" if binds < least or draw.random() < 0.1 else text


def meant(formula):
    """The formula with the operators that the second evaluator knows."""
    sign, *parts = formula
    if sign in ("name", "true", "false"):
        return formula
    parts = [meant(part) for part in parts]
    if sign == "xor":
        return ("!", ("<->", *parts))
    return ("U", parts[1], ("&&", *parts)) if sign == "M" else (sign, *parts)


class Meanings(unittest.TestCase):
    def test_drawn_sentences(self):
        draw = random.Random("spoken")
        for _ in range(300):
            formula = drawn(draw, 4)
            text = said(draw, formula)
            with self.subTest(text):
                made, whole = spoken.read([("GUARANTEE", text)], list("ab"), list("cd"), False, False)
                read = tlsf_reader.read(expanding.of_specification(made, whole, {}).text().encode())
                both = ("true",)
                for _, _, _, one in read.formulas:
                    both = ("&&", both, one)
                those = [lassos.drawn(draw, 4) for _ in range(10)]
                self.assertEqual(lassos.vector(both, those), lassos.vector(meant(formula), those))

    def test_words_of_sentences_and_bounds(self):
        for text, written in (
            ("G(r -> F[0:2] g)", "G (r -> g || X g || X X g)"),
            ("G(r -> F[0..1] g)", "G (r -> g || X g)"),
            ("G (r -> within 1 g unless r)", "G (r -> g || r || X (g || r))"),
            ("G (r & !g -> X[2] g)", "G (r && !g -> X X g)"),
            ("GF g & r U g", "G F g;    r U g"),
            ("r[*2] -> g", "r && X r -> g"),
            ("X M", "X M"),
        ):
            made, whole = spoken.read([("GUARANTEE", text)], ["r"], ["g", "M"], False, False)
            lines = expanding.of_specification(made, whole, {}).text().split("GUARANTEE {\n")[1].split("  }\n")[0]
            self.assertEqual(lines.replace("    // line 1\n", "").replace("\n", "").strip(), f"{written};", text)


# What new users wanted to say, as they typed it or in the nearest form.
WANTED = (
    ("G(r -> within 3 (g or reset))", "r reset", "g"),
    ("G (r -> within 3 g unless reset)", "r reset", "g"),
    ("G(down -> red & X red)", "near", "down red"),
    ("G onehot0(g0, g1, g2, g3, g4, g5, g6, g7)", "r", "g0 g1 g2 g3 g4 g5 g6 g7"),
    ("GF !down", "near", "down"),
    ("G ((down & !closed)[*3] <-> X[2] alarm)", "closed", "down alarm"),
    ("G(!enA -> stable(ackA))", "enA", "ackA"),
    ("G (rises(green) -> X green[*5] & X F[5:20] !green)", "car", "green"),
    ("FG !alarm", "r", "alarm"),
    ("FG dead -> FG alarm", "dead", "alarm"),
    ("G (refund -> !possible)", "possible", "refund brew"),
)


class OfTheTool(OnFiles):
    def test_what_users_want_to_say_is_said(self):
        for sentence, inputs, outputs in WANTED:
            words = ["--formula", sentence, "--ins", *inputs.split(), "--outs", *outputs.split()]
            self.assertEqual(self.tool("tlsf", *words).returncode, 0, sentence)
            done = self.tool("synth", "--quiet", *words)
            self.assertEqual((done.stdout.split(b"\n")[0], done.stderr), (b"REALIZABLE", b""), sentence)

    def refused(self, *words):
        done = self.tool(*words)
        self.assertEqual((done.stdout, done.returncode, done.stderr.count(b"\n")), (b"", 2, 1), done.stderr)
        return done.stderr.decode().removeprefix("psyn: ").rstrip("\n")

    def test_a_circuit_is_made_for_them(self):
        done = self.tool("synth", "--formula", "G (r -> F g)", "--ins", "r", "--outs", "g", "-o", "made")
        self.assertEqual((done.stdout, done.returncode), (b"REALIZABLE\n", 10), done)
        self.assertEqual(self.tool("verify", "made.tlsf", "made.aag").stdout, b"wins\n")
        self.assertEqual(sorted(os.listdir(self.room)), ["made.aag", "made.tlsf"])

    def test_many_sentences_and_both_orders(self):
        words = ["--guarantee", "G (g <-> r)", "G F !g", "--assume", "G F !r", "--outs", "g"]
        self.assertEqual(self.tool("synth", *words).returncode, 10)
        self.assertEqual(self.tool("synth", "--moore", *words).returncode, 20)
        self.assertEqual(self.tool("synth", *words[:3], "--outs", "g", "--assume", "GF r").returncode, 20)
        text = self.tool("tlsf", "--strict", "--moore", *words, "--formula", "g U r").stdout.decode()
        self.assertIn("  SEMANTICS:   Moore,Strict\n", text)
        self.assertEqual(
            text[text.index("  REQUIRE") :],
            "  REQUIRE {\n    F !r;\n  }\n  ASSERT {\n    g <-> r;\n    F !g;\n  }\n  GUARANTEE {\n    "
            "g U r;\n  }\n}\n",
        )

    def test_what_is_refused_in_one_line(self):
        for words, told in (
            (["--formula", "G (r -> F h)", "--ins", "r", "--outs", "g"], "'G (r -> F h)': column 11: there is no `h`"),
            (
                ["--formula", "G (r -> F g", "--outs", "g"],
                "'G (r -> F g': column 12: `)` is expected here, and this is the end of the text",
            ),
            (
                ["--formula", "G (r -> F g) r", "--outs", "g"],
                "'G (r -> F g) r': column 14: the end of the sentence is expected here, and this is `r`",
            ),
            (
                ["--guarantee", "G g", "G (r $ g)", "--outs", "g"],
                "'G (r $ g)': column 6: no word, number or sign of a formula begins with `$`",
            ),
            (
                ["--formula", "G (r -> next g)", "--outs", "g"],
                "'G (r -> next g)': column 14: `)` is expected here, and this is `g`; for `next` write `X`",
            ),
            (
                ["--formula", "always (r -> g)", "--outs", "g"],
                "'always (r -> g)': column 1: there is no function `always`; for `always` write `G`",
            ),
            (
                ["--formula", "G (r -> within 3 steps g)", "--outs", "g"],
                "'G (r -> within 3 steps g)': column 24: `)` is expected here, and this is `g`; leave `steps` out",
            ),
            (
                ["--formula", "G (Y r -> g)", "--outs", "g"],
                "'G (Y r -> g)': column 6: `)` is expected here, and this is `r`; no word speaks of the past, "
                "as `Y` does elsewhere: write the formula one step earlier, with `X`",
            ),
            (["--formula", "G g"], "synth of sentences wants --outs NAME.., the controller's propositions"),
            (
                ["--formula", "G g", "--outs", "g,"],
                "--outs NAME..: 'g,' is no name of a proposition; names stand with blanks between them",
            ),
            (["--formula", "G g", "--ins", "g", "--outs", "g"], "--ins NAME..: g stands twice in --ins and --outs"),
            (["--formula", "G g", "--outs", "g", "--full"], "synth --tlsf can't have --full"),
            (
                ["--formula", "G g", "--outs", "g", "--set", "n=1"],
                "synth --set wants a specification in a file",
            ),
        ):
            self.assertEqual(self.refused("synth", *words), told)

    def test_flags_that_would_say_nothing(self):
        self.file("s.tlsf", b"INFO { SEMANTICS: Mealy TARGET: Mealy } MAIN { OUTPUTS { g; } GUARANTEE { G g; } }\n")
        self.file("p.hoa", b'HOA: v1 Start: 0 AP: 1 "g" Acceptance: 0 t --BODY-- State: 0 [0] 0 --END--\n')
        for words, flag in (
            (["tlsf", "--moore", "s.tlsf"], "--moore"),
            (["sane", "--outs", "g", "--", "s.tlsf"], "--outs"),
            (["synth", "s.tlsf", "--ins", "r"], "--ins"),
        ):
            self.assertEqual(
                self.refused(*words),
                f"{words[0]} {flag} is for sentences on the command line: a specification says itself what it means",
            )
        said = "stands beside no parts: --guarantee takes a sentence, too, and --outs says whose the names are"
        self.assertEqual(
            self.refused("synth", "--formula", "G g", "--guarantee", "p.hoa", "--outs", "g"), f"synth --formula {said}"
        )
        self.assertEqual(
            self.refused("compose", "--guarantee", "p.hoa", "--outs", "g", "--ins", "r"),
            "compose has no flag --ins: it is for synth, core, sane, tlsf",
        )

    def test_a_name_that_no_flag_declares_is_an_input(self):
        done = self.tool("tlsf", "--formula", "G (closed -> F open)", "--outs", "open")
        self.assertIn(b"  INPUTS {\n    closed;\n  }\n", done.stdout)


if __name__ == "__main__":
    unittest.main()
