"""Tests of the tool on specifications in temporal logic: what it explains, and what it hands on."""
import json
import os
import subprocess
import sys
import unittest

from psyntool import marking
from psyntool.kinds import Kind, kind_of
from psyntool.program import path as program
from psyntool.texts import Unreadable, specification
from psyntool.tlsf import broken
from tests.tool import AUTOMATON, TOOL, OnFiles

HEAD = b'INFO { TITLE: "t" SEMANTICS: Mealy TARGET: Mealy }\n'
MAIN = b"MAIN {\n  INPUTS { r; }\n  OUTPUTS { g; }\n  GUARANTEE { G (r -> F g); }\n}\n"
GRANT = b"aag 1 1 0 1 0\n2\n2\ni0 r\no0 g\n"
NEVER = b"aag 1 1 0 1 0\n2\n0\ni0 r\no0 g\n"
LATE = b"aag 6 1 2 1 3\n2\n4 2\n6 4\n12\n8 3 5\n10 8 7\n12 11 11\ni0 r\no0 g\n"
# A circuit with an input that nothing reads, as yosys adds a clock.
CLOCKED = b"aag 2 2 0 1 0\n2\n4\n4\ni0 clk\ni1 r\no0 g\n"
WRONG = {
    b"G (r U g -> g)": ("80 Syntax", "5:24", ""),
    b"G (r -> F h)": ("81 Name", "5:25", ""),
    b"true; } INPUTS { x; } ASSUME { g": ("82 Twice", "5:23", "keep one of the two"),
    b"!" * 257 + b"r": ("84 Limit", "5:271", "divide the specification"),
}


# A specification, careless changes of it (a part and what stands in its place), and the first line that tells of each:
# what the tool's own reader expects at a place.
CAREFUL = """INFO { SEMANTICS: Mealy TARGET: Mealy }
MAIN {
  INPUTS { r; s; }
  OUTPUTS { g; h; }
  GUARANTEE {
    G (r -> F g);
    G !(g && h);
  }
}
"""
SENTENCE = "G (r -> F g)"
OF_MAIN = "`}` or INPUTS, OUTPUTS or a section of formulas is expected here, and this is"
OF_INFO = "`}` or TITLE, DESCRIPTION, SEMANTICS, TARGET, TAGS is expected here, and this is"
MIXED = "these operators want parentheses: write"
CARELESS = (
    ("F g);", "F g)", "7:5: `;` or an operator is expected here, and this is `G`"),
    ("h);", "h;", "7:15: `)` is expected here, and this is `;`"),
    ("  }\n}", "  }", f"9:1: {OF_MAIN} the end of the text"),
    ("GUARANTEE", "GUARANTE", f"5:3: {OF_MAIN} `GUARANTE`"),
    (CAREFUL, "", "1:1: `INFO` is expected here, and this is the end of the text"),
    ("r; s;", "r, s;", "3:13: `;` or an operator is expected here, and this is `,`"),
    ("g; h;", "g h;", "4:15: `;` is expected here, and this is `h`"),
    ("INFO", "INF", "1:1: `INFO` is expected here, and this is `INF`"),
    ("TARGET:", "TARGETS:", f"1:25: {OF_INFO} `TARGETS`"),
    ("Mealy }", "Mealy; }", f"1:38: {OF_INFO} `;`"),
    (
        " Mealy T",
        " mealy T",
        "1:19: `Mealy` or `Moore`, with `,Strict` or without, is expected here, and this is `mealy`",
    ),
    ("MAIN {", "MAIN", "3:3: `{` is expected here, and this is `INPUTS`"),
    ("r; s;", "r; r;", "3:15: `r` is declared before"),
    ("g; h;", "g; r;", "4:16: `r` is declared before"),
    ("r; s;", "r; X;", "3:15: `X` is a word of TLSF, and can't be the name of a signal"),
    ("F g", "F gg", "6:15: there is no `gg` (did you mean g?)"),
    ("F g", "F G", "6:16: an operand is expected here, and this is `)`"),
    ("F g", "next g", "6:13: there is no `next`; for `next` write `X`"),
    ("F g", "F $g", "6:15: no word, number or sign of TLSF begins with `$`"),
    ("r ->", "r", "6:10: `)` is expected here, and this is `F`"),
    ("F g)", "F g))", "6:17: `;` or an operator is expected here, and this is `)`"),
    (SENTENCE, f"/* {SENTENCE}", "6:5: this comment is not closed"),
    ("INFO {", 'INFO { TITLE: "x', "1:15: this string is not closed"),
    (SENTENCE, "r -> g U h", f"6:12: {MIXED} `(r -> g) U h` or `r -> (g U h)`"),
    (SENTENCE, "G (r W g R h && s)", f"6:14: {MIXED} `G ((r W g) R (h && s))` or `G ((r W (g R h)) && s)`"),
    (SENTENCE, "r U g U h", f"6:11: {MIXED} `r U (g U h)`"),
    (SENTENCE, "r -> g <-> h", f"6:12: {MIXED} `r -> (g <-> h)` or `(r -> g) <-> h`"),
    (SENTENCE, "F k; r U g -> h", "6:7: there is no `k`"),
    (
        "OUTPUTS { g; h; }\n",
        "ASSUME { g; } OUTPUTS { g; }",
        "4:12: `g` is declared only below: put INPUTS and OUTPUTS before the formulas",
    ),
)


class Careless(OnFiles):
    """Faults 80 and 81 are told by the tool's own reader."""

    def asked(self, part, other):
        """The program's answer to a change of the specification, and this text."""
        text = CAREFUL.replace(part, other, 1)
        done = subprocess.run([program()], input=f"synth --tlsf\n{text}".encode(), stdout=subprocess.PIPE, check=False)
        return done.stdout.decode(), text

    def test_each_slip_is_told_at_its_place(self):
        for part, other, told in CARELESS:
            with self.subTest(part=part, other=other):
                answer, text = self.asked(part, other)
                self.assertRegex(answer, r"\Afault 8[01] (Syntax|Name) at \d+\n\Z")
                _, number, _, _, offset = answer.split()
                at, message = broken.told(text, int(number), int(offset))
                row, column = marking.line_and_column(text.encode(), at)
                self.assertEqual(f"{row}:{column}: {message}", told)

    def test_it_stands_in_the_place_of_the_causes(self):
        part, other, told = CARELESS[0]
        self.file("it.tlsf", CAREFUL.replace(part, other, 1).encode())
        done = self.tool("synth", "it.tlsf")
        first, _, mark = done.stderr.decode().splitlines()
        self.assertEqual((first, mark.strip(), done.returncode), (f"it.tlsf:{told}", "^", 1))

    def test_each_way_to_write_a_mix_is_accepted(self):
        for part, _, told in CARELESS:
            for one in told.split(MIXED)[1].split("`")[1::2] if MIXED in told else ():
                self.assertIn("REALIZABLE", self.asked(part, one)[0], one)


class Specifications(OnFiles):
    @classmethod
    def setUpClass(cls):
        program()

    def setUp(self):
        super().setUp()
        for name, text in (
            ("s.tlsf", HEAD + MAIN), ("grant.aag", GRANT), ("never.aag", NEVER), ("clocked.aag", CLOCKED),
            ("l.stim", b"-\n1\n"), ("spec.hoa", AUTOMATON),
        ):
            self.file(name, text)

    def asked(self, *words):
        """The answer, the lines on standard error, and the exit status of `lasso --tlsf`."""
        done = self.tool("lasso", "--tlsf", *words)
        return done.stdout.decode(), done.stderr.decode().splitlines(), done.returncode

    def test_it_is_answered(self):
        self.assertEqual(self.asked("s.tlsf", "grant.aag", "l.stim"), ("satisfied stem 0 lap 1\n", [], 0))
        self.assertEqual(self.asked("s.tlsf", "never.aag", "l.stim"), ("violated stem 0 lap 1\n", [], 0))
        self.assertEqual(self.asked("--check", "s.tlsf", "never.aag", "l.stim")[2], 3)

    def test_it_is_one_whatever_its_name(self):
        for name in ("spec.txt", "spec"):
            path = self.file(name, b"// A comment.\n" + HEAD + MAIN)
            for words, said in (
                (("synth", path), b"REALIZABLE"),
                (("verify", path, "grant.aag"), b"wins"),
                (("lasso", path, "never.aag", "l.stim"), b"violated stem 0 lap 1"),
                (("each", "synth", path), f"{path}: REALIZABLE".encode()),
                (("synth", "-"), b"REALIZABLE"),
                (("verify", "-", "grant.aag"), b"wins"),
            ):
                with self.subTest(words):
                    done = self.tool(*words, given=b"// A comment." + b"\n" * 3000 + HEAD + MAIN)
                    remark = b"in this controller some outputs never change: g is 1\n" if "synth" in words else b""
                    self.assertEqual((done.stdout.splitlines()[0], done.stderr), (said, remark))
        self.file("automaton.tlsf", AUTOMATON)
        self.assertEqual(self.tool("verify", "automaton.tlsf", "grant.aag").stdout, b"wins\n")

    def test_a_pipe_is_read_once(self):
        reading = f"{sys.executable} {TOOL} verify <(cat s.tlsf) <(cat grant.aag)"
        done = subprocess.run(["bash", "-c", reading], capture_output=True, check=False, cwd=self.room)
        self.assertEqual((done.stdout, done.stderr), (b"wins\n", b""))

    def test_files_of_other_kinds_are_told_in_one_line(self):
        for words, said in (
            (
                ("verify", "grant.aag", "s.tlsf"),
                "grant.aag is a circuit, s.tlsf is a specification; verify wants SPECIFICATION CIRCUIT, in this order",
            ),
            (
                ("agree", "spec.hoa", "s.tlsf"),
                "spec.hoa is an automaton, s.tlsf is a specification; agree wants SPECIFICATION AUTOMATON, "
                "in this order",
            ),
            (("synth", "grant.aag"), "grant.aag is a circuit; synth wants AUTOMATON"),
            (("translate", "spec.hoa"), "spec.hoa is an automaton; translate wants SPECIFICATION"),
            (("verify", "s.tlsf", "s.tlsf"), "s.tlsf is a specification; verify wants SPECIFICATION CIRCUIT"),
        ):
            with self.subTest(words):
                done = self.tool(*words)
                self.assertEqual((done.stderr.decode(), done.returncode), (f"{said}\n", 1))
                self.assertTrue(done.stdout.startswith(b"fault "))

    def test_a_game_that_begins_as_a_solution_is_explained(self):
        self.file("short.pg", b"0 1;\n")
        self.file("game.pg", b"0 0 1 0;\n")
        self.file("game.sol", b"paritysol 0;\n0 1;\n")
        told = self.tool("solve", "short.pg").stderr.decode().splitlines()
        self.assertEqual(told[:2], ["short.pg is a solution; solve wants GAME", "short.pg:1:4: Syntax"])
        told = self.tool("judge", "game.sol", "game.pg").stderr.decode()
        self.assertEqual(told, "game.sol is a solution, game.pg is a game; judge wants GAME SOLUTION, in this order\n")

    def test_it_is_told_as_json(self):
        told = json.loads(self.asked("--json", "s.tlsf", "never.aag", "l.stim")[0])
        self.assertEqual((told["verdict"], told["stem"], told["lap"]), ("violated", 0, 1))

    def test_each_fault_is_explained_by_its_line_and_a_mend(self):
        for formula, (fault, place, mend) in WRONG.items():
            self.file("wrong.tlsf", HEAD + MAIN.replace(b"G (r -> F g)", formula))
            answer, told, status = self.asked("wrong.tlsf", "grant.aag", "l.stim")
            with self.subTest(fault):
                self.assertTrue(answer.startswith(f"fault {fault} at "), answer)
                self.assertEqual(status, 1)
                self.assertIn(f"wrong.tlsf:{place}", told[0])
                mending = [line for line in told if line.startswith(f"mend: {mend}")]
                self.assertEqual(len(mending), bool(mend), told)
        head = HEAD.replace(b" TARGET: Mealy", b"")
        self.file("wrong.tlsf", head + MAIN)
        answer, told, _ = self.asked("wrong.tlsf", "grant.aag", "l.stim")
        self.assertIn("wrong.tlsf:2:1", told[0])
        self.assertEqual(answer, f"fault 83 Order at {len(head)}\n")
        self.assertTrue(told[-1].startswith("mend: let `tools/psyn` rewrite the formulas; or write one order"), told)
        # where the two orders differ, the tool rewrites the formulas
        self.file("wrong.tlsf", HEAD.replace(b"TARGET: Mealy", b"TARGET: Moore") + MAIN)
        told = "wrong.tlsf: SEMANTICS is Mealy and TARGET Moore: each output o is read as X o, as TLSF does"
        self.assertEqual(self.asked("wrong.tlsf", "never.aag", "l.stim"), ("violated stem 0 lap 1\n", [told], 0))

    def test_wrong_symbols_are_named(self):
        self.file("other.aag", GRANT.replace(b"i0 r", b"i0 q"))
        answer, told, _ = self.asked("s.tlsf", "other.aag", "l.stim")
        self.assertEqual(answer, "fault 72 Symbols\n")
        self.assertIn("among the circuit's inputs: missing r; too many q", told)
        self.assertIn(
            "the symbols are those of a controller: ask without --env",
            self.asked("--env", "s.tlsf", "grant.aag", "l.stim")[1],
        )

    def test_a_clock_is_left_out(self):
        self.file("two.stim", b"-\n01\n")
        answer, told, _ = self.asked("s.tlsf", "clocked.aag", "two.stim")
        self.assertEqual(answer, "satisfied stem 0 lap 1\n")
        self.assertEqual(
            told[0], "clocked.aag: input clk left out: the specification does not mention it, and nothing reads it"
        )

    def test_a_text_of_another_kind_is_named(self):
        self.assertIn(
            "spec.hoa is an automaton; lasso wants SPECIFICATION CIRCUIT STIMULUS",
            self.asked("spec.hoa", "grant.aag", "l.stim")[1],
        )

    def test_it_is_known_by_its_ending(self):
        self.assertEqual(self.tool("lasso", "s.tlsf", "grant.aag", "l.stim").stdout, b"satisfied stem 0 lap 1\n")
        self.assertEqual(
            self.tool("each", "lasso", "s.tlsf", "never.aag", "l.stim").stdout,
            b"s.tlsf never.aag l.stim: violated stem 0 lap 1\n",
        )
        self.assertEqual(self.tool("verify", "s.tlsf", "grant.aag").stdout, b"wins\n")
        self.assertEqual(
            self.tool("each", "verify", "s.tlsf", "grant.aag", "spec.hoa", "grant.aag").stdout.count(b"wins\n"), 2
        )
        for words in (
            ["verify", "--moore", "s.tlsf", "grant.aag"], ["each", "verify", "--moore", "s.tlsf", "grant.aag"]
        ):
            done = self.tool(*words)
            self.assertEqual(
                (done.stdout, done.stderr, done.returncode),
                (
                    b"",
                    b"psyn: verify --tlsf can't have --moore: a specification says that itself, by SEMANTICS: Moore\n",
                    2,
                ),
            )

    def test_where_a_circuit_loses_the_letters_are_shown_by_names(self):
        done = self.tool("verify", "--check", "--stimulus", "lost.stim", "s.tlsf", "never.aag")
        self.assertEqual((done.stdout.split(b"\n")[0], done.returncode), (b"loses", 3))
        told = done.stderr.decode().splitlines()
        self.assertEqual(told[0].split(), ["step", "letter"])
        self.assertIn(["r", "!g"], [line.split()[1:] for line in told])
        self.assertTrue([line for line in told if line.startswith("the lap begins; it comes again")], told)
        self.assertEqual(self.asked("s.tlsf", "never.aag", "lost.stim")[0].split()[0], "violated")
        self.assertEqual(json.loads(self.tool("verify", "--json", "s.tlsf", "never.aag").stdout)["verdict"], "loses")

    def test_a_circuit_is_made_smaller(self):
        late = self.file("late.aag", LATE)
        done = self.tool("shrink", "s.tlsf", late)
        self.assertEqual((done.stderr, done.returncode), (b"gates: 3 before, 0 after; latches: 2 before, 0 after\n", 0))
        self.assertEqual(self.tool("verify", "s.tlsf", "-", given=done.stdout).stdout, b"wins\n")
        self.assertIn(b'"verdict": "wins"', self.tool("shrink", "--json", "s.tlsf", late).stdout)
        for words in (
            ["s.tlsf", "never.aag"], ["--check", "s.tlsf", "never.aag"], ["--moore", "s.tlsf", late],
            ["--env", "s.tlsf", late],
        ):
            one, other = (self.tool(command, *words) for command in ("shrink", "verify"))
            self.assertEqual(
                (one.stdout, one.stderr.replace(b"shrink", b"verify"), one.returncode),
                (other.stdout, other.stderr, other.returncode),
            )

    def test_what_it_refuses(self):
        answer, told, status = self.asked("s.tlsf", "grant.aag")
        self.assertEqual(
            (answer, told, status),
            ("", ["psyn: lasso --tlsf reads SPECIFICATION CIRCUIT STIMULUS, and got 2 files"], 2),
        )
        for words, said in (
            (
                ["lasso", "--set", "n=2", "spec.hoa", "grant.aag", "l.stim"],
                "lasso --set wants a specification in a file",
            ),
            (
                ["lasso", "--set", "n=2", "s.tlsf", "grant.aag", "l.stim"],
                "s.tlsf: --set NAME=VALUE: there is no parameter n; the specification has none",
            ),
        ):
            done = self.tool(*words)
            self.assertEqual((done.stdout, done.stderr.decode(), done.returncode), (b"", f"psyn: {said}\n", 2))

    def test_the_full_form_is_written_out(self):
        full = (
            HEAD
            + b"GLOBAL { PARAMETERS { n = 2; } }\n"
            + MAIN.replace(b"r;", b"r[n];").replace(b"g;", b"g[n];").replace(
                b"G (r -> F g)", b"&&[i IN {0, 1 .. n - 1}] G (r[i] -> within 1 g[i])"
            )
        )
        self.file("full.tlsf", full)
        done = self.tool("synth", "--set", "n=1", "full.tlsf")
        self.assertEqual((done.stdout.split(b"\n")[0], done.returncode), (b"REALIZABLE", 10))
        self.assertIn(b"o0 g_0\n", done.stdout)
        self.file("none.aag", b"aag 2 2 0 2 0\n2\n4\n0\n4\ni0 r_0\ni1 r_1\no0 g_0\no1 g_1\n")
        self.assertEqual(self.tool("verify", "full.tlsf", "none.aag").stdout.split(b"\n")[0], b"loses")
        self.assertEqual(self.tool("verify", "--quiet", "full.tlsf", "none.aag").stdout.split(b"\n")[0], b"loses")
        self.file("wrong.tlsf", full.replace(b"g[i]", b"g[n]"))
        done = self.tool("synth", "wrong.tlsf")
        self.assertEqual((done.stdout, done.returncode, done.stderr.count(b"\n")), (b"", 2, 1))
        self.assertTrue(done.stderr.startswith(b"psyn: wrong.tlsf:6:"), done.stderr)

    def test_a_module_is_printed_of_a_circuit_that_wins(self):
        done = self.tool("verilog", "grant.aag", "s.tlsf")
        self.assertIn(b"// psyn verify says that this circuit wins, by s.tlsf.\n", done.stdout)
        self.assertIn(b"  // - G (r -> F g)\n", done.stdout)
        done = self.tool("verilog", "never.aag", "s.tlsf")
        self.assertEqual(
            (done.stdout, done.stderr, done.returncode),
            (b"", b"psyn: never.aag loses, so there is no module: `verify` tells a counterexample\n", 1),
        )
        done = self.tool("verilog", "--moore", "grant.aag", "s.tlsf")
        self.assertEqual(
            (done.stderr, done.returncode), (b"psyn: s.tlsf says itself who moves first, without --moore\n", 2)
        )


class Synthesis(OnFiles):
    def setUp(self):
        super().setUp()
        self.file("s.tlsf", HEAD + MAIN)

    def test_a_circuit_is_made_for_it(self):
        done = self.tool("synth", "s.tlsf")
        self.assertEqual((done.stdout.split(b"\n")[0], done.returncode), (b"REALIZABLE", 10), done)
        done = self.tool("synth", "-o", "made", "s.tlsf")
        self.assertEqual((done.stdout, done.returncode), (b"REALIZABLE\n", 10), done)
        self.assertEqual(self.tool("verify", "s.tlsf", "made.aag").stdout, b"wins\n")
        self.assertFalse(os.path.exists(os.path.join(self.room, "made.pg")))

    def test_a_smaller_circuit_is_made(self):
        for words, status in ((["s.tlsf"], 10), (["--formula", "G (r -> F g)", "G r"], 20)):
            words = words if words[0] != "--formula" else ["--guarantee", *words[1:], "--outs", "g"]
            done = self.tool("synth", "--small", *words, "-o", "made", "--force")
            self.assertEqual(done.returncode, status, done)
            self.assertRegex(done.stderr, rb"^gates: \d+ before, \d+ after; latches: \d+ before, \d+ after\n")
        self.assertEqual(self.tool("verify", "--env", "made.tlsf", "made.aag").stdout, b"wins\n")
        done = self.tool("synth", "--small", "--formula", "F G (g <-> r)", "--outs", "g")
        self.assertEqual((done.returncode, done.stdout[:11]), (10, b"REALIZABLE\n"))
        self.assertRegex(done.stderr, rb"^gates: \d+ before, 0 after; latches: \d+ before, 0 after\n")

    def test_a_sentence_that_is_long_or_deep_leaves_no_traceback(self):
        self.file("never.aag", NEVER)
        for formula in (
            " -> ".join(["r"] * 500) + " -> g", "X " * 250 + "g", "(" * 250 + "g" + ")" * 250,
            " && ".join(["(r -> X g)"] * 200),
        ):
            self.file("long.tlsf", HEAD + MAIN.replace(b"G (r -> F g)", formula.encode() + b"; G F g"))
            for words in (["verify", "long.tlsf", "never.aag"], ["compose", "--guarantee", formula, "--outs", "g"]):
                done = self.tool(*words)
                self.assertNotIn(b"Traceback", done.stderr)

    def test_no_other_flag_stands_beside_it(self):
        for flag in ("--full", "--moore", "--compact"):
            done = self.tool("synth", flag, "s.tlsf")
            self.assertEqual(
                (done.stdout, done.stderr.decode(), done.returncode),
                (
                    b"",
                    "psyn: synth --tlsf can't have "
                    f"{flag}{': a specification says that itself, by SEMANTICS: Moore' * (flag == '--moore')}\n",
                    2,
                ),
            )


class Reading(unittest.TestCase):
    def test_the_kind_is_seen_at_the_beginning(self):
        for text in (HEAD + MAIN, b"// a line\n /* a comment */" + HEAD, b"/* a */\n//b\n" + HEAD, b"INFO{"):
            self.assertEqual(kind_of(text), Kind.SPECIFICATION)
        self.assertIsNone(kind_of(b"/* */" * 800 + b"INFORMAL"))

    def test_names_are_read_behind_comments_and_strings(self):
        text = (
            'INFO { TITLE: "INPUTS { x }" /* INPUTS { z } /* */ */ } MAIN { // OUTPUTS {\n INPUTS { a; '
            'b\'@ } OUTPUTS { c; } ASSUME { a } }'
        )
        self.assertEqual(specification.owners(text), [["a", "b'@"], ["c"]])
        self.assertEqual(specification.owners("INFO { } MAIN { }"), [[], []])
        with self.assertRaises(Unreadable):
            specification.owners("MAIN { INPUTS ;")

    def test_names_stand_in_the_order_of_their_declarations(self):
        text = "INFO { TAGS: INPUTS TARGET: Moore SEMANTICS: Moore } MAIN { OUTPUTS { c; } INPUTS { a; b; } }"
        self.assertEqual(specification.owners(text), [["a", "b"], ["c"]])
        self.assertEqual(specification.names(text), ["c", "a", "b"])
        self.assertTrue(specification.is_moore(text))
        self.assertFalse(specification.is_moore(text.replace("Moore", "Mealy")))
        self.assertEqual(specification.names("MAIN { INPUTS { a } }"), ["a"])


if __name__ == "__main__":
    unittest.main()
