"""`core`, `sane` and `play` of specifications in temporal logic."""
import os
import unittest

from tests.tool import OnFiles

SPEC = b"""INFO { SEMANTICS: Mealy TARGET: Mealy }
MAIN {
  INPUTS { r0; r1; }
  OUTPUTS { g0; g1; }
  ASSUME { G F !r1; }
  GUARANTEE {
    G (r0 -> X g0);
    G (r1 -> within 1 g1);
    G at most one of (g0, g1);
    G (g0 -> X !g0);
  }
}
"""
ASSUMING = b"""INFO { SEMANTICS: Mealy TARGET: Mealy }
MAIN {
  INPUTS { ready; r; }
  OUTPUTS { g; }
  ASSUME { G F ready; G F !r; }
  GUARANTEE { G (r -> F (g && ready)); G (g -> ready); }
}
"""


class Cores(OnFiles):
    def test_guarantees_that_conflict(self):
        self.file("s.tlsf", SPEC)
        done = self.tool("core", "-o", "few", "s.tlsf")
        self.assertEqual(done.returncode, 20)
        head, *lines = done.stdout.decode().splitlines()[1:]
        self.assertEqual(head, "under all assumptions these guarantees conflict, and none of them can be left out:")
        self.assertEqual(lines, ["  line 7   G (r0 -> X g0)", "  line 10  G (g0 -> X !g0)"])
        self.assertTrue(done.stderr.startswith(b"whatever the controller does, this defeats it:"), done.stderr)
        self.assertEqual(self.tool("synth", "few.tlsf").returncode, 20)

    def test_assumptions_that_are_needed(self):
        self.file("s.tlsf", ASSUMING)
        done = self.tool("core", "s.tlsf")
        self.assertEqual(
            done.stdout.decode(), "REALIZABLE\nthis assumption suffices, and can't be left out:\n  line 5  G F ready\n"
        )
        self.assertEqual((done.stderr, done.returncode), (b"", 10))

    def test_of_the_command_line(self):
        done = self.tool("core", "--guarantee", "G (r -> X g)", "G (g -> X !g)", "GF r", "--outs", "g")
        self.assertEqual(done.stdout.decode(), "UNREALIZABLE\nthis guarantee can't be kept:\n  guarantee  GF r\n")

    def test_a_fault_is_explained(self):
        self.file("s.tlsf", ASSUMING.replace(b"G (g -> ready)", b"g U ready && r"))
        done = self.tool("core", "s.tlsf")
        self.assertEqual((done.stdout.split(b" at ")[0], done.returncode), (b"fault 80 Syntax", 1))
        self.assertTrue(done.stderr.startswith(b"s.tlsf:6:"), done.stderr)

    def test_what_is_refused(self):
        self.file("s.tlsf", ASSUMING)
        for words, told in (
            (
                ["--moore", "s.tlsf"],
                "core --tlsf can't have --moore: a specification says that itself, by SEMANTICS: Moore",
            ),
            (["--tlsf"], "core --tlsf reads SPECIFICATION, and got 0 files"),
            (
                ["--strict", "s.tlsf"],
                "core --tlsf can't have --strict: a specification says that itself, by SEMANTICS: Mealy,Strict",
            ),
        ):
            done = self.tool("core", *words)
            self.assertEqual((done.stdout, done.stderr.decode(), done.returncode), (b"", f"psyn: {told}\n", 2))


class Sanity(OnFiles):
    def asked(self, *words):
        done = self.tool("sane", *words)
        self.assertEqual(done.stderr, b"")
        return done.stdout.decode().splitlines(), done.returncode

    def test_nothing_is_found(self):
        self.assertEqual(
            self.asked("--formula", "G (r <-> X g)", "--outs", "g"),
            (["REALIZABLE", "nothing was found that looks like a mistake"], 10),
        )

    def test_assumptions_that_nothing_keeps(self):
        told, _ = self.asked("--guarantee", "G (r -> X g)", "--assume", "G r", "G F !r", "G F (r | g)", "--outs", "g")
        self.assertEqual(
            told[1:4], ["nothing keeps these 2 assumptions together, so each circuit wins:", "  G r", "  G F !r"]
        )

    def test_an_assumption_that_a_controller_breaks(self):
        told, status = self.asked(
            "--guarantee", "G (r -> X g)", "--assume", "G (g -> X !r)", "G F (r & !g)", "--outs", "g"
        )
        self.assertEqual((told[0], status), ("REALIZABLE", 10))
        self.assertEqual(
            told[1:3],
            [
                "a controller can break the assumption, so the one that psyn finds may do that and no more:",
                "  G F (r & !g)",
            ],
        )
        self.assertEqual(told[3], "so it can play:")
        self.assertTrue(
            [line for line in told if line.endswith("again and again, which does not keep the assumption")], told
        )

    def test_an_assumption_that_breaks_at_a_step(self):
        told, _ = self.asked("--guarantee", "G F g", "--assume", "G (r <-> g)", "--outs", "g", "--moore")
        self.assertFalse([line for line in told if "can break" in line], told)
        told, _ = self.asked("--guarantee", "G F g", "--assume", "G (r <-> X g)", "--outs", "g")
        self.assertTrue([line for line in told if "breaks the assumption" in line], told)

    def test_guarantees_that_follow_and_names(self):
        told, _ = self.asked(
            "--guarantee", "G (open -> !closed)", "G !(open & closed)", "G F open", "G F (r & open -> closd)",
            "--outs", "open", "closed", "closd", "--ins", "r", "spare",
        )
        self.assertEqual(
            told[1:5],
            [
                "the guarantee follows from the others:", "  G (open -> !closed)",
                "the guarantee follows from the others:", "  G !(open & closed)",
            ],
        )
        self.assertIn("no sentence mentions spare", told)
        self.assertIn("only the guarantee mentions closd (closed?)", told)

    def test_guarantees_that_contradict_each_other(self):
        told, status = self.asked("--guarantee", "G g", "G !g", "G (h <-> r)", "G F h | h", "--outs", "g", "h")
        self.assertEqual(told, ["UNREALIZABLE", "these 2 guarantees contradict each other:", "  G g", "  G !g"])
        self.assertEqual(status, 20)
        told, _ = self.asked("--guarantee", "G (g & !g)", "G F h", "--outs", "g", "h")
        self.assertEqual(told, ["UNREALIZABLE", "the guarantee contradicts itself:", "  G (g & !g)"])
        words = ["--assume", "G F r", "--outs", "g"]
        told, _ = self.asked("--guarantee", "G !r", "G (r <-> g)", *words)
        self.assertEqual(told, ["UNREALIZABLE", "the guarantee contradicts the assumptions:", "  G !r"])
        told, _ = self.asked("--guarantee", "G !g", "G (r -> g)", *words)
        head = "these 2 guarantees contradict each other where the assumptions are kept:"
        self.assertEqual(told, ["UNREALIZABLE", head, "  G !g", "  G (r -> g)"])

    def test_of_a_file_lines_are_told(self):
        self.file("s.tlsf", ASSUMING.replace(b"G (g -> ready)", b"G (g -> ready); G (g && r -> ready)"))
        told, _ = self.asked("s.tlsf")
        head = ["REALIZABLE", "the guarantee of line 6 follows from the others:", "  G (g && r -> ready)"]
        self.assertEqual(told, [*head, "no output of this controller depends on r"])




class Plays(OnFiles):
    def setUp(self):
        super().setUp()
        self.file("s.tlsf", SPEC)
        self.tool("synth", "-o", "s", "s.tlsf")

    def test_the_controller_holds_out_as_long_as_it_can(self):
        done = self.tool("play", "--auto", "s", "s.tlsf")
        told = done.stdout.decode()
        self.assertIn("breaks the guarantee of line ", told)
        self.assertIn("lasso: violated stem ", told.splitlines()[-1])
        self.assertTrue(told.startswith("step  environment  controller  owed after it\n0 "), told)
        self.assertEqual((done.stderr, done.returncode), (b"", 0))

    def test_what_is_typed(self):
        done = self.tool("play", "s", "s.tlsf", given=b"g0 g1\nb\nx\n1\ne\n")
        told = done.stdout.decode()
        self.assertIn("You are the controller, and the environment has a circuit that wins.\n", told)
        self.assertIn("> step 0 breaks the guarantee of line 9\n  G at most one of (g0, g1)\n", told)
        self.assertIn("'x' is no choice. ", told)
        self.assertEqual(told.splitlines()[-1].split(" lasso: ")[0], "s.stim has these letters of the controller;")
        self.assertTrue(os.path.exists(os.path.join(self.room, "s.stim")))
        self.assertEqual(
            self.tool("play", "s", "s.tlsf", given=b"q\n").stdout.splitlines()[-1],
            b"> the play is left; no stimulus is written",
        )

    def test_against_a_controller(self):
        self.file("a.tlsf", ASSUMING)
        self.tool("synth", "-o", "a", "a.tlsf")
        told = self.tool("play", "--auto", "a", "a.tlsf").stdout.decode().splitlines()
        self.assertIn("the loop begins", told)
        self.assertIn("lasso: satisfied", told[-1])
        self.assertNotIn("breaks the guarantee", "\n".join(told))

    def test_sentences_are_told_beside_each_step(self):
        self.file("a.tlsf", ASSUMING)
        self.tool("synth", "-o", "a", "a.tlsf")
        told = self.tool("play", "a", "a.tlsf", given=b"r\nr\nr\n").stdout.decode()
        self.assertIn("step 1 (kept so far: line 6; owed: lines 5, 6)\n", told)
        self.assertIn("the loop does not keep the assumption of line 5\n  G F ready\n", told)
        self.assertIn("the loop does not keep the guarantee of line 6\n  G (r -> F (g && ready))\na.stim has", told)

    def test_what_is_refused(self):
        self.file("bad.aag", b"aag 2 2 0 2 0\n2\n4\n0\n0\ni0 r0\ni1 r1\no0 g0\no1 g1\n")
        self.file("odd.aag", b"aag 1 1 0 1 0\n2\n0\ni0 x\no0 y\n")
        for prefix, told in (
            ("bad", "bad.aag loses, so there is no play against it: `verify` tells a counterexample"),
            ("odd", "odd.aag: verify by s.tlsf (written out) answers to it: fault 72 Symbols"),
            ("none", "none.aag: No such file or directory"),
        ):
            done = self.tool("play", "--auto", prefix, "s.tlsf")
            self.assertEqual((done.stdout, done.stderr.decode(), done.returncode), (b"", f"psyn: {told}\n", 2))


if __name__ == "__main__":
    unittest.main()
