"""Files that a command writes: no file that it reads is written over, and one that psyn has not written only with
`--force`. Letters of a stimulus by names."""
import os
import unittest

from tests.test_parts import PARTS
from tests.tool import AUTOMATON, CIRCUIT, OnFiles

LIST = f"--outs g --guarantee lift.hoa --guarantee {PARTS}/answered.hoa --as request=r answer=g\n".encode()
PART = b'HOA: v1 Start: 0 AP: 1 "g" Acceptance: 0 t --BODY-- State: 0 [t] 0 --END--\n'


class Files(OnFiles):
    def refused(self, *words):
        done = self.tool(*words)
        self.assertEqual((done.returncode, done.stdout, done.stderr.count(b"\n")), (2, b"", 1), done.stderr)
        return done.stderr.decode().removeprefix("psyn: ").rstrip("\n")

    def read(self, name):
        with open(os.path.join(self.room, name), "rb") as file:
            return file.read()

    def test_a_part_beside_its_list_is_kept(self):
        self.file("lift.hoa", PART)
        self.file("lift.parts", LIST)
        for words in (("synth", "--parts", "-o", "lift", "lift.parts"), ("core", "-o", "lift", "lift.parts")):
            self.assertEqual(
                self.refused(*words),
                "-o PREFIX: lift.hoa is there, and psyn has not written it: --force writes over it",
            )
            self.assertEqual(
                self.refused(*words, "--force"),
                "lift.hoa would be written, and this command reads it: name another file",
            )
        os.symlink("lift.hoa", os.path.join(self.room, "linked.hoa"))
        self.assertIn("linked.hoa would be written", self.refused("core", "--force", "-o", "linked", "lift.parts"))
        self.assertEqual(
            (self.read("lift.hoa"), sorted(os.listdir(self.room))), (PART, ["lift.hoa", "lift.parts", "linked.hoa"])
        )

    def test_files_of_psyn_are_written_again_and_others_by_force(self):
        self.file("lift.hoa", PART)
        self.file("lift.parts", LIST)
        for endings in ((".aag", ".pg", ".cert", ".hoa"), ()):
            for ending in endings:
                self.file(f"out{ending}", b"")
            self.assertEqual(self.tool("synth", "--parts", "-o", "out", "lift.parts").returncode, 10)
        for ending in (".aag", ".pg", ".cert", ".hoa"):
            written = self.read(f"out{ending}")
            self.file(f"out{ending}", b"mine\n")
            self.assertIn(
                f"out{ending} is there, and psyn has not written it",
                self.refused("synth", "--parts", "-o", "out", "lift.parts"),
            )
            self.assertEqual(self.read(f"out{ending}"), b"mine\n")
            self.assertEqual(self.tool("synth", "--force", "--parts", "-o", "out", "lift.parts").returncode, 10)
            self.assertEqual(self.read(f"out{ending}"), written)

    def test_a_stimulus_and_a_certificate_of_mine(self):
        spec = self.file("it.hoa", AUTOMATON)
        self.assertEqual(self.tool("synth", "-o", "out", spec).returncode, 10)
        self.assertIn("out.cert would be written", self.refused("synth", "--cert", "-o", "out", spec, "out.cert"))
        self.file("out.stim", b"1\n0\n")
        self.assertEqual(
            self.refused("play", "--auto", "out", spec),
            "play: out.stim is there, and psyn has not written it: --force writes over it",
        )
        self.assertEqual(self.read("out.stim"), b"1\n0\n")
        self.assertEqual(
            [self.tool("play", "--auto", *more, "out", spec).returncode for more in (["--force"], [])], [0, 0]
        )
        self.assertEqual(self.tool("lasso", spec, "out.aag", "out.stim").stdout, b"accepted stem 0 lap 1\n")

    def test_files_that_are_named(self):
        spec = self.file("it.hoa", AUTOMATON)
        for flag in ("--wave", "--stimulus"):
            self.assertIn(
                "it.hoa would be written", self.refused("verify", flag, "it.hoa", spec, self.file("circuit", CIRCUIT))
            )
        game, wrong = (
            self.file("it.pg", b"0 1 0 0,1; 1 2 0 0;\n"), self.file("it.sol", b"paritysol 1;\n0 0 0;\n1 0 0;\n")
        )
        self.assertIn("it.sol would be written", self.refused("judge", "--picture", "it.sol", game, wrong))


class Letters(OnFiles):
    def test_letters_by_names(self):
        self.file("c", b"aag 3 3 0 1 0\n2\n4\n6\n2\ni0 clk\ni1 a  b\ni2 push\no0 o\n")
        for stimulus, said in (
            (b"push\nclk  push\n!clk\na  b\n101\n", b"|001|0\n|101|1\n|000|0\n|010|0\n|101|1\n"),
            (b"# by hand\n100\n# again\n!push clk\n", b"|100|1\n|100|1\n"),
        ):
            self.assertEqual(self.tool("sim", "c", "-", given=stimulus).stdout, said)
        for stimulus, said in (
            (b"000\npsh\n", b":2: the circuit has no input psh (did you mean push?)"),
            (b"push x1\n", b":1: the circuit has no input x1"),
        ):
            done = self.tool("sim", "c", "-", given=stimulus)
            self.assertEqual(
                (done.returncode, done.stdout, done.stderr), (2, b"", b"psyn: standard input" + said + b"\n")
            )

    def test_places_behind_letters_by_names(self):
        self.file("c", b"aag 1 1 0 1 0\n2\n2\ni0 push\no0 o\n")
        for stimulus, fault, said in (
            (b"# x\npush\n11\n", b"fault 70 Width at 2", b":3:1: Width\n  11\n"), (b"push\n?\n", b"fault 7", b":2:1: ")
        ):
            done = self.tool("sim", "c", "-", given=stimulus)
            self.assertEqual(done.returncode, 1)
            self.assertIn(fault, done.stdout)
            self.assertIn(b"standard input" + said, done.stderr)
        wave = self.tool("wave", "c", "-", given=b"push\n-\n!push\n")
        self.assertEqual((wave.returncode, wave.stderr), (0, b""))


if __name__ == "__main__":
    unittest.main()
