"""`synth --automaton` of a specification in temporal logic, which writes the files that belong to the automaton that
`translate` prints, and `agree` of the tool, which tells a difference as a table."""
import os
import stat
import subprocess
import unittest

from psyntool.program import path as program
from tests.tool import OnFiles

SPEC = (
    "INFO {{ TITLE: \"it\" SEMANTICS: {0} TARGET: {0} }}\nMAIN {{\n  OUTPUTS {{ g; }}\n  INPUTS {{ r; s; }}\n  "
    "REQUIRE {{ !s; }}\n  GUARANTEE {{\n    {1};\n    G (r -> F g);\n  }}\n}}\n"
)
# Answers 75 to `translate`, and hands other commands on to the program.
WITHOUT = (
    "#!/bin/sh\nread -r line\nif [ \"$line\" = translate ]; then cat > /dev/null; echo 'fault 75 NotTranslated'; "
    "exit 1; fi\n{ echo \"$line\"; cat; } | "
)
ENDINGS = (".aag", ".pg", ".cert", ".hoa")


class Written(OnFiles):
    def spec(self, order, sentence):
        return self.file("it.tlsf", SPEC.format(order, sentence).encode())

    def asked(self, words, *names):
        """The program's answer to files."""
        texts = []
        for name in names:
            with open(os.path.join(self.room, name), "rb") as file:
                texts.append(file.read())
        return subprocess.run(
            [program()], input=f"{words}\n".encode() + b"%%\n".join(texts), stdout=subprocess.PIPE, check=False
        ).stdout

    def content(self, ending):
        with open(os.path.join(self.room, f"out{ending}"), "rb") as file:
            return file.read()

    def test_all_files_belong_together(self):
        for order, sentence, env in (
            ("Mealy", "G (g -> r)", ""), ("Mealy", "G (g <-> X r)", " --env"), ("Moore", "G (g <-> r)", " --env"),
            ("Moore", "G (r -> X g)", ""),
        ):
            with self.subTest(order=order, sentence=sentence):
                self.spec(order, sentence)
                done = self.tool("synth", "--automaton", "--force", "-o", "out", "it.tlsf")
                word = b"UNREALIZABLE\n" if env else b"REALIZABLE\n"
                self.assertEqual((done.stdout, done.returncode), (word, 20 if env else 10))
                self.assertEqual(self.asked(f"verify --tlsf{env}", "it.tlsf", "out.aag"), b"wins\n")
                self.assertEqual(self.asked("agree", "it.tlsf", "out.hoa"), b"agrees\n")
                self.assertEqual(self.asked("check", "out.pg", "out.cert"), b"valid\n")
                answer = self.asked(f"synth --full --cert{' --moore' * (order == 'Moore')}", "out.hoa", "out.cert")
                circuit = self.content(".aag").removesuffix(b"c\nwritten by psyn\n")
                self.assertEqual(answer, word + b"%%\n".join([circuit, self.content(".pg"), self.content(".cert")]))

    def test_commands_read_them(self):
        self.spec("Mealy", "G (g -> X !g)")
        self.assertEqual(self.tool("synth", "--automaton", "-o", "out", "it.tlsf").returncode, 10)
        self.assertIn(b"lasso: accepted", self.tool("play", "--auto", "--force", "out", "out.hoa").stdout)
        self.assertIn(b"lasso: satisfied", self.tool("play", "--auto", "--force", "out", "it.tlsf").stdout)
        page = self.tool("page", "out", "it.tlsf")
        self.assertEqual((page.stderr, page.returncode), (b"", 0))
        self.assertTrue(b'download="out.hoa"' in page.stdout)
        self.assertEqual(self.tool("core", "it.tlsf").stdout.splitlines()[0], b"REALIZABLE")
        # the files are psyn's own, which a later run writes over
        self.assertEqual(self.tool("synth", "-o", "out", "it.tlsf").returncode, 10)

    def test_the_circuit_alone_serves_play_and_page(self):
        path = self.file("psyn", f"{WITHOUT}{program()}\n".encode())
        os.chmod(path, stat.S_IRWXU)
        for order, sentence in (("Mealy", "G (g -> X !g)"), ("Moore", "G (g <-> r)")):
            self.spec(order, sentence)
            done = self.tool("synth", "--force", "-o", "out", "it.tlsf", environment={"PSYN": path})
            self.assertEqual((done.stderr, done.stdout.count(b"REALIZABLE")), (b"", 1))
            self.assertEqual(sorted(os.listdir(self.room)), ["it.tlsf", "out.aag", "psyn"])
            self.assertIn(b"lasso: ", self.tool("play", "--auto", "--force", "out", "it.tlsf").stdout)
            page = self.tool("page", "out", "it.tlsf")
            self.assertEqual((page.stderr, page.returncode, page.stdout.count(b"</html>")), (b"", 0, 1))
            os.remove(os.path.join(self.room, "out.stim"))

    def test_files_of_another_specification_are_not_read(self):
        self.spec("Mealy", "G (g -> X !g)")
        self.tool("synth", "--automaton", "-o", "out", "it.tlsf")
        self.spec("Mealy", "G (g -> X X !g)")
        self.assertEqual(self.tool("synth", "-o", "out", "it.tlsf").stdout, b"REALIZABLE\n")
        page = self.tool("page", "out", "it.tlsf")
        self.assertEqual((page.stderr, page.returncode, page.stdout.count(b"</html>")), (b"", 0, 1))

    def test_the_flag_is_for_files_of_sentences(self):
        self.spec("Mealy", "true")
        self.file("it.hoa", self.tool("translate", "it.tlsf").stdout)
        for words, told in ((["it.tlsf"], "-o PREFIX"), (["-o", "out", "it.hoa"], "--tlsf")):
            done = self.tool("synth", "--automaton", *words)
            said = f"psyn: synth --automaton wants {told}\n"
            self.assertEqual((done.stdout, done.stderr.decode(), done.returncode), (b"", said, 2))

    def test_a_smaller_circuit_and_sentences(self):
        sentences = "--formula", "G (r -> F g)", "--formula", "G (g -> X !g)", "--outs", "g"
        done = self.tool("synth", "--small", "--automaton", *sentences, "-o", "out")
        self.assertEqual(done.stdout, b"REALIZABLE\n")
        self.assertEqual(sorted(os.listdir(self.room)), sorted(f"out{ending}" for ending in (*ENDINGS, ".tlsf")))
        self.assertEqual(self.tool("verify", "out.tlsf", "out.aag").stdout, b"wins\n")

    def test_without_an_automaton_the_circuit_is_written(self):
        path = self.file("psyn", f"{WITHOUT}{program()}\n".encode())
        os.chmod(path, stat.S_IRWXU)
        self.spec("Mealy", "true")
        done = self.tool("synth", "--automaton", "-o", "out", "it.tlsf", environment={"PSYN": path})
        self.assertEqual((done.stdout, done.returncode), (b"REALIZABLE\n", 10))
        self.assertIn(
            b"no automaton is printed (fault 75 of translate), so of the circuit's files only out.aag is written\n",
            done.stderr,
        )
        self.assertEqual(sorted(os.listdir(self.room)), ["it.tlsf", "out.aag", "psyn"])
        self.assertEqual(self.tool("verify", "it.tlsf", "out.aag").stdout, b"wins\n")


class Differing(OnFiles):
    def told(self, sentence, other):
        """What `agree` tells of a specification, and an automaton of another one."""
        self.file("other.tlsf", SPEC.format("Mealy", other).replace("REQUIRE { !s; }", "").encode())
        self.file("it.hoa", self.tool("translate", "other.tlsf").stdout)
        self.file("it.tlsf", SPEC.format("Mealy", sentence).encode())
        done = self.tool("agree", "it.tlsf", "it.hoa")
        return done.stdout.decode().splitlines(), done.stderr.decode().splitlines()

    def test_a_violated_sentence(self):
        answer, told = self.told("G (r -> X g)", "true")
        self.assertEqual(answer[0], "accepts")
        self.assertEqual(told[0], "the automaton accepts this word, which violates the specification")
        self.assertEqual(told[1].split(), ["step", "state", "letter", "sets"])
        digits = [row for row in answer[1:] if row != "-"]
        letters = [" ".join("!" * (digit == "0") + name for digit, name in zip(row, "grs")) for row in digits]
        rows = [line for line in told[2:] if line[:1].isdigit()]
        self.assertEqual([said for said, row in zip(letters, rows, strict=True) if f"  {said}" not in row], [])
        self.assertEqual((told[-2].split(" ", 2)[2], told[-1]), ("breaks the guarantee of line 7", "  G (r -> X g)"))

    def test_a_violated_assumption(self):
        answer, told = self.told("true", "G (g || !g)")
        self.assertEqual(answer[0], "rejects")
        self.assertEqual(told[0], "the automaton rejects this word, which satisfies the specification")
        self.assertEqual(told[-2:], ["step 0 breaks the assumption of line 5", "  !s"])

    def test_the_program_confirms_each_sentence(self):
        self.file("it.tlsf", SPEC.format("Mealy", "G (r -> X g)").encode())
        self.file(
            "it.hoa", b'HOA: v1 Start: 0 AP: 1 "r" controllable-AP: Acceptance: 0 t --BODY-- State: 0 [t] 0 --END--\n'
        )
        done = self.tool("agree", "--quiet", "it.tlsf", "it.hoa")
        self.assertEqual((done.stdout.split(b"\n")[0], done.stderr), (b"accepts", b""))
        self.assertEqual(self.tool("agree", "--check", "it.tlsf", "it.hoa").returncode, 3)


if __name__ == "__main__":
    unittest.main()
