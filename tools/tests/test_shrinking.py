"""Tests `shrink`, `synth --small`, and the words for small environments: what is printed wins by `verify`, and is
smaller."""
import os
import shutil
import signal
import subprocess
import sys
import time
import unittest

from psyntool import limits, program, shrinking
from psyntool.ends import Unwritten
from psyntool.equations import telling
from psyntool.texts import circuit, report
from tests.test_cores import CONFLICT
from tests.test_parts import PARTS
from tests.tool import AUTOMATON, TOOL, OnFiles
from upkeep.sweeps import TOP

GALLERY = os.path.join(TOP, "examples", "gallery")
NEVER = b"aag 1 1 0 1 0\n2\n0\ni0 r\no0 g\n"
LATE = b"aag 6 1 2 1 3\n2\n4 2\n6 4\n12\n8 3 5\n10 8 7\n12 11 11\ni0 r\no0 g\n"
WORDS = "whatever the controller does, this defeats it: "
CONFLICT_TOLD = f"{WORDS}r1 is always 1, r0 is always 0\n"
# A program that answers `shrink` with what the variable SAID has, or is at work for ever, and passes other commands on.
ANOTHER = """\
#!/bin/bash
read -r line
case $line in
  shrink*) cat > /dev/null; while [ -z "$SAID" ]; do :; done; printf '%b' "$SAID"; exit "$STATUS" ;;
  *) (echo "$line"; cat) | 'PROGRAM' ;;
esac
"""


def listening():
    """Ctrl-C ends this process, also where the shell that began the tests did so with `&` and so ignores it."""
    signal.signal(signal.SIGINT, signal.SIG_DFL)


class OnCircuits(OnFiles):
    def size(self, text):
        made = circuit.read(text.decode())
        return len(made.latches), len(made.gates)

    def another(self, said, status=0):
        """The environment with a program that gives this answer to `shrink`."""
        path = self.file("another", ANOTHER.replace("PROGRAM", program.path()).encode())
        os.chmod(path, 0o755)
        return {"PSYN": path, "SAID": said, "STATUS": str(status)}


class Shrink(OnCircuits):
    def test_what_is_smaller_and_still_wins(self):
        spec = self.file("spec", AUTOMATON)
        more = {
            "gates": (
                b"aag 3 1 0 1 2\n2\n6\n4 2 2\n6 4 2\ni0 r\no0 g\n",
                b"gates: 2 before, 0 after; latches: 0 before, 0 after\n",
            ),
            "latches": (
                b"aag 2 1 1 1 0\n2\n4 4\n2\ni0 r\no0 g\n", b"gates: 0 before, 0 after; latches: 1 before, 0 after\n"
            ),
            "both": (LATE, b"gates: 3 before, 0 after; latches: 2 before, 0 after\n"),
            "binary": (b"aig 3 1 0 1 2\n6\n\x02\x00\x02\x02i0 r\no0 g\n", None),
        }
        for name, (text, said) in more.items():
            done = self.tool("shrink", spec, self.file(name, text))
            self.assertEqual((done.returncode, self.size(done.stdout)), (0, (0, 0)), done.stderr)
            self.assertEqual(self.tool("verify", spec, "-", given=done.stdout).stdout, b"wins\n")
            self.assertEqual(done.stderr, said or done.stderr)
            quiet = self.tool("shrink", "--quiet", spec, name)
            self.assertEqual((quiet.stdout, quiet.stderr), (done.stdout, b""))
        self.assertIn(b'"verdict": "wins"', self.tool("shrink", "--json", spec, "both").stdout)

    def test_a_circuit_that_loses_is_told_as_by_verify(self):
        spec, never = self.file("spec", AUTOMATON), self.file("never", NEVER)
        for flags in ([], ["--check"], ["--quiet"], ["--stimulus", "lost.stim", "--wave", "lost.vcd"]):
            done, wanted = (self.tool(command, *flags, spec, never) for command in ("shrink", "verify"))
            self.assertEqual(
                (done.stdout[:6], done.stdout, done.stderr, done.returncode),
                (b"loses\n", wanted.stdout, wanted.stderr, wanted.returncode),
            )
        self.assertEqual(self.tool("lasso", spec, never, "lost.stim").stdout[:9], b"rejected ")
        self.assertIn(b'"verdict": "loses", "stem": ', self.tool("shrink", "--json", spec, never).stdout)

    def test_an_environment(self):
        spec = self.file("spec", self.tool("compose", os.path.join(GALLERY, "handshake.parts")).stdout)
        made = self.file("made", self.tool("synth", "--quiet", spec).stdout)
        done = self.tool("shrink", "--env", spec, made)
        self.assertEqual((done.returncode, self.size(done.stdout)), (0, (0, 0)), done.stderr)
        self.assertEqual(self.tool("verify", "--env", spec, "-", given=done.stdout).stdout, b"wins\n")
        turned = self.tool("shrink", spec, made)
        self.assertEqual((turned.stdout, turned.returncode), (b"fault 72 Symbols\n", 1))
        self.assertIn(b"the symbols are those of an environment: ask with --env\n", turned.stderr)

    def test_texts_are_read_as_by_verify(self):
        spec = self.file("spec", AUTOMATON)
        clocked = self.file("clocked", b"REALIZABLE\naag 2 2 0 1 0\n2\n4\n4\ni0 clk\ni1 r\no0 g\n")
        done = self.tool("shrink", spec, clocked)
        self.assertEqual((done.returncode, self.size(done.stdout)), (0, (0, 0)))
        self.assertIn(b"input clk left out", done.stderr)
        other = self.tool("shrink", spec, self.file("other", b"aag 1 1 0 1 0\n2\n2\ni0 clk2\no0 g\ni1 x\n"))
        self.assertEqual(other.returncode, 1)
        twice = self.tool("shrink", spec, spec).stderr
        self.assertIn(f"{spec} is an automaton; shrink wants AUTOMATON CIRCUIT\n".encode(), twice)

    @unittest.skipUnless(any(map(shutil.which, shrinking.NAMES)), "abc is not installed")
    def test_abc_first(self):
        spec, late = self.file("spec", AUTOMATON), self.file("late", LATE)
        done = self.tool("shrink", "--abc", spec, late)
        self.assertEqual(
            (self.size(done.stdout), done.stderr), ((0, 0), b"gates: 3 before, 0 after; latches: 2 before, 0 after\n")
        )
        lost = self.tool("shrink", "--abc", "--quiet", spec, self.file("never", NEVER))
        self.assertEqual((lost.stdout[:6], lost.stderr, lost.returncode), (b"loses\n", b"", 0))
        empty = self.file(
            "all", b"HOA: v1 Start: 0 AP: 0 controllable-AP: Acceptance: 0 t --BODY-- State: 0 [t] 0 --END--\n"
        )
        self.assertEqual(
            self.tool("shrink", "--abc", empty, self.file("empty", b"aag 0 0 0 0 0\n")).stdout, b"aag 0 0 0 0 0\n"
        )

    def test_without_abc(self):
        done = self.tool(
            "shrink", "--abc", self.file("spec", AUTOMATON), "-", environment={"PATH": os.path.join(self.room, "none")}
        )
        self.assertEqual((done.stdout, done.returncode, done.stderr.count(b"\n")), (b"", 2, 1))
        self.assertIn(b"shrink --abc needs abc", done.stderr)


class Small(OnCircuits):
    """`synth --small`."""

    def test_the_answer_is_that_of_synth_with_another_circuit(self):
        for name in ("arbiter", "buffer", "handshake"):
            parts = os.path.join(GALLERY, f"{name}.parts")
            spec = self.file(f"{name}.hoa", self.tool("compose", parts).stdout)
            whole, small = (
                report.read(self.tool("synth", "--full", "--quiet", *flags, spec).stdout.decode())
                for flags in ([], ["--small"])
            )
            self.assertEqual((small.word, small.parts[1:]), (whole.word, whole.parts[1:]))
            self.assertLess(sum(self.size(small.parts[0].encode())), sum(self.size(whole.parts[0].encode())))
            env = ["--env"] if small.word == "UNREALIZABLE" else []
            self.assertEqual(self.tool("verify", *env, spec, "-", given=small.parts[0].encode()).stdout, b"wins\n")
            stored = self.tool("synth", "--small", "--parts", "-o", name, parts)
            self.assertEqual((stored.stdout.decode(), stored.returncode), (f"{small.word}\n", 20 if env else 10))
            with open(os.path.join(self.room, f"{name}.aag"), encoding="utf-8") as file:
                self.assertEqual(file.read(), f"{small.parts[0]}c\nwritten by psyn\n")
            self.assertRegex(
                stored.stderr.decode(), r"\Agates: \d+ before, \d+ after; latches: \d+ before, \d+ after\n"
            )

    def test_where_the_program_gives_none_the_circuit_stays(self):
        spec = self.file("it.hoa", AUTOMATON)
        wanted = self.tool("synth", spec)
        for said, status, told in (
            ("fault 24 Memory\\n", 1, "fault 24 Memory"),
            ("loses\\n-\\n0\\n", 0, "loses"),
            ("?", 3, "the program ended with status 3 and no answer of psyn"),
        ):
            done = self.tool("synth", "--small", spec, environment=self.another(said, status))
            self.assertEqual((done.stdout, done.returncode), (wanted.stdout, 10), done.stderr)
            self.assertIn(f"psyn: the circuit stays as it is: shrink: {told}", done.stderr.decode())

    def test_inputs_that_it_does_not_need_are_named(self):
        spec = self.file("it.hoa", AUTOMATON)
        for literal, said in (
            (1, "in this controller some outputs never change: g is 1\nno output of this controller depends on r\n"),
            (2, ""),
        ):
            small = f"aag 1 1 0 1 0\n2\n{literal}\ni0 r\no0 g\n"
            done = self.tool("synth", "--small", spec, environment=self.another(small.replace("\n", "\\n")))
            sizes = "gates: 0 before, 0 after; latches: 0 before, 0 after\n"
            self.assertEqual((done.stdout.decode(), done.stderr.decode()), (f"REALIZABLE\n{small}", sizes + said))

    def test_a_fault_of_synth_is_its_fault(self):
        done, wanted = (self.tool("synth", *flags, self.file("it", b"HOA: v2\n")) for flags in (["--small"], []))
        self.assertEqual((done.stdout, done.stderr, done.returncode), (wanted.stdout, wanted.stderr, 1))


# A program that answers the first `shrink` of a folder with what SAID has, and hangs in the second one.
HANGING = """\
#!/bin/bash
read -r line
case $line in
  shrink*) cat > /dev/null
    if [ -e begun ] || [ -z "$SAID" ]; then echo $$ > hangs; exec sleep 60; fi
    touch begun; printf '%b' "$SAID" ;;
  *) (echo "$line"; cat) | 'PROGRAM' ;;
esac
"""
BEFORE = b"aag 3 1 0 1 2\n2\n6\n4 2 2\n6 4 2\ni0 r\no0 g\n"
SMALLER = "aag 2 1 0 1 1\n2\n4\n4 2 2\ni0 r\no0 g\n"


class Stopped(OnCircuits):
    """What is known is kept where the time ends or a signal comes."""

    def setUp(self):
        super().setUp()
        self.file("psyn", HANGING.replace("PROGRAM", program.path()).encode())
        os.chmod(os.path.join(self.room, "psyn"), 0o755)
        self.file("it.hoa", AUTOMATON)
        self.file("it.aag", BEFORE)
        os.symlink(os.path.join(TOP, "examples", "files", "arbiter.hoa"), os.path.join(self.room, "arbiter.hoa"))

    def ended(self, said, *words, by=None):
        """The output, the lines on standard error, and the status of a run that is ended in a hanging `shrink`."""
        for name in ("begun", "hangs"):
            if os.path.exists(os.path.join(self.room, name)):
                os.remove(os.path.join(self.room, name))
        environment = {**os.environ, "PSYN": "./psyn", "SAID": said.replace("\n", "\\n")}
        command = [sys.executable, TOOL, *words, *([] if by else ["--time", "2"])]
        streams = {"stdout": subprocess.PIPE, "stderr": subprocess.PIPE}
        with subprocess.Popen(command, cwd=self.room, env=environment, preexec_fn=listening, **streams) as child:
            until = time.monotonic() + 60
            while by and not os.path.exists(os.path.join(self.room, "hangs")) and time.monotonic() < until:
                time.sleep(0.02)
            if by:
                child.send_signal(by)
            out, told = child.communicate(timeout=60)
        return out.decode(), told.decode().splitlines(), child.returncode

    def test_synth_prints_the_circuit_of_the_last_round(self):
        late, plain = "no answer within 2 s (--time)", self.tool("synth", "--quiet", "arbiter.hoa").stdout.decode()
        tiny = "aag 1 1 0 1 0\n2\n1\ni0 r\no0 g\n"
        for by, why, status in ((None, late, 10), (signal.SIGINT, "stopped by Ctrl-C", -signal.SIGINT)):
            out, told, ended = self.ended("", "synth", "--small", "arbiter.hoa", by=by)
            self.assertEqual((out, told[:1], ended), (plain, [f"psyn: the circuit stays as it is: {why}"], status))
            out, told, ended = self.ended(tiny, "synth", "--small", "arbiter.hoa", "-o", "it", "--force", by=by)
            self.assertEqual((out, ended), ("REALIZABLE\n", status))
            self.assertEqual(told[0], f"psyn: the circuit is that of round 1: {why}")
            with open(os.path.join(self.room, "it.aag"), encoding="utf-8") as file:
                self.assertEqual(file.read(), f"{tiny}c\nwritten by psyn\n")

    def test_shrink_does_so_too(self):
        for by, why, status in (
            (None, "no answer within 2 s (--time)", 0),
            (signal.SIGTERM, "ended by TERM", -signal.SIGTERM),
        ):
            out, told, ended = self.ended("", "shrink", "it.hoa", "it.aag", by=by)
            self.assertEqual(
                (out, told, ended), (BEFORE.decode(), [f"psyn: the circuit stays as it is: {why}"], status)
            )
            out, told, ended = self.ended(SMALLER, "shrink", "it.hoa", "it.aag", by=by)
            self.assertEqual((out, told[0], ended), (SMALLER, f"psyn: the circuit is that of round 1: {why}", status))
            self.assertEqual(told[1], "gates: 2 before, 1 after; latches: 0 before, 0 after")

    def test_each_and_json_print_their_lines(self):
        out, _, ended = self.ended("", "each", "synth", "--small", "--quiet", "it.hoa", "it.hoa", by=signal.SIGINT)
        self.assertEqual((out, ended), ("it.hoa: REALIZABLE\n", -signal.SIGINT))
        out, _, _ = self.ended("", "--json", "shrink", "it.hoa", "it.aag", by=signal.SIGINT)
        self.assertIn('"verdict": "wins"', out)

    def test_rounds_end_where_one_makes_it_no_smaller(self):
        stages = self.tool("shrink", "--progress", "it.hoa", "it.aag").stderr.decode().splitlines()
        titles = [line.removesuffix(": 0 s") for line in stages if line.endswith(" s")]
        self.assertEqual(titles, ["verify", "shrink, round 1", "shrink, round 2"])
        self.assertEqual(stages[-1], "gates: 2 before, 0 after; latches: 0 before, 0 after")


class Told(OnCircuits):
    """The words for an environment."""

    def setUp(self):
        super().setUp()
        os.symlink(PARTS, os.path.join(self.room, "parts"))
        self.parts = self.file("it.parts", CONFLICT.encode())

    def test_synth_of_parts_and_core_end_with_them(self):
        for command in (
            ["synth", "--parts"], ["synth", "--parts", "-o", "out"], ["synth", "--parts", "--small"], ["core"]
        ):
            said = self.tool(*command, self.parts).stderr.decode()
            self.assertTrue(said.endswith(CONFLICT_TOLD), said)
            self.assertEqual(self.tool(*command, "--quiet", self.parts).stderr, b"")
        self.assertEqual(self.tool("synth", self.file("it.hoa", self.tool("compose", self.parts).stdout)).stderr, b"")

    def test_environments_of_the_gallery_have_no_latch(self):
        for name in ("handshake", "lift-deadline"):
            done = self.tool("synth", "--parts", "--small", os.path.join(GALLERY, f"{name}.parts"))
            self.assertEqual((self.size(done.stdout.partition(b"\n")[2]), done.returncode), ((0, 0), 20))
            self.assertIn(WORDS, done.stderr.decode())

    def test_none_where_it_is_too_large_or_not_there(self):
        many = "aag 14 1 0 1 13\\n2\\n28\\n" + "".join(f"{2 * place} {2 * place - 2} 2\\n" for place in range(2, 15))
        latches = "aag 6 1 5 1 0\\n2\\n" + "".join(f"{2 * place} {2 * place - 2}\\n" for place in range(2, 7)) + "12\\n"
        for said, status in ((many, 0), (latches, 0), ("fault 24 Memory\\n", 1), ("?", 0)):
            done = self.tool("synth", "--parts", self.parts, environment=self.another(said, status))
            self.assertEqual((done.stdout[:13], done.stderr, done.returncode), (b"UNREALIZABLE\n", b"", 20))

    def test_a_search_that_takes_long_is_left(self):
        before, os.environ["PSYN"] = os.environ.get("PSYN"), self.another("")["PSYN"]
        try:
            self.assertIn("was ended by", limits.briefly(1, program.ask, b"shrink\n").died)
            self.assertEqual(limits.briefly(60, program.ask, b"sim\naag 0 0 0 0 0\n%%\n").died, "")
            program.last_moment = program.LastMoment(time.monotonic() + 0.5, "late")
            with self.assertRaisesRegex(Unwritten, "late"):
                limits.briefly(60, program.ask, b"shrink\n")
        finally:
            program.last_moment = None
            os.environ.pop("PSYN")
            os.environ.update({"PSYN": before} if before else {})
        self.assertIsNone(program.most_processor)

    def test_sentences_and_equations(self):
        for text, lines in (
            ("aag 1 1 0 3 0\n2\n1\n0\n1\no0 a\no1 b\no2 c\n", ["it: a and c are always 1, b is always 0"]),
            ("aag 1 1 0 3 0\n2\n1\n1\n1\no0 a\no1 b\no2 c\n", ["it: a, b and c are always 1"]),
            ("aag 2 1 1 2 0\n2\n4 5\n5\n0\ni0 g\no0 a\no1 b\n", ["it: a is 1 and 0 in turn, 1 first, b is always 0"]),
            (
                "aag 2 1 1 2 0\n2\n4 2 1\n4\n3\ni0 g\no0 a\no1 b\n",
                ["it: a is what g was one step before (1 in the first step), b is the opposite of g of the same step"],
            ),
            ("aag 0 0 0 0 0\n", ["it: nothing, since it has nothing to say"]),
            (
                "aag 4 2 1 2 1\n2\n4\n6 9\n9\n1\n8 3 7\ni0 g\ni1 h\no0 a\no1 l0\n",
                [
                    "it:",
                    "  a = g | l0_2",
                    "  l0 is always 1",
                    "  l0_2 is what a was one step before (0 in the first step)",
                ],
            ),
            (
                "aag 5 2 1 1 2\n2\n4\n6 11\n8\n8 3 6\n10 2 7\ni0 g\ni1 h\no0 a\n",
                [
                    "it:",
                    "  a = !g & l0",
                    "  l0 is 0 in the first step, and then what this was one step before: !g | l0",
                ],
            ),
            (
                "aag 4 1 1 3 1\n2\n4 9\n4\n9\n4\n8 3 5\ni0 g\no0 a\no1 b\no2 c\n",
                [
                    "it:",
                    "  a is what b was one step before (0 in the first step)",
                    "  b = g | a",
                    "  c is what b was one step before (0 in the first step)",
                ],
            ),
            (
                "aag 5 1 2 1 1\n2\n4 7\n6 10\n4\n10 2 7\ni0 g\no0 a\n",
                [
                    "it:",
                    "  a is 0 in the first step, and then what this was one step before: !l1",
                    "  l1 is 0 in the first step, and then what this was one step before: g & !l1",
                ],
            ),
        ):
            self.assertEqual(telling.lines(circuit.read(text), "it:"), lines)


if __name__ == "__main__":
    unittest.main()
