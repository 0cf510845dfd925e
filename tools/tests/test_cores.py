"""Cores of specifications in parts: each core gives the stated answer, and no part of it can be left out."""
import os
import random
import unittest

from psyntool import cores
from psyntool.parts import part
from psyntool.parts.composing import ASSUMPTIONS_FAIL, Composer
from psyntool.parts.specification import Specification
from psyntool.program import path as program
from tests.test_parts import PARTS, Table
from tests.tool import OnFiles
from upkeep import rows, sweeps

CONFLICT = """\
--outs g0 g1
# No two grants at once.
--guarantee parts/never-together.hoa --as one=g0 other=g1

--guarantee parts/answered-within-3.hoa --as request=r0 answer=g0
--guarantee parts/answered-within-3.hoa --as request=r1 answer=g1
--guarantee parts/takes-turns.hoa --as one=g0 other=g1
--guarantee parts/at-most-one-step-after.hoa --as leader=r0 follower=g0
"""
CORE = """\
UNREALIZABLE
these guarantees conflict, and none of them can be left out:
  answered-within-3(r1,g1)       behind each r1 comes g1, at most 3 steps later
  takes-turns(g0,g1)             g0 and g1 are true in turn, g0 first
  at-most-one-step-after(r0,g0)  g0 is true only with r0 or one step after r0
"""
NEEDED = """\
REALIZABLE
this assumption suffices, and can't be left out:
  again-and-again(ready)  ready is true again and again
"""


class Commands(OnFiles):
    def setUp(self):
        super().setUp()
        os.symlink(PARTS, os.path.join(self.room, "parts"))

    def test_guarantees_that_conflict(self):
        done = self.tool("core", "-o", "few", self.file("it.parts", CONFLICT.encode()))
        self.assertEqual((done.stdout.decode(), done.returncode), (CORE, 20))
        self.assertEqual(self.tool("synth", "few.hoa").returncode, 20)
        with open(os.path.join(self.room, "few.hoa"), encoding="utf-8") as file:
            self.assertEqual(file.read().count("\npart: "), 3)

    def test_assumptions_that_are_needed(self):
        assumed = [
            "--assume", "parts/again-and-again.hoa", "--as", "it=ready", "--assume", "parts/again-and-again.hoa",
            "--as", "it=other",
        ]
        guaranteed = [
            "--guarantee", "parts/again-and-again.hoa", "--as", "it=g", "--guarantee",
            "parts/at-most-one-step-after.hoa", "--as", "leader=ready", "follower=g",
        ]
        done = self.tool("core", *assumed, *guaranteed, "--outs", "g")
        self.assertEqual((done.stdout.decode(), done.returncode, done.stderr), (NEEDED, 10, b""))
        done = self.tool("core", *assumed, *guaranteed[:4], "--outs", "g")
        self.assertEqual(
            (done.stdout, done.returncode), (b"REALIZABLE\nthere is a controller without any assumption\n", 10)
        )
        done = self.tool(
            "core", "--moore", *guaranteed[:4], "--guarantee", "parts/never-together.hoa", "--as", "one=g", "other=r",
            "--outs", "g",
        )
        said = b"UNREALIZABLE\nthese guarantees conflict, and none of them can be left out:\n"
        self.assertEqual((done.stdout[: len(said)], done.returncode), (said, 20))

    def test_one_guarantee_alone(self):
        guaranteed = ["--guarantee", "parts/always.hoa", "--guarantee", "parts/always.hoa", "--as", "it=r"]
        done = self.tool("core", "--assume", "parts/always.hoa", "--as", "it=e", *guaranteed, "--outs", "it")
        said = (
            "UNREALIZABLE\nunder all assumptions this guarantee can't be kept:\n  always(r)  r is true at each step\n"
        )
        self.assertEqual((done.stdout.decode(), done.returncode), (said, 20))


FAILS = """\
a controller can make the assumption always fail, so this one may win without keeping the guarantees
so it can play:
step  state  environment  controller  priority
0     0      -            -           0
step 0 breaks the assumption always
  it is true at each step
"""
BOUND = (
    b'HOA: v1 Start: 0 AP: 2 "open" "cmd" Acceptance: 0 t --BODY-- State: 0 "idle" [!0&!1] 0 [!0 & 1] 1 State: '
    b'1 "moving" [!0 & !1] 1 [0&!1] 0 --END--\n'
)
FAILS_LATER = """\
a controller can make the assumption ok fail, so this one may win without keeping the guarantees
so it can play:
step  state   environment  controller  priority
0     idle    -            cmd         1
1     moving  -            cmd         0
step 1 breaks the assumption ok
"""


class Circuits(OnFiles):
    """`synth` on specifications in parts: the answer is that of the composed automaton, and a line warns if a
    controller can make the assumptions fail."""

    def setUp(self):
        super().setUp()
        os.symlink(PARTS, os.path.join(self.room, "parts"))

    def test_the_answer_is_that_of_the_automaton(self):
        parts = self.file("it.parts", CONFLICT.encode())
        self.file("it.hoa", self.tool("compose", parts).stdout)
        for flags in ((), ("--moore",), ("--full",), ("--quiet",)):
            done, wanted = self.tool("synth", "--parts", *flags, parts), self.tool("synth", *flags, "it.hoa")
            self.assertEqual((done.stdout, done.returncode), (wanted.stdout, wanted.returncode))
        done = self.tool("synth", "--parts", "-o", "out", parts)
        self.assertEqual((done.stdout, done.returncode), (b"UNREALIZABLE\n", 20))
        for name, wanted in (
            ("out.hoa", self.tool("compose", parts).stdout), ("out.pg", self.tool("game", "it.hoa").stdout)
        ):
            with open(os.path.join(self.room, name), "rb") as file:
                self.assertEqual(file.read(), wanted)

    def test_a_controller_that_breaks_the_assumptions(self):
        words = ["--outs", "it", "--assume", "parts/always.hoa", "--guarantee", "parts/always.hoa", "--as", "it=r"]
        for command in ("synth", "synth --strict", "synth --moore", "synth -o out", "core", "page --parts"):
            done = self.tool(
                *command.split(),
                *([self.file("it.parts", " ".join(words).encode() + b"\n")] if "page" in command else words),
            )
            self.assertEqual(
                (done.returncode % 10, done.stderr.decode().split("in this controller")[0]), (0, FAILS), command
            )
        for command in ("synth", "core"):
            self.assertEqual(self.tool(command, "--quiet", *words).stderr, b"")
        for assumed in ([], ["--assume", "parts/always.hoa", "--as", "it=other"]):
            done = self.tool("synth", "--outs", "it", *assumed, "--guarantee", "parts/always.hoa")
            self.assertEqual(
                (done.returncode, done.stderr),
                (10, b"" if assumed else b"in this controller some outputs never change: it is 1\n"),
            )

    def test_the_assumption_that_can_fail_is_named_with_a_play(self):
        """Of three assumptions one can be made to fail: the environment is bound to what the controller says later."""
        self.file("ok.hoa", BOUND)
        assumed = [
            word
            for name in ("tick", "tock") for word in ("--assume", "parts/again-and-again.hoa", "--as", f"it={name}")
        ]
        done = self.tool(
            "core", *assumed[:4], "--assume", "ok.hoa", *assumed[4:], "--guarantee", "parts/answered.hoa", "--as",
            "request=tick", "answer=red", "--outs", "cmd", "red",
        )
        self.assertEqual((done.returncode, done.stderr.decode()), (10, FAILS_LATER))

    def test_a_certificate_is_for_an_automaton(self):
        done = self.tool("synth", "--cert", "--guarantee", "parts/always.hoa", "--outs", "it")
        self.assertEqual(
            (done.returncode, done.stderr), (2, b"psyn: --cert is for an automaton: compose makes one of parts\n")
        )

    def test_failing_assumptions_are_the_guarantee_false(self):
        draw, names, asked = random.Random(5), ["a", "b", "c"], []
        false = part.part_of(
            "false", "", {}, "HOA: v1 Start: 0 AP: 0 controllable-AP: Acceptance: 0 t --BODY-- State: 0 --END--"
        )
        for _ in range(40):
            sides = [
                tuple(
                    part.part_of(f"part{place}", "", {}, Table(draw, names).text())
                    for place in range(draw.randint(1, 3))
                )
                for _ in range(2)
            ]
            composer = Composer(
                Specification(sides[0], (*sides[1], false), tuple(names), frozenset(draw.sample(names, 2)), False)
            )
            texts = (
                composer.composed(sides[0], sides[1]).text(ASSUMPTIONS_FAIL),
                composer.composed(sides[0], [false]).text(),
            )
            asked += [rows.Row("false", f"synth\n{text}".encode(), 0) for text in texts]
        where = program()
        said = sweeps.at_once(lambda row: rows.answered(where, row)[1], asked)
        self.assertEqual(said[::2], said[1::2])
        self.assertEqual(set(said), {10, 20})


class Sets(unittest.TestCase):
    """A core is a minimal set of parts that decides whether there is a controller. The program is asked again about
    each core of a random specification, and about the core with each of its parts left out in turn."""

    def test_drawn_specifications(self):
        draw, names, asked, wanted = random.Random(6), ["a", "b", "c"], [], []
        while len(wanted) < 60:
            sides = [
                [part.part_of(f"part{place}", "", {}, Table(draw, names).text()) for place in range(draw.randint(1, 4))]
                for _ in range(2)
            ]
            whole = Specification(*map(tuple, sides), tuple(names), frozenset(["a"]), draw.random() < 0.3)
            found = cores.core_of(cores.of_parts(Composer(whole)))
            texts = [found.specification, *self.with_one_left_out(found)]
            asked += [rows.Row("a core", ("synth\n" + Composer(it).composed().text()).encode(), 0) for it in texts]
            wanted += [found.has_controller] + [not found.has_controller] * (len(texts) - 1)
        where = program()
        said = sweeps.at_once(lambda row: rows.answered(where, row)[1], asked)
        self.assertEqual(
            [place for place, (status, it) in enumerate(zip(said, wanted)) if status != (10 if it else 20)], []
        )

    def with_one_left_out(self, found):
        for place in range(len(found.parts)):
            fewer = cores.without(found.parts, place, 1)
            yield (
                found.specification.having(fewer, None)
                if found.has_controller
                else found.specification.having(None, fewer)
            )

    def test_what_is_asked_falls_with_the_size_of_the_core(self):
        for needed in ({3}, {0, 31}, {5, 6, 7}, set(), set(range(32))):
            asked = []

            def stays(parts, needed=needed, asked=asked):
                asked.append(parts)
                return needed <= set(parts)

            self.assertEqual(set(cores.shrunk(range(32), stays)), needed)
            self.assertLessEqual(len(asked), 64)
        self.assertEqual(cores.shrunk((), lambda parts: True), ())


if __name__ == "__main__":
    unittest.main()
