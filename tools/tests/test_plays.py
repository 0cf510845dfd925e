"""Plays against circuits that psyn printed: the output for each typed line, and that each play ends with the program's
verdict."""
import os
import pty
import random
import re
import subprocess
import sys
import unittest

from psyntool import program
from psyntool.commands import play as command
from psyntool.pages import contents
from psyntool.parts import part
from psyntool.parts.composing import Composer
from psyntool.parts.specification import Specification
from psyntool.plays import opponents, telling
from psyntool.plays.board import Board, Match
from psyntool.plays.play import Play
from psyntool.texts import automaton, certificate, circuit, game, report
from tests.test_cores import CONFLICT
from tests.test_parts import PARTS, Table
from tests.tool import AUTOMATON, TOOL, OnFiles

AUTO = """\
step  state                                           environment  controller  priority
0     no r1 waits; g0 is next; no r0 before           r1           -           2
1     r1 waits for 1 step; g0 is next; no r0 before   r1           -           2
2     r1 waits for 2 steps; g0 is next; no r0 before  r1           -           2
3     r1 waits for 3 steps; g0 is next; no r0 before  r1           -           no edge
at step 3 there is no edge: the automaton rejects, whatever follows
step 3 breaks the guarantee answered-within-3(r1,g1)
  behind each r1 comes g1, at most 3 steps later
few.stim has these letters of the controller; lasso: rejected stem 3 lap 1
"""
BEGIN = """\
You are the controller, and the environment has a circuit that wins.
Type the number of a choice, or the names of your propositions that are to be true, `-` for none;
a for the choice with `*`, which holds out longest; b for one step back; e to end where a state has come again; q to \
leave.

step 0: no r1 waits; g0 is next; no r0 before
the environment says r1
*  1  !g0 & !g1  -> r1 waits for 1 step; g0 is next; no r0 before (priority 2)
   2  !g0 & g1   -> no edge, since it breaks takes-turns(g0,g1)
   3  g0 & !g1   -> no edge, since it breaks at-most-one-step-after(r0,g0)
   4  g0 & g1    -> no edge, since it breaks takes-turns(g0,g1) and at-most-one-step-after(r0,g0)
> """
BROKEN = """\

step  state                                  environment  controller  priority
0     no r1 waits; g0 is next; no r0 before  r1           g0          no edge
at step 0 there is no edge: the automaton rejects, whatever follows
step 0 breaks the guarantee at-most-one-step-after(r0,g0)
  g0 is true only with r0 or one step after r0
few.stim has these letters of the controller; lasso: rejected stem 0 lap 1
"""
ENVIRONMENT = """\
You are the environment, and the controller has a circuit that wins.
Type the number of a choice, or the names of your propositions that are to be true, `-` for none;
a for the choice with `*`, which holds out longest; b for one step back; e to end where a state has come again; q to \
leave.

step 0: off
*  1  -  -> off (priority 2)
   2  r  -> off (priority 2)
> 
if the play ends here (e), step 0 comes again and again; the greatest priority there is 2, even: the automaton accepts
step 1: off (priority 2)
*  1  -  -> off (priority 2)
   2  r  -> off (priority 2)
> 
step  state  environment  controller  priority
the loop begins
0     off    r            g           2
step 0 comes again and again; the greatest priority there is 2, even: the automaton accepts
out.stim has these letters of the environment; lasso: accepted stem 0 lap 1
"""
LAMP = (
    b'HOA: v1 Start: 0 AP: 2 "r" "g" controllable-AP: 1 Acceptance: 0 t --BODY-- State: 0 "dark" [!1] 0 [1] 1 State: '
    b'1 "light" [!1] 0 [1] 1 --END--\n'
)
# What an environment does, in words.
DEFEATED = r"\Awhatever the controller does, this defeats it: .* always 1.*\n"
LEFT = "the play is left; no stimulus is written\n"


class Commands(OnFiles):
    def setUp(self):
        super().setUp()
        os.symlink(PARTS, os.path.join(self.room, "parts"))

    def conflict(self):
        self.tool("core", "-o", "few", self.file("it.parts", CONFLICT.encode()))
        self.assertEqual(self.tool("synth", "-o", "few", "few.hoa").returncode, 20)

    def played(self, *words, given=""):
        done = self.tool("play", *words, given=given.encode())
        self.assertEqual((done.returncode, re.sub(DEFEATED, "", done.stderr.decode())), (0, ""))
        return done.stdout.decode()

    def test_the_longest_play(self):
        self.conflict()
        self.assertEqual(self.played("--auto", "few", "few.hoa"), AUTO)
        with open(os.path.join(self.room, "few.stim"), encoding="utf-8") as file:
            self.assertEqual(file.read(), "# written by psyn\n00\n00\n00\n-\n00\n")
        self.assertEqual(
            self.tool("lasso", "--env", "few.hoa", "few.aag", "few.stim").stdout, b"rejected stem 4 lap 1\n"
        )

    def test_what_is_typed(self):
        self.conflict()
        for given in ("3\n", "g0\n", "g0 !g1", "1\nb\n3\n", "a\n-\nb\nb\nb\ng0\n"):
            said = self.played("few", "few.hoa", given=given)
            self.assertTrue(said.startswith(BEGIN), said)
            self.assertTrue(said.endswith(BROKEN), said)
            os.remove(os.path.join(self.room, "few.stim"))
        for given in ("", "q\n", "1\n"):
            self.assertTrue(self.played("few", "few.hoa", given=given).endswith(LEFT))
            self.assertFalse(os.path.exists(os.path.join(self.room, "few.stim")))
        for wrong in ("", "0", "5", "g2", "r0", "g0 x", "1 2", "²"):
            self.assertIn(
                f"> {wrong!r} is no choice. Type the number", self.played("few", "few.hoa", given=f"{wrong}\nq\n")
            )

    def test_the_environment_against_a_controller(self):
        self.tool("synth", "-o", "out", self.file("it.hoa", AUTOMATON))
        self.assertEqual(self.played("out", "it.hoa", given="2\n"), ENVIRONMENT)
        self.assertEqual(self.played("out", "it.hoa", given="2\ne\n"), ENVIRONMENT)

    def test_a_play_goes_on_behind_a_state_that_comes_again(self):
        self.tool("synth", "-o", "out", self.file("it.hoa", AUTOMATON))
        said = self.played("out", "it.hoa", given="e\n2\n1\n2\n2\ne\n1\n")
        self.assertIn("> no state has come again with the same latches, so the play has no end yet\n", said)
        self.assertIn(
            "\nsteps 0 to 3 come again and again; the greatest priority there is 2, even: the automaton accepts\n", said
        )
        with open(os.path.join(self.room, "out.stim"), encoding="utf-8") as file:
            self.assertEqual(file.read(), "# written by psyn\n-\n1\n0\n1\n1\n")
        self.assertTrue(self.played("out", "it.hoa", given="2\n2\nq\n").endswith(LEFT))

    def test_among_equal_moves_the_one_that_keeps_most_guarantees(self):
        """Two guarantees conflict. The third can be kept, though that does not delay the loss."""
        lines = ["--outs g x", "--assume parts/always.hoa --as it=r", "--guarantee parts/again-and-again.hoa --as it=x"]
        lines += [
            "--guarantee parts/always.hoa --as it=!x", "--guarantee parts/answered.hoa --as request=r answer=g", ""
        ]
        self.tool("synth", "--parts", "-o", "it", self.file("it.parts", "\n".join(lines).encode()))
        said = self.played("--auto", "it", "it.hoa")
        self.assertIn("\n0     no r waits; owed: again-and-again(x)  r            g           1\n", said)
        self.assertEqual(re.findall("never meets the guarantee (.*)", said), ["again-and-again(x)"])

    def test_another_circuit_leads_elsewhere(self):
        self.tool("synth", "-o", "out", self.file("it.hoa", LAMP))
        for output, state in (("0", "dark"), ("1", "light")):
            self.file("out.aag", f"aag 1 1 0 1 0\n2\n{output}\ni0 r\no0 g\n".encode())
            self.assertEqual(set(re.findall("-> (.*) [(]", self.played("out", "it.hoa", given="q\n"))), {state})

    def test_a_list_in_the_place_of_the_automaton(self):
        parts = self.file("it.parts", CONFLICT.encode())
        self.tool("synth", "-o", "all", self.file("all.hoa", self.tool("compose", parts).stdout))
        self.assertEqual(self.played("--auto", "all", parts), self.played("--auto", "all", "all.hoa"))

    def test_a_small_circuit_and_one_that_loses(self):
        """A controller that moves first need not be the one that was printed with the game."""
        turns = (
            b'HOA: v1 Start: 0 AP: 2 "r" "g" controllable-AP: 1 Acceptance: 1 Inf(0) --BODY-- State: '
            b'0 [!1] 0 {0} [1] 1 {0} State: 1 [!1] 0 {0} --END--\n'
        )
        self.tool("synth", "--moore", "-o", "out", self.file("it.hoa", turns))
        for literal, latch, lasso in (
            ("0", "0", "accepted stem 0 lap 1"), ("4", "5", "accepted stem 1 lap 2"), ("1", "0", "")
        ):
            self.file("out.aag", f"aag 2 1 1 1 0\n2\n4 {latch}\n{literal}\ni0 r\no0 g\n".encode())
            done = self.tool("play", "--auto", "--force", "out", "it.hoa")
            if lasso:
                self.assertIn(f"; lasso: {lasso}\n", done.stdout.decode(), done.stderr)
            else:
                said = b"psyn: out.aag loses, so there is no play against it: `verify` tells a counterexample\n"
                self.assertEqual((done.returncode, done.stdout, done.stderr), (2, b"", said))
        self.conflict()
        small = self.played("--auto", "few", "few.hoa")
        self.tool("synth", "--small", "-o", "few", "few.hoa")
        self.assertEqual(self.played("--auto", "few", "few.hoa"), small)

    def test_files_that_do_not_fit(self):
        self.conflict()
        other = self.file("it.hoa", AUTOMATON)
        for words, said in (
            (("few", other), b"the game is not that of this automaton: its vertices have other names"),
            (("none", other), b"none.aag: No such file or directory"),
            (("few", "few.pg"), b"few.pg is a game; play wants PREFIX and a specification"),
        ):
            done = self.tool("play", *words)
            self.assertEqual((done.returncode, done.stdout, done.stderr), (2, b"", b"psyn: " + said + b"\n"))
        self.tool("synth", "-o", "out", other)
        os.replace(os.path.join(self.room, "out.aag"), os.path.join(self.room, "few.aag"))
        self.assertIn(b"psyn: the circuit is not the one", self.tool("play", "few", "few.hoa").stderr)

    def test_on_a_terminal(self):
        self.conflict()
        ours, theirs = pty.openpty()
        running = subprocess.Popen(
            [sys.executable, TOOL, "play", "few", "few.hoa"], stdin=theirs, stdout=theirs, stderr=theirs, cwd=self.room
        )
        os.close(theirs)
        os.write(ours, b"3\n")
        said = b""
        try:
            while part := os.read(ours, 10_000):
                said += part
        except OSError:
            pass
        os.close(ours)
        self.assertEqual(running.wait(), 0)
        self.assertTrue(said.replace(b"\r\n", b"\n").endswith(BROKEN.encode()), said)


def boards(draw, count):
    """Random specifications that either player wins, in both orders of moves: for each the texts of the automaton and
    of the circuit, and the `Board` for plays."""
    names = ["a", "b", "c"]
    for number in range(count):
        sides = [
            tuple(
                part.part_of(f"part{place}", "", {}, Table(draw, names).text()) for place in range(draw.randint(1, 3))
            )
            for _ in range(2)
        ]
        whole = Specification(*sides, tuple(names), frozenset(draw.sample(names, 1)), number % 4 == 0)
        text = Composer(whole).composed().text()
        flags = " --moore" if number % 3 == 0 else ""
        said = report.read(program.ask(f"synth --full{flags}\n{text}".encode()).text)
        texts = circuit.read(said.parts[0]), game.read(said.parts[1]), certificate.read(said.parts[2])
        yield text, said.parts[0], Board(automaton.read(text), texts[1], texts[2], texts[0], whole)


class Drawn(unittest.TestCase):
    """For random specifications, `lasso` confirms how two plays end. One play takes the choices that should delay the
    loss longest (`Board.longest`), and the other takes random choices."""

    def test_drawn_specifications(self):
        draw, ends = random.Random(7), {}
        for text, printed, board in boards(draw, 40):
            for is_longest in (True, False):
                play = Play(Match(board, printed.encode()))
                choices = play.board.choices(play)
                self.assertEqual([play.board.aimed(play.now, choice) for choice in choices], choices)
                self.played(play, draw, is_longest)
                command.judged(play, text)
                told = telling.ended(play)
                self.look_at(play, told)
                ends[board.winner, play.loop is None] = ends.get((board.winner, play.loop is None), 0) + 1
        self.assertEqual(set(ends), {(0, False), (1, False), (1, True)})

    def test_smaller_circuits(self):
        """The same against what `shrink` makes of the circuit."""
        draw, ends = random.Random(8), {}
        for text, printed, board in boards(draw, 40):
            answer = program.ask(
                " ".join(["shrink", *opponents.flags_of(board)]).encode() + f"\n{text}%%\n{printed}".encode()
            )
            small = Board(
                board.automaton, board.game, board.certificate, circuit.read(answer.text), board.specification,
                known_by="shrink",
            )
            for is_longest in (True, False):
                play = Play(Match(small, answer.bytes))
                self.played(play, draw, is_longest)
                command.judged(play, text)
                self.look_at(play, telling.ended(play))
                ends[small.winner, small.am_first] = ends.get((small.winner, small.am_first), 0) + 1
            self.assertTrue(contents.of(small)["names"])
        self.assertEqual(len(ends), 4)

    def played(self, play, draw, is_longest):
        while not play.is_over and play.loop is None:
            choices = play.board.choices(play)
            play.take((play.board.best(play, choices) if is_longest else draw.choice(choices)).letter)
        # the latches and the circuit's letters are those that the program finds
        match, lines = play.board, [step.digits for step in play.steps]
        given = match.circuit.text + b"%%\n" + "".join(f"{line}\n" for line in lines).encode()
        said = program.ask(b"sim\n" + given).text.splitlines()
        for step, row in zip(play.steps, said, strict=True):
            latches, _, outputs = row.split("|")
            letter = "".join("01"[step.letter[number]] for number in match.circuit.outputs)
            self.assertEqual((step.before.latches, letter), (latches, outputs))

    def look_at(self, play, told):
        """The lines about violated parts, which `play` prints at the end, agree with the winner. If the environment
        wins, a guarantee fails; if the controller wins, a guarantee fails only if an assumption fails too."""
        broken = [line for line in told[1:] if " the guarantee " in line]
        failed = [line for line in told[1:] if " the assumption " in line]
        if play.board.board.winner == 1:
            self.assertTrue(broken, told)
        elif broken:
            self.assertTrue(failed, told)


if __name__ == "__main__":
    unittest.main()
