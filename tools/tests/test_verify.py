"""Compares `verify` with an enumeration of the product of automaton and circuit; `lasso` confirms each
counterexample."""
import itertools
import os
import random
import sys
import unittest

from psyntool.program import path as program
from tests import changes, products
from tests.tool import AUTOMATON, OnFiles
from upkeep.sweeps import TOP

sys.path.insert(0, os.path.join(TOP, "bench"))

import verify  # noqa: E402

CONDITIONS = [
    "0 t", "0 f", "1 Inf(0)", "1 Fin(0)", "2 Inf(0) | Fin(1)", "2 Fin(0) & Inf(1)", "3 Inf(0) | Fin(1) & Inf(2)",
    "3 Fin(2) & (Inf(1) | Fin(0))",
]
AUTOMATA = 40
LITERALS = 4


def drawn(chance):
    """The text of a random automaton with few states and propositions, and at most one edge for each letter of a
    state."""
    names, states = chance.randrange(4), chance.randrange(1, 4)
    condition = chance.choice(CONDITIONS)
    sets = int(condition.split()[0])
    mine = sorted(chance.sample(range(names), chance.randrange(names + 1)))
    lines = [
        f"HOA: v1\nStates: {states}\nStart: {chance.randrange(states)}",
        " ".join(["AP:", str(names), *(f'"p{number}"' for number in range(names))]),
        " ".join(["controllable-AP:", *map(str, mine)]),
        f"Acceptance: {condition}\n--BODY--",
    ]
    for state in range(states):
        lines.append(f"State: {state}")
        for letter in range(1 << names):
            if chance.random() < 0.9:
                said = "&".join(f"{'' if letter >> number & 1 else '!'}{number}" for number in range(names)) or "t"
                marks = " ".join(str(mark) for mark in range(sets) if chance.random() < 0.5)
                lines.append(f"[{said}] {chance.randrange(states)} {{{marks}}}")
    return "\n".join([*lines, "--END--\n"])


def drawn_condition(chance, depth):
    """A random acceptance condition over three sets."""
    if depth == 0 or chance.random() < 0.2:
        return (
            chance.choice([True, False])
            if chance.random() < 0.1
            else (chance.choice(["Inf", "Fin"]), chance.randrange(3))
        )
    return chance.choice("&|"), [drawn_condition(chance, depth - 1) for _ in range(chance.randrange(2, 4))]


def is_cycle(links):
    """Whether some cycle takes each of the given links (source, target, acceptance sets), and no other link."""
    begins = {source for source, _, _ in links}
    edges = {source: [(target, ()) for origin, target, _ in links if origin == source] for source in begins}
    return begins == {target for _, target, _ in links} and len(set(products.components(edges).values())) == 1


class Loops(unittest.TestCase):
    def test_all_cycles_of_drawn_graphs(self):
        """For true and for false, `has_loop` finds a cycle at which the condition has this value exactly if a search
        through all sets of links finds one."""
        chance, told = random.Random("loops"), {}
        for _ in range(1000):
            count = chance.randrange(1, 4)
            ends = [(chance.randrange(count), chance.randrange(count)) for _ in range(chance.randrange(1, 6))]
            links = [(*one, frozenset(mark for mark in range(3) if chance.random() < 0.4)) for one in ends]
            condition = drawn_condition(chance, 2)
            some = [
                those
                for size in range(1, len(links) + 1) for those in itertools.combinations(links, size) if is_cycle(those)
            ]
            truths = {products.holds(condition, frozenset().union(*(marks for _, _, marks in those))) for those in some}
            edges = {
                vertex: [(target, marks) for source, target, marks in links if source == vertex]
                for vertex in range(count)
            }
            for truth in (True, False):
                self.assertEqual(products.has_loop(edges, condition, truth), truth in truths, (edges, condition, truth))
            told[frozenset(truths)] = told.get(frozenset(truths), 0) + 1
        self.assertEqual(len(told), 4, told)


class Verify(unittest.TestCase):
    def test_circuits_of_drawn_automata_and_those_with_a_literal_changed(self):
        chance, told = random.Random("verify"), {}
        for _ in range(AUTOMATA):
            case = changes.case_of(program(), drawn(chance), chance.random() < 0.5)
            self.assertEqual(case.judged(case.text), "wins", (case.spec, case.text))
            negated = [changes.negated(case.text, place) for place in changes.places(case.text)]
            for text in [*negated, *changes.with_inputs_as_outputs(case.text)]:
                found = case.judged(text)
                told[found] = told.get(found, 0) + 1
        self.assertLessEqual({"wins", "loses", "fault 74 Timing"}, told.keys(), told)

    def test_literals_drawn_of_larger_circuits(self):
        """In each circuit of the gallery, changes a few literals, one at a time. `bench/verify.py --changed` changes
        more literals, and those of further circuits too."""
        psyn, told = program(), {}
        for said, case in verify.cases(psyn, [*verify.gallery(psyn)]):
            self.assertEqual(case.judged(case.text), "wins", said)
            for found, count in verify.answers(case, said, LITERALS).items():
                told[found] = told.get(found, 0) + count
        self.assertEqual({"wins", "loses"}, told.keys(), told)

    def test_symbols_of_the_other_player(self):
        for inputs, outputs, said in (("g", "r", "fault 72 Symbols"), ("r", "g", "wins")):
            text = f"aag 1 1 0 1 0\n2\n2\ni0 {inputs}\no0 {outputs}\n"
            self.assertEqual(changes.answered(program(), AUTOMATON.decode(), text, False, False), said)


NEVER = b"aag 1 1 0 1 0\n2\n0\ni0 r\no0 g\n"


class OfTheTool(OnFiles):
    def refused(self, *words):
        """The single line on standard error for a command line that the tool refuses."""
        done = self.tool(*words)
        self.assertEqual((done.stdout, done.returncode, done.stderr.count(b"\n")), (b"", 2, 1), done.stderr)
        return done.stderr.decode().removeprefix("psyn: ").rstrip("\n")

    def test_where_a_circuit_loses_its_wave_is_stored(self):
        spec, late = self.file("spec", AUTOMATON), self.file("never", NEVER)
        done = self.tool("verify", "--wave", "lost.vcd", "--stimulus", "lost.stim", spec, late)
        self.assertEqual((done.stdout.split(b"\n")[0], done.returncode), (b"loses", 0))
        with open(os.path.join(self.room, "lost.vcd"), "rb") as file:
            self.assertIn(b"$scope module lasso $end", file.read())
        self.assertIn(b"rejected", self.tool("lasso", spec, late, "lost.stim").stdout)

    def test_of_a_long_run_its_two_ends_are_shown(self):
        latches = [f"{2 * number} {2 * number - 2 if number > 2 else 1}\n" for number in range(2, 152)]
        late = self.file("late", f"aag 151 1 150 1 0\n2\n{''.join(latches)}303\ni0 r\no0 g\n".encode())
        head = b'HOA: v1 Start: 0 AP: 2 "r" "g" controllable-AP: 1 Acceptance: 1 Fin(0) --BODY-- State: 0 [1] 0 '
        broken = "", 51, ["150   0      !r !g   no edge", "there is no edge: the run ends"]
        odd = (
            "[!1] 0 {0}",
            52,
            ["150   0      !r !g   0", "the lap begins; it comes again after step 151", "151   0      !r !g   0"],
        )
        for edge, count, end in (broken, odd):
            spec = self.file("spec", head + edge.encode() + b" --END--\n")
            told = self.tool("verify", spec, late).stderr.decode().splitlines()
            self.assertEqual((told[50], told[51]), ("49    0      !r g", f".. {count} steps are not shown .."))
            self.assertEqual(told[-len(end) :], end)
            self.assertLess(len(told), 106)
        lasso = self.file("lasso", b"0\n" * 60 + b"-\n" + b"0\n" * 60)
        traced = self.tool("lasso", "--trace", spec, self.file("silent", NEVER), lasso).stdout.decode().splitlines()
        self.assertEqual(
            traced[52:55],
            [
                ".. 20 steps are not shown ..",
                "the lap begins at step 60; it comes again after step 119",
                "70    0      !r !g   0",
            ],
        )

    def test_files_that_can_not_be_written(self):
        self.file("spec", AUTOMATON)
        self.file("never", NEVER)
        os.mkfifo(os.path.join(self.room, "pipe"))
        for flag in ("--wave", "--stimulus"):
            folder = "'.' names a folder; the name of a file is wanted"
            for path, why in (("none/x", "there is no folder none"), (".", folder), ("pipe", "pipe is no plain file")):
                self.assertEqual(self.refused("verify", flag, path, "spec", "never"), f"{flag} FILE: {why}")
            self.assertEqual(self.refused("verify", "spec", "never", flag), f"{flag} wants FILE behind it")
        self.assertEqual(
            self.refused("verify", "--wave", "x", "--stimulus", "./x", "spec", "never"),
            "--stimulus and --wave name the same file",
        )
        self.assertEqual(sorted(os.listdir(self.room)), ["never", "pipe", "spec"])

    def test_files_that_are_no_circuits(self):
        self.file("spec", AUTOMATON)
        for name, text in (("empty", b""), ("short", b"aag 1 1 0 1 0\n2\n"), ("words", b"aag one\n")):
            self.file(name, text)
            self.assertIn("this is no circuit", self.refused("convert", name))
            done = self.tool("verify", "spec", name)
            self.assertEqual((done.stdout[:15], done.returncode), (b"fault 61 Syntax", 1))
        self.assertEqual(
            self.refused("convert", "spec"), "spec is an automaton; convert wants CIRCUIT; `synth` makes one"
        )
        self.assertEqual(self.refused("verify", "spec", "none"), "none: No such file or directory")
        self.assertEqual(
            self.refused("convert", "--drop", "push", self.file("never", NEVER)),
            "no input of the circuit is called 'push'",
        )

    def test_an_input_that_nothing_reads(self):
        self.file("spec", AUTOMATON)
        for name, rest in (
            ("clocked", "2\n4\n4\ni0 clk\ni1 r\no0 g\n"), ("twice", "2\n4\n2\ni1 clk\ni0 r\no0 g\nc\ni1 x\n")
        ):
            self.file(name, f"aag 2 2 0 1 0\n{rest}".encode())
            done = self.tool("verify", "spec", name)
            told = f"{name}: input clk left out: the automaton does not mention it, and nothing reads it\n"
            self.assertEqual((done.stdout, done.stderr.decode(), done.returncode), (b"wins\n", told, 0))
            self.assertEqual(self.tool("verify", "--quiet", "spec", name).stdout, b"wins\n")
        for given, behind in (
            (b"01\n-\n10\n", "standard input: so are the digits of clk\n"), (b"1\n-\n0\n", ""), (b"r\n-\n!r\n", "")
        ):
            done = self.tool("lasso", "spec", "clocked", "-", given=given)
            self.assertEqual(
                (done.stdout, done.stderr.decode()),
                (b"accepted stem 1 lap 1\n", told.replace("twice", "clocked") + behind),
            )
        far = self.tool("verify", "spec", self.file("far", b"aag 5 3 0 1 0\n2\n4\n8\n16\ni0 clk\ni1 r\ni2 rst\no0 g\n"))
        self.assertEqual((far.stdout, far.returncode), (b"fault 62 Literal at 16\n", 1))
        self.assertIn(
            b"/far: inputs clk, rst left out: the automaton does not mention them, and nothing reads them\n", far.stderr
        )
        self.assertIn(b"/far:5:1: Literal\n  16\n", far.stderr)

    def test_an_input_that_the_automaton_does_not_mention_is_read(self):
        spec, circuit = (
            self.file("spec", AUTOMATON), self.file("circuit", b"aag 3 2 0 1 1\n2\n4\n6\n6 2 4\ni0 clk\ni1 r\no0 g\n")
        )
        done = self.tool("verify", spec, circuit)
        self.assertEqual((done.stdout, done.returncode), (b"fault 72 Symbols\n", 1))
        told = (
            b"among the circuit's inputs: too many clk\nthe circuit reads clk, "
            b"which the automaton does not mention\ncause:"
        )
        self.assertEqual(done.stderr[: len(told)], told)

    def test_an_answer_of_another_tool_is_a_circuit(self):
        spec, grant = self.file("spec", AUTOMATON), b"aag 1 1 0 1 0\n2\n2\ni0 r\no0 g\n"
        binary = self.tool("convert", self.file("grant", grant)).stdout
        full = self.tool("synth", "--full", spec).stdout
        above = "the line REALIZABLE above the circuit"
        for text, told in (
            (b"REALIZABLE\n" + grant, f"{above} is left out\n"),
            (
                b"REALIZABLE \r\n\r\n" + grant.replace(b"\n", b"\r\n"),
                f"{above} is left out\nit: 5 carriage return(s) at line ends are left out\n",
            ),
            (
                b"REALIZABLE\n" + binary,
                f"{above} is left out\nit: converted from the binary form of AIGER; "
                "places are those of the ASCII form\n",
            ),
            (full, f"{above}, and what is below it, is left out\n"),
        ):
            self.file("it", text)
            done = self.tool("verify", spec, "it")
            self.assertEqual((done.stdout, done.stderr.decode(), done.returncode), (b"wins\n", f"it: {told}", 0))
        wrong = self.tool("verify", spec, self.file("it", b"UNREALIZABLE\naag 1 1 0 1 0\n2\n4\n"))
        self.assertIn(b"it:4:1: Literal\n  4\n", wrong.stderr)
        self.assertEqual(
            self.refused("verify", spec, self.file("it", b"UNREALIZABLE\n")),
            f"{self.room}/it: this is an answer UNREALIZABLE without a circuit",
        )

    def test_a_byte_0_in_a_comment(self):
        spec, grant = self.file("spec", AUTOMATON), b"aag 1 1 0 1 0\n2\n2\ni0 r\no0 g\nc\nwritten by abc\0\n"
        path = self.file("grant", grant)
        done = self.tool("verify", spec, path)
        self.assertEqual((done.stdout, done.stderr), (b"wins\n", b""))
        binary = self.file("binary", self.tool("convert", path).stdout)
        self.assertEqual(self.tool("convert", "--quiet", binary).stdout, grant)
        self.assertEqual(self.tool("verify", spec, binary).stdout, b"wins\n")
        self.assertEqual(
            self.refused("verify", spec, self.file("grant", grant.replace(b"o0 g", b"o0 g\0"))),
            f"{path}: this is no text (it holds a byte 0)",
        )

    def test_odd_names(self):
        head = 'HOA: v1 Start: 0 AP: 2 "a  b" "$end\\"ü" controllable-AP: 1 Acceptance: 0 t'
        spec = self.file("spec", f"{head} --BODY-- State: 0 [0&1|!0&!1] 0 --END--\n".encode())
        texts = spec, self.file("never", 'aag 1 1 0 1 0\n2\n0\ni0 a  b\no0 $end"ü\n'.encode())
        done = self.tool("verify", "--wave", "odd.vcd", *texts)
        self.assertEqual(done.stderr.decode().splitlines()[1].split(None, 2)[2], 'a  b !$end"ü  no edge')
        with open(os.path.join(self.room, "odd.vcd"), encoding="utf-8") as file:
            names = [line.split()[4] for line in file if line.startswith("$var")]
        self.assertEqual(names, ["a__b", '_end"ü', "lap"])


BROKEN = """\
step  state                                 letter       sets
0     0 no r waits; no free waits           !free r !g   1
1     1 r waits for 1 step; no free waits   !free !r !g  1
2     4 r waits for 2 steps; no free waits  !free !r !g  1
3     6 r waits for 3 steps; no free waits  !free !r !g
step 3 breaks the guarantee answered-within-3(r,g)
  behind each r comes g, at most 3 steps later
"""
UNMET = """\
rejected stem 1 lap 1
step  state                        letter       sets
0     0 no r waits; no free waits  !free !r !g  1
the lap begins; it comes again after step 1
1     0 no r waits; no free waits  free !r !g   0
the lap never meets the guarantee answered(free,g)
  behind each free comes g, at its step or later
"""


class OfParts(OnFiles):
    """The run of an automaton that was composed of parts names the parts that fail."""

    def test_the_guarantee_that_breaks_is_named_and_the_run_stops_there(self):
        parts = {
            "free": ("again-and-again", "it=free"),
            "r": ("answered-within-3", "request=r answer=g"),
            "f": ("answered", "request=free answer=g"),
        }
        stored = {
            name: [os.path.join(TOP, "examples", "parts", f"{part}.hoa"), "--as", *renamed.split()]
            for name, (part, renamed) in parts.items()
        }
        words = ["--outs", "g", "--assume", *stored["free"], "--guarantee", *stored["r"], "--guarantee", *stored["f"]]
        spec, never = (
            self.file("spec", self.tool("compose", *words).stdout),
            self.file("never", b"aag 2 2 0 1 0\n2\n4\n0\ni0 r\ni1 free\no0 g\n"),
        )
        done = self.tool("verify", spec, never)
        self.assertEqual((done.stdout[:6], done.stderr.decode()), (b"loses\n", BROKEN))
        strict = self.tool(
            "verify", self.file("strict", self.tool("compose", "--strict", *words).stdout), never
        ).stderr.decode()
        self.assertEqual(
            strict, BROKEN.replace("!free !r !g\n", "!free !r !g  no edge\nthere is no edge: the run ends\n")
        )
        self.assertEqual(self.tool("lasso", "--trace", spec, never, "-", given=b"00\n-\n01\n").stdout.decode(), UNMET)


if __name__ == "__main__":
    unittest.main()
