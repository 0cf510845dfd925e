"""Lists of parts and their names: negated propositions, words that are no names, slips, and messages with their
line."""
import os
import random
import unittest
import unittest.mock

from psyntool import program
from psyntool.parts import part, slips
from psyntool.parts.diagrams import Diagrams
from psyntool.texts import automaton
from tests.test_parts import PARTS, Table
from tests.tool import OnFiles


class Negated(unittest.TestCase):
    def test_a_negated_proposition_of_drawn_parts(self):
        """At each letter the part with a negated proposition moves as the part does at the letter with that proposition
        changed."""
        draw = random.Random(85)
        for _ in range(40):
            text = Table(draw, ["a", "b", "c"]).text()
            names = automaton.read(text).names
            if not names:
                continue
            old = draw.choice(names)
            plain = part.part_of("it", "", {old: "x"}, text)
            negated = part.part_of("it", "", {old: "!x"}, text)
            self.assertEqual((negated.names, negated.title), (plain.names, plain.title.replace("x", "!x")))
            diagrams = Diagrams()
            numbers = {name: number for number, name in enumerate(plain.names)}
            sides = [part.Moves(it, numbers, diagrams) for it in (plain, negated)]
            self.assertEqual(sides[0].start, sides[1].start)
            for letter in range(1 << len(names)):
                true = {number for number in numbers.values() if letter >> number & 1}
                for state in plain.automaton.states:
                    self.assertEqual(
                        diagrams.at(sides[0].of[state], true), diagrams.at(sides[1].of[state], true ^ {numbers["x"]})
                    )

    def test_labels_that_are_left_out_and_aliases(self):
        head = (
            'HOA: v1 Start: 0 AP: 2 "a" "b" controllable-AP: 1 Acceptance: 0 t Alias: @x !(0 & !1) --BODY-- State: 0 '
        )
        for body, said in (
            ("0 1 0 1 State: 1 0 0 0 0", "[0] 0 {} [!0] 1 {}"), ("[@x] 0 [!@x] 1", "[0 | 1] 0 {} [!0 & !1] 1 {}")
        ):
            read = automaton.read(f"{head}{body} --END--")
            text = part.with_negations(read, {0})
            self.assertIn(said.split("]")[0].strip("["), text)
            self.assertIn("controllable-AP: 1 Acceptance: 0 t", text)
            again = automaton.read(text)
            for letter in ({0}, {1}, {0, 1}, set()):
                self.assertEqual(again.edge_at(0, letter ^ {0}).target, read.edge_at(0, letter).target)


class Slips(unittest.TestCase):
    def test_names_that_are_nearly_the_same(self):
        for name, other in (
            ("closd", "closed"), ("clsoed", "closed"), ("closed", "Closed"), ("open_door", "opendoor"),
            ("rexuest", "request"),
        ):
            self.assertTrue(slips.is_slip(name, other) and slips.is_slip(other, name), name)
        for name, other in (
            ("call0", "call1"), ("grant", "grant1"), ("ackA", "ackB"), ("up", "us"), ("tick", "tock"),
            ("low", "lower"), ("open", "open"), ("left", "right"),
        ):
            self.assertFalse(slips.is_slip(name, other), name)


class Lists(OnFiles):
    def listed(self, *lines):
        return self.file("it.parts", "\n".join(lines).replace("PARTS", PARTS).encode() + b"\n")

    def refused(self, *words):
        done = self.tool(*words)
        self.assertEqual((done.returncode, done.stdout, done.stderr.count(b"\n")), (2, b"", 1), done.stderr)
        return done.stderr.decode().removeprefix("psyn: ").rstrip("\n").replace(PARTS, "PARTS").replace(self.room, "")

    def test_a_barrier_that_is_up_again_and_again(self):
        said = self.tool(
            "compose", self.listed("--outs down", "--guarantee PARTS/again-and-again.hoa --as it=!down")
        ).stdout.decode()
        self.assertIn("\n[!0] 0 {0 1}\n[0] 0 {0}\n", said)
        self.assertIn('"again-and-again(!down)" "!down is true again and again"', said)

    def test_what_is_no_name(self):
        for word in ("t", "1", "a&b", "!!a", "!", "a,"):
            said = self.refused("core", self.listed("--outs x", "", f"--guarantee PARTS/always.hoa --as 'it={word}'"))
            self.assertEqual(
                said,
                f"/it.parts:3: --as OLD=NEW..: {word!r} in it={word} is no name of a proposition, "
                "and no name behind '!'",
            )
        said = self.refused("core", "--guarantee", os.path.join(PARTS, "always.hoa"), "--as", "it=f", "--outs", "f")
        self.assertTrue(said.startswith("--as OLD=NEW..: 'f' in it=f is no name"), said)

    def test_messages_name_the_line(self):
        for lines, said in (
            (
                ("--outs g", "--guarantee PARTS/always.hoa", "--as is=g"),
                "/it.parts:2: PARTS/always.hoa: it has no proposition is, so --as can't rename it; it has it",
            ),
            (("--as it=g",), "/it.parts:1: --as OLD=NEW..: it=g stands behind no part"),
            (
                ("--outs x, it", "--guarantee PARTS/always.hoa --as it=x"),
                "--outs NAME..: no part has a proposition 'x,': write blanks between names, and no comma",
            ),
            (
                ("# x", "G (r -> F g)"),
                "/it.parts:2: 'G' begins no list of parts: a list has --assume, --guarantee, --as, --outs, --strict, "
                "--moore, as in `--guarantee part.hoa`",
            ),
            (
                ("--outs x", "--garantee y"),
                "/it.parts:2: a list has no flag --garantee (did you mean --guarantee?); it has --assume, --guarantee, "
                "--as, --outs, --strict, --moore",
            ),
        ):
            self.assertEqual(self.refused("core", self.listed(*lines)), said)

    def test_a_list_without_its_flag(self):
        path = self.listed("--outs it", "--guarantee PARTS/always.hoa")
        self.assertIn(
            b"it.parts is a list; synth wants AUTOMATON, or --parts before a list\n", self.tool("synth", path).stderr
        )
        self.assertIn(
            b"it.parts is a list; game wants AUTOMATON; `compose` makes an automaton of a list\n",
            self.tool("game", path).stderr,
        )

    def test_a_slip_is_told(self):
        lines = [
            "--outs open",
            "--guarantee PARTS/never-together.hoa --as one=closed other=open",
            "--guarantee PARTS/answered.hoa --as request=closd answer=open",
        ]
        done = self.tool("core", self.listed(*lines))
        said = [
            "only never-together(closed,open) has the proposition closed; did you mean closd, of answered(closd,open)?"
        ]
        said += [
            "only answered(closd,open) has the proposition closd; did you mean closed, of never-together(closed,open)?"
        ]
        self.assertEqual(
            done.stderr.decode().splitlines(),
            [*said, "whatever the controller does, this defeats it: closed and closd are always 1"],
        )
        self.assertEqual(self.tool("--quiet", "core", "it.parts").stderr, b"")

    def test_a_list_says_who_moves_first(self):
        lines = ["--outs g", f"--guarantee {self.file('same.hoa', SAME)}"]
        path = self.listed(*lines)
        self.assertEqual([self.tool("core", *more, path).returncode for more in ([], ["--moore"])], [10, 20])
        path = self.listed("--moore", *lines)
        self.assertEqual(
            [self.tool(*words, path).returncode for words in (["core"], ["synth", "--parts"], ["compose"])], [20, 20, 0]
        )

    def test_files_that_are_empty_or_too_long(self):
        for name in ("out.aag", "out.pg", "out.cert", "empty.hoa"):
            self.file(name, b"")
        self.assertEqual(
            self.refused("play", "out", "empty.hoa"), "empty.hoa is empty; play wants PREFIX and a specification"
        )
        with unittest.mock.patch("psyntool.program.MOST_BYTES", 3):
            from psyntool.command import Request
            from psyntool.ends import Refused
            from psyntool.table import COMMANDS

            self.assertEqual(program.MOST_BYTES, 3)
            with self.assertRaisesRegex(
                Refused, "b: the files up to this one have more than 3 bytes together, the most that psyn reads"
            ):
                Request(
                    COMMANDS["wave"], {"--quiet": True}, [self.file("a", b"aa"), self.file("b", b"11\n")], COMMANDS
                ).texts()

    def test_items_that_compose_did_not_write_are_named(self):
        text = self.tool("compose", "--guarantee", os.path.join(PARTS, "always.hoa"), "--outs", "it").stdout
        spec = self.file("it.hoa", text)
        self.assertEqual(self.tool("synth", "-o", "out", spec).returncode, 10)
        self.file("it.hoa", text.replace(b'\\"it\\" acc', b'\\"x\\" acc'))
        self.assertEqual(
            self.refused("play", "out", "it.hoa"), "it.hoa: the item `part:` of 'always' was not written by compose"
        )


SAME = b'HOA: v1 Start: 0 AP: 2 "r" "g" Acceptance: 0 t --BODY-- State: 0 [0&1 | !0&!1] 0 --END--\n'

if __name__ == "__main__":
    unittest.main()
