"""Tests `verilog`: a module computes what its circuit computes, as yosys reads the module; names, comments,
refusals."""
import os
import random
import re
import shutil
import subprocess
import unittest
from collections import Counter

from psyntool.equations import telling, terms
from psyntool.equations.reading import Names, equations
from psyntool.program import path as program
from psyntool.texts import circuit, verilog
from psyntool.texts.circuit import Circuit, Gate, Latch
from tests.changes import ask
from tests.tool import AUTOMATON, CIRCUIT, OnFiles
from upkeep.sweeps import TOP

GALLERY = os.path.join(TOP, "examples", "gallery")
# Names that Verilog allows, that it allows between a backslash and a blank, and that it does not allow.
ODD = (
    "a", "clk", "reset", "l0", "n7", "i0", "o1", "module", "a[0]", "r'", "1st", "$end", "a\\", "\\a", "//", '"', "a b",
    "ä", "a_b", "a_b_2", "a  b",
)
STEPS = 40


def drawn(chance):
    """A random circuit: latches and outputs that read anything, gates in any order, and names of any kind."""
    counts = [chance.randrange(5), chance.randrange(5), chance.randrange(1, 5), chance.randrange(25)]
    variables = [*range(1, 1 + counts[0] + counts[1] + counts[3])]
    chance.shuffle(variables)
    inputs, held, made = variables[: counts[0]], variables[counts[0] :][: counts[1]], variables[counts[0] + counts[1] :]
    gates, shown = [], []
    while len(gates) < len(made):
        below = [0, *inputs, *held, *shown[-6:]]
        one, other, condition = (2 * chance.choice(below) + chance.randrange(2) for _ in range(3))
        rows = [(one, other)]
        if len(gates) + 3 <= len(made) and chance.random() < 0.4:
            # a choice of two literals by a condition, or whether two of them differ
            first, second = (2 * it + 1 for it in made[len(gates) : len(gates) + 2])
            rows = [(one, condition), (condition ^ 1, chance.choice([other, one ^ 1])), (second, first)]
        gates += [Gate(2 * variable, row) for variable, row in zip(made[len(gates) :], rows)]
        shown.append(gates[-1].literal // 2)
    read = [0, *variables]
    latches = tuple(Latch(2 * one, 2 * chance.choice(read) + chance.randrange(2), chance.randrange(2)) for one in held)
    outputs = tuple(
        2 * chance.choice(shown[-4:] if shown and chance.random() < 0.8 else read) + chance.randrange(2)
        for _ in range(counts[2])
    )
    symbols = {
        (kind, place): chance.choice(ODD)
        for kind, count in zip("ilo", counts) for place in range(count) if chance.random() < 0.7
    }
    chance.shuffle(gates)
    return Circuit(tuple(2 * one for one in inputs), latches, outputs, tuple(gates), symbols)


def value(term, known):
    """The value of a term, for known values of its names."""
    sides = [value(side, known) for side in term.sides]
    if isinstance(term, terms.Choice):
        return sides[1] if sides[0] else sides[2]
    if isinstance(term, (terms.Constant, terms.Name)):
        return term.value if isinstance(term, terms.Constant) else known[term.text]
    return {
        terms.Not: lambda: 1 - sides[0], terms.And: lambda: min(sides), terms.Or: lambda: max(sides),
        terms.Xor: lambda: sum(sides) % 2,
    }[type(term)]()


def kinds_in(term):
    return [type(term), *(kind for side in term.sides for kind in kinds_in(side))]


def by_equations(said, names, letters):
    """What `sim` prints of the outputs, by the equations of a circuit."""
    held, rows = {it.name: it.first for it in said.registers}, []
    for letter in letters:
        known = {**dict(zip(names.inputs, letter)), **held}
        waiting = [*said.wires, *said.outputs]
        while waiting:
            ready = [(name, term) for name, term in waiting if set(terms.names_in(term)) <= known.keys()]
            assert ready, waiting
            known.update((name, value(term, known)) for name, term in ready)
            waiting = [one for one in waiting if one[0] not in known]
        rows.append([known[name] for name in names.outputs])
        held = {it.name: value(it.next, known) for it in said.registers}
    return rows


def simulated(psyn, made, letters):
    """The outputs of a circuit, letter by letter, as the program computes them."""
    answer, status = ask(psyn, "sim", made.text(), "".join("".join(map(str, letter)) + "\n" for letter in letters))
    assert status == 0, answer
    return [[int(digit) for digit in row.split("|")[2]] for row in answer.splitlines()]


def by_words(phrase, rows):
    """The values that words say of an output, where each row has the values of inputs and outputs by name."""
    found = re.fullmatch(
        r"(the opposite of )?(?:(.+) of the same step|what (.+) was (?:one step|(\d+) steps) before \(([01 ]+) in the "
        r"first .*\))",
        phrase,
    )
    if found:
        opposite, same, name, count, first = found.groups()
        steps = 0 if same else int(count or 1)
        begin = [int(digit) for digit in (first or "").split()]
        values = [row[same or name] ^ bool(opposite) for row in rows]
        return [*(begin if len(begin) == steps else begin * steps), *values][: len(rows)]
    found = re.fullmatch(
        r"(?:([01 ]+) in the first (?:step|(\d+) steps), then )?(?:always ([01])|([01]) and ([01]) in turn, "
        r"[01] first|([01 ]+) again and again)",
        phrase,
    )
    stem, count, constant, one, other, lap = found.groups()
    begin = [int(digit) for digit in (stem or "").split()]
    begin = begin if len(begin) == int(count or 1) else begin * int(count or 1)
    lap = [int(digit) for digit in (lap or constant or f"{one} {other}").split()]
    return [*begin, *lap * len(rows)][: len(rows)]


def letters_of(chance, made):
    return [[chance.randrange(2) for _ in made.inputs] for _ in range(STEPS)]


class Equations(unittest.TestCase):
    def test_equations_of_random_circuits_are_those_of_the_program(self):
        chance, psyn, seen = random.Random("equations"), program(), Counter()
        for number in range(150):
            made, names = drawn(chance), ("i{}".format, "l{}".format, "o{}".format)
            parts = made.inputs, made.latches, made.outputs
            named = Names(*(tuple(map(name, range(len(part)))) for name, part in zip(names, parts)), "n{}".format)
            letters, said = letters_of(chance, made), equations(made, named)
            seen += Counter(kind for _, term in said.wires + said.outputs for kind in kinds_in(term))
            with self.subTest(number=number):
                self.assertEqual(by_equations(said, named, letters), simulated(psyn, made, letters))
        self.assertTrue(
            all(seen[kind] > 10 for kind in (terms.Not, terms.And, terms.Or, terms.Xor, terms.Choice)), seen
        )

    def test_words_for_random_circuits_are_right(self):
        chance, psyn, kinds = random.Random("words"), program(), Counter()
        for number in range(400):
            made = drawn(chance)
            named = telling.names_of(made)
            letters, phrases = letters_of(chance, made), telling.phrases(made, equations(made, named))
            if phrases:
                rows = [
                    dict(zip([*named.inputs, *named.outputs], [*letter, *row]))
                    for letter, row in zip(letters, simulated(psyn, made, letters))
                ]
            for name, phrase in phrases.items():
                kinds[re.sub(r"[01 ]+(?= again| in the first)|(what )?\S+ (?=was|of the same)", "", phrase)[:14]] += 1
                with self.subTest(number=number, phrase=phrase):
                    self.assertEqual(by_words(phrase, rows), [row[name] for row in rows])
        self.assertGreater(len(kinds), 8, kinds)

    def test_choices_and_differences_are_seen(self):
        for text, said in (
            ("aag 6 3 0 1 3\n2\n4\n6\n13\n8 2 4\n10 3 6\n12 9 11\n", "i0 ? i1 : i2"),
            ("aag 5 2 0 1 3\n2\n4\n10\n6 2 4\n8 3 5\n10 7 9\n", "i0 ^ i1"),
            ("aag 5 2 0 1 3\n2\n4\n11\n6 2 4\n8 3 5\n10 7 9\n", "~(i0 ^ i1)"),
            ("aag 3 2 0 1 1\n2\n4\n7\n6 3 5\n", "i0 | i1"),
            ("aag 3 2 0 1 1\n2\n4\n7\n6 2 4\n", "~(i0 & i1)"),
            ("aag 5 3 0 1 2\n2\n4\n6\n10\n8 2 5\n10 8 7\n", "i0 & ~i1 & ~i2"),
            ("aag 3 2 0 1 1\n2\n4\n6\n6 2 1\n", "i0"),
        ):
            self.assertIn(f"  assign o0 = {said};\n", verilog.module(circuit.read(text), "it"))


    def test_what_outputs_do_in_words(self):
        said = {
            "aag 1 1 0 1 0\n2\n3\n": "the opposite of i0 of the same step",
            "aag 1 0 1 1 0\n2 2 1\n2\n": "always 1",
            "aag 1 0 1 1 0\n2 3 1\n2\n": "1 and 0 in turn, 1 first",
            "aag 1 0 1 1 0\n2 1\n2\n": "0 in the first step, then always 1",
            "aag 2 0 2 1 0\n2 1\n4 2\n5\n": "1 in the first 2 steps, then always 0",
            "aag 2 0 2 1 0\n2 4\n4 3\n2\n": "0 0 1 1 again and again",
            "aag 3 0 3 1 0\n2 4 1\n4 6\n6 1 1\n2\n": "1 0 in the first 2 steps, then always 1",
            "aag 2 1 1 1 0\n2\n4 3 1\n5\n": "what i0 was one step before (0 in the first step)",
            "aag 3 1 2 1 0\n2\n4 2 1\n6 4\n6\n": "what i0 was 2 steps before (0 1 in the first 2 steps)",
            "aag 3 1 2 1 0\n2\n4 3\n6 4\n6\n": "the opposite of what i0 was 2 steps before (0 in the first 2 steps)",
        }
        for text, words in said.items():
            self.assertIn(f"  // o0 is {words}.\n", verilog.module(circuit.read(text), "it"))


def ports_of(text):
    """The names of the inputs and of the outputs of a module, in order, without the backslash of an odd name."""
    found = re.findall(r"(?m)^  (input|output) wire (?:\\(\S+) |(\w[\w$]*)),?$", text)
    return [[odd or name for way, odd, name in found if way == wanted] for wanted in ("input", "output")]


def by_yosys(room, texts):
    """The circuits that yosys makes of modules, by one run."""
    script = []
    for number, text in enumerate(texts):
        with open(os.path.join(room, f"{number}.v"), "w", encoding="utf-8") as file:
            file.write(text)
        script += [
            f"read_verilog {number}.v", "hierarchy -check", "proc", "simplemap", "aigmap",
            f"write_aiger -ascii -symbols {number}.aag", "design -reset",
        ]
    done = subprocess.run(
        ["yosys", "-q", "-p", "; ".join(script)], cwd=room, capture_output=True, text=True, check=False
    )
    assert (done.returncode, done.stderr) == (0, ""), done.stderr
    for number, _ in enumerate(texts):
        with open(os.path.join(room, f"{number}.aag"), encoding="utf-8") as file:
            yield circuit.read(file.read())


def bare(name):
    """A name as yosys writes it into a circuit: it keeps the backslash before some signs."""
    return name[1:] if re.match(r"\\[$\\\d]", name) else name


class Modules(OnFiles):
    def same(self, psyn, chance, made, text, read):
        """Compares a circuit with what yosys has read of its module, with and without resets."""
        inputs, outputs = ports_of(text)
        state = len(inputs) - len(made.inputs)
        self.assertEqual((len(outputs), state), (len(made.outputs), 2 if "always @" in text else 0))
        self.assertEqual([sorted(map(bare, read.names(kind))) for kind in "io"], [sorted(inputs), sorted(outputs)])
        there, columns = (
            list(map(bare, read.names("i"))), [list(map(bare, read.names("o"))).index(name) for name in outputs]
        )
        for chosen in (0, 0.2):
            letters, resets = letters_of(chance, made), [int(state and chance.random() < chosen) for _ in range(STEPS)]
            wanted, begin = [], 0
            for at, is_reset in enumerate([*resets[:-1], 1]):
                if is_reset:
                    wanted += simulated(psyn, made, letters[begin : at + 1])
                    begin = at + 1
            given = [dict(zip(inputs, [*[0, reset][:state], *letter])) for letter, reset in zip(letters, resets)]
            rows = simulated(psyn, read, [[letter[name] for name in there] for letter in given])
            self.assertEqual([[row[column] for column in columns] for row in rows], wanted)

    @unittest.skipUnless(shutil.which("yosys"), "yosys is not installed")
    def test_yosys_reads_what_the_circuit_computes(self):
        chance, psyn = random.Random("modules"), program()
        made = [drawn(chance) for _ in range(100)]
        for name in sorted(os.listdir(GALLERY)):
            if name.endswith(".parts"):
                answer = self.tool("synth", "--parts", "--quiet", os.path.join(GALLERY, name)).stdout.decode()
                made.append(circuit.read(answer.partition("\n")[2]))
        texts = [verilog.module(one, "it") for one in made]
        for number, (one, text, read) in enumerate(zip(made, texts, by_yosys(self.room, texts))):
            with self.subTest(number=number):
                self.same(psyn, chance, one, text, read)

    @unittest.skipUnless(shutil.which("iverilog"), "iverilog is not installed")
    def test_iverilog_reads_modules_with_odd_names(self):
        chance = random.Random("iverilog")
        for number in range(10):
            path = self.file(f"{number}.v", verilog.module(drawn(chance), "it").encode())
            done = subprocess.run(
                ["iverilog", "-g2012", "-t", "null", path], capture_output=True, text=True, check=False
            )
            self.assertEqual((done.returncode, done.stdout, done.stderr), (0, "", ""))


LAMP = """\
// Written by psyn verilog from lamp.aag.
// A rising edge of clk ends a step. If reset is 1 there, the next step is the first one.
module lamp (
  input wire clk,
  input wire reset,
  input wire push,
  output wire dark,
  output wire o1,
  output wire o2
);
  reg lamp = 1'b0;

  // dark is computed from the input push and the register lamp.
  assign dark = push ^ lamp;

  // o1 is the opposite of what dark was one step before (1 in the first step).
  assign o1 = ~lamp;

  // o2 is always 1.
  assign o2 = 1'b1;

  always @(posedge clk)
    if (reset) begin
      lamp <= 1'b0;
    end else begin
      lamp <= dark;
    end
endmodule
"""
GRANT = """\
// Written by psyn verilog from grant.aag.
// psyn verify says that this circuit wins, by some.parts.
// There is no register, and so no clock.
module grant (
  input wire r,
  output wire g
);

  // g is r of the same step.
  // - Each request is granted, later or at once.
  // - never-together(g,r)
  assign g = r;
endmodule
"""


class Tool(OnFiles):
    def refused(self, *words, given=b""):
        done = self.tool("verilog", *words, given=given)
        self.assertEqual((done.returncode, done.stdout, done.stderr.count(b"\n")), (2, b"", 1), done.stderr)
        return done.stderr.decode().removeprefix("psyn: ").rstrip("\n")

    def test_the_module_of_a_circuit(self):
        self.file("lamp.aag", b"aag 5 1 1 3 3\n2\n4 10\n10\n5\n1\n10 7 9\n6 3 5\n8 2 4\ni0 push\nl0 lamp\no0 dark\n")
        done = self.tool("verilog", "lamp.aag")
        self.assertEqual((done.stdout.decode(), done.stderr, done.returncode), (LAMP, b"", 0))
        self.assertIn(b"module circuit (\n", self.tool("verilog", "-", given=CIRCUIT).stdout)
        for name, title in (
            ("lift-4.aag", "lift_4"), ("4.aag", "m_4"), ("wire.aig", "m_wire"), ("\u00e4.b.aag", "__b")
        ):
            binary = self.tool("convert", self.file("it", CIRCUIT)).stdout
            self.file(name, binary)
            self.assertIn(f"module {title} (\n", self.tool("verilog", name).stdout.decode())

    def test_the_sentences_that_mention_an_output(self):
        self.file("grant.aag", b"REALIZABLE\naag 1 1 0 1 0\n2\n2\ni0 r\no0 g\n")
        shutil.copy(os.path.join(TOP, "examples", "parts", "answered.hoa"), self.room)
        head = b"HOA: v1 States: 1 Start: 0 Acceptance: 0 t "
        self.file("never.hoa", head + b'AP: 2 "r" "g" --BODY-- State: 0 [0&1|!0&!1] 0 --END--\n')
        self.file(
            "some.parts",
            b"# Each request is granted,\n# later or at once.\n--guarantee answered.hoa --as request=r answer=g\n\n"
            b"--guarantee never.hoa\n--outs g\n",
        )
        done = self.tool("verilog", "--quiet", "grant.aag", "some.parts")
        self.assertEqual(
            (done.stdout.decode().replace("- never\n", "- never-together(g,r)\n"), done.stderr, done.returncode),
            (GRANT, b"", 0),
        )
        composed = self.file("some.hoa", self.tool("compose", "some.parts").stdout)
        self.assertIn(
            b"  // - Each request is granted, later or at once.\n",
            self.tool("verilog", "--quiet", "grant.aag", composed).stdout,
        )
        plain = self.tool("verilog", "--quiet", "grant.aag", self.file("it.hoa", AUTOMATON)).stdout
        self.assertEqual(plain.count(b"//"), 4)
        turned = self.tool("verilog", "--env", "grant.aag", "it.hoa")
        self.assertEqual((turned.stdout, turned.returncode), (b"", 1))
        self.assertIn(b"\nfault 72 Symbols\n", turned.stderr)

    def test_a_list_says_who_moves_first(self):
        """With `--moore` an environment sees the letter of the controller, and may copy it."""
        self.file("copy.aag", b"aag 1 1 0 1 0\n2\n2\ni0 g\no0 r\n")
        self.file(
            "differ.hoa",
            b'HOA: v1 States: 1 Start: 0 Acceptance: 0 t AP: 2 "r" "g" controllable-AP: 1 --BODY-- State: '
            b'0 [0&!1|!0&1] 0 --END--\n',
        )
        for flag, status in ((b"", 1), (b"--moore ", 0)):
            self.file("it.parts", flag + b"--guarantee differ.hoa\n")
            self.assertEqual(self.tool("verilog", "--env", "copy.aag", "it.parts").returncode, status)

    def test_a_circuit_that_loses_has_no_module(self):
        spec, never = self.file("it.hoa", AUTOMATON), self.file("never", b"aag 1 1 0 1 0\n2\n0\ni0 r\no0 g\n")
        done = self.tool("verilog", never, spec)
        said = f"psyn: {never} loses, so there is no module: `verify` tells a counterexample\n"
        self.assertEqual((done.stdout, done.stderr.decode(), done.returncode), (b"", said, 1))

    def test_what_is_no_circuit(self):
        for text, said in (
            (b"aag 1 0 1 1 0\n2 3 2\n2\n", "fault 66 UnsetLatch at 18"),
            (b"aag 2 0 0 1 2\n2\n2 4 4\n4 2 2\n", "fault 65 Cyclic"),
            (b"", "fault 61 Syntax at 0"),
        ):
            done = self.tool("verilog", "-", given=text)
            self.assertEqual((done.stdout, done.returncode), (b"", 1))
            self.assertTrue(done.stderr.decode().startswith(said), done.stderr)
        self.assertIn(
            b"module circuit", self.tool("verilog", "--zero-resets", "-", given=b"aag 1 0 1 1 0\n2 3 2\n2\n").stdout
        )

    def test_refusals(self):
        spec, made = self.file("it.hoa", AUTOMATON), self.file("it.aag", CIRCUIT)
        self.assertEqual(self.refused(spec), f"{spec} is an automaton; verilog wants CIRCUIT; `synth` makes one")
        self.assertEqual(self.refused("--moore", made), "verilog --moore wants a specification, which says who wins")
        self.assertEqual(
            self.refused(made, made),
            f"{made} is a circuit; SPEC is an automaton, a list of parts or a specification in temporal logic",
        )
        self.assertEqual(
            self.refused(made, self.file("empty", b"")),
            f"{self.room}/empty is empty; SPEC is an automaton, a list of parts or a specification in temporal logic",
        )
        self.assertEqual(self.refused("-", "-"), "standard input can be one of the files only")
        self.assertEqual(self.refused(), "verilog reads CIRCUIT [SPEC], and got 0 words")

    def test_latches_without_a_use_are_left_out(self):
        for more, said in ((b"6 1\n", b"l1, which is"), (b"6 8\n8 6\n", b"l1, l2, which are")):
            rows = more.count(b"\n")
            text = b"aag %d 1 %d 1 0\n2\n4 2\n%s4\n" % (2 + rows, 1 + rows, more)
            self.assertIn(
                b"// No output depends on " + said + b" left out.\n", self.tool("verilog", "-", given=text).stdout
            )

    def test_an_empty_circuit(self):
        done = self.tool("verilog", "-", given=b"aag 0 0 0 0 0\n")
        self.assertTrue(done.stdout.endswith(b"module circuit ();\nendmodule\n"))


if __name__ == "__main__":
    unittest.main()
