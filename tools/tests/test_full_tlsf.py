"""`tlsf`: specifications in TLSF's full form are written out in its basic form, which `tlsf_reader` reads; their
formulas are compared on random lassos with formulas that are written by hand, or with their meaning."""
import glob
import os
import random
import re
import tomllib
import unittest

from psyntool.tlsf import expanding, formulas
from psyntool.tlsf.reading import is_in_full_form
from psyntool.tlsf.tokens import Wrong
from tests import lassos, tlsf_reader
from tests.tool import OnFiles
from upkeep.sweeps import TOP

FOLDER = os.path.join(TOP, "examples", "tlsf")
# What an error's place is marked by in the broken texts.
MARK = "§"
# How TLSF's operators bind, from those that bind least; then the words of sentences, and the operators of one operand.
BINDS = {"R": 1, "U": 2, "W": 3, "->": 4, "<->": 4, "||": 5, "&&": 6, "until": 7, "weak until": 7, "unless": 7}
GROUPS_LEFT = ("R", "||", "&&")
UNARY, ATOM = 8, 9
SPELLINGS = {
    "->": ["->", "IMPLIES"], "<->": ["<->", "EQUIV"], "||": ["||", "OR", "|", "or"], "&&": ["&&", "AND", "&", "and"],
    "!": ["!", "NOT ", "not "],
}
MEANINGS = {"until": "U", "weak until": "W", "unless": "W"}


PARTS = """\
INFO {
  SEMANTICS: Mealy
  TARGET: Mealy
}
GLOBAL {
  PARAMETERS {
    n = 2;
    PARAMETERS
  }
  DEFINITIONS {
    both(a, b) = a && b;
    k = 3;
    enum mode = OFF: 00 ON: 01, 10;
    DEFINITIONS
  }
}
MAIN {
  INPUTS {
    r; s; c[n]; mode m;
    SIGNALS
  }
  OUTPUTS {
    g; h[n];
  }
  GUARANTEE {
    FORMULA
  }
}
"""


def stored(name):
    with open(os.path.join(TOP, "tools", "tests", name), "rb") as file:
        return tomllib.load(file)


def text_of(name):
    with open(os.path.join(FOLDER, f"{name}.tlsf"), encoding="utf-8") as file:
        return file.read()


def specification(inputs, outputs, sections, order="Mealy"):
    """A text of the basic form; each section is a list of formulas."""
    parts = [f"INFO {{ SEMANTICS: {order} TARGET: {order.split(',')[0]} }} MAIN {{"]
    parts += [
        f"{word} {{ {' '.join(f'{it};' for it in those)} }}"
        for word, those in (("INPUTS", inputs), ("OUTPUTS", outputs), *sections)
    ]
    return " ".join([*parts, "}\n"])


def conjuncts(formula):
    return [one for part in formula[1:] for one in conjuncts(part)] if formula[0] == "&&" else [formula]


def meanings(read, word, those):
    """The truths, on each of the lassos, of the formulas in a section, without those that hold on all."""
    found = {
        lassos.vector(one, those)
        for kind, _, _, formula in read.formulas if kind.upper() == word for one in conjuncts(formula)
    }
    return found - {(True,) * len(those)}


class Examples(unittest.TestCase):
    def test_each_is_what_is_written_by_hand(self):
        by_hand = stored("expansions.toml")
        self.assertGreaterEqual(len(by_hand), 30)
        self.assertEqual(
            sorted(by_hand),
            sorted(os.path.basename(path).removesuffix(".tlsf") for path in glob.glob(os.path.join(FOLDER, "*.tlsf"))),
        )
        for name, wanted in by_hand.items():
            with self.subTest(name):
                self.compare(name, wanted)

    def compare(self, name, wanted):
        made = tlsf_reader.read(expanding.expanded(text_of(name), wanted["set"]).encode())
        sections = [(word, wanted[word]) for word in expanding.WORDS if word in wanted]
        hand = tlsf_reader.read(
            specification(
                wanted["inputs"].split(), wanted["outputs"].split(), sections, wanted.get("order", "Mealy")
            ).encode()
        )
        self.assertEqual((made.names, made.order, made.is_strict), (hand.names, hand.order, hand.is_strict))
        draw = random.Random(name)
        those = [lassos.drawn(draw, len(hand.names)) for _ in range(150)]
        for word in expanding.WORDS:
            self.assertEqual(meanings(made, word, those), meanings(hand, word, those), word)

    def test_each_is_read_again_for_larger_parameters(self):
        by_hand, larger = stored("expansions.toml"), 0
        for name in by_hand:
            text = text_of(name)
            for more in (1, 2, 3):
                settings = {
                    parameter: number + more
                    for parameter, number in by_hand[name]["set"].items() if parameter != "express"
                }
                if name != "cache" and settings:
                    with self.subTest(name, settings=settings):
                        made = expanding.expanded(text, settings)
                        tlsf_reader.read(made.encode())
                        self.assertEqual(without_comments(expanding.expanded(made, {})), without_comments(made))
                        larger += 1
        self.assertGreaterEqual(larger, 80)

    def test_what_is_broken_in_the_basic_form_is_seen(self):
        read = tlsf_reader.read(specification(["a"], ["b"], [("GUARANTEE", ["a U b", "G (a -> b)"])]).encode())
        other = tlsf_reader.read(specification(["a"], ["b"], [("GUARANTEE", ["a W b", "G (a -> b)"])]).encode())
        draw = random.Random("broken")
        those = [lassos.drawn(draw, 2) for _ in range(150)]
        self.assertNotEqual(meanings(read, "GUARANTEE", those), meanings(other, "GUARANTEE", those))


def without_comments(text):
    return [line for line in text.split("\n") if not line.strip().startswith("//")]


def guarantees(text):
    """The formulas of the last section of a text in the basic form."""
    return [line.strip()[:-1] for line in without_comments(text.split(" {\n")[-1]) if line.endswith(";")]


def drawn(draw, depth):
    """A random formula: names, operators, and words of sentences."""
    if not depth or draw.random() < 0.1:
        return ("name", draw.randrange(4)) if draw.random() < 0.95 else (draw.choice(["true", "false"]),)
    kind = draw.randrange(10)
    if kind < 5:
        return (draw.choice(list(BINDS)), drawn(draw, depth - 1), drawn(draw, depth - 1))
    if kind < 8:
        return (draw.choice("!XFG"), drawn(draw, depth - 1))
    low, part = draw.randrange(1, 3), drawn(draw, depth - 1)
    words = [
        ("rises", part),
        ("falls", part),
        ("stable", part),
        ("X", low, part),
        ("F", low, low + draw.randrange(-1, 3), part),
        ("G", low, low + draw.randrange(-1, 3), part),
    ]
    words += [
        ("within", low, part),
        ("within", low, part, drawn(draw, 1)),
        ("[*]", low + 1, part),
        ("onehot", part, drawn(draw, 1)),
        ("at most one of", part, drawn(draw, 1), drawn(draw, 1)),
    ]
    return draw.choice(words)


def said(draw, formula, least=0):
    """The text of a formula as an operand of an operator that binds as `least`, with parentheses where they are needed,
    and sometimes elsewhere."""
    sign = formula[0]
    binds = (
        BINDS["unless"]
        if sign == "within" and len(formula) > 3
        else BINDS.get(sign, UNARY if sign in ("!", "X", "F", "G", "within") else ATOM)
    )
    if sign == "name":
        text = "abcd"[formula[1]]
    elif sign in ("true", "false"):
        text = sign
    elif sign in BINDS:
        left, right = (binds, binds + 1) if sign in GROUPS_LEFT else (binds + 1, binds)
        first = said(draw, formula[1], left)
        # `unless` directly behind `within n f` would belong to it
        first = f"({first})" if sign == "unless" and formula[1][0] == "within" else first
        text = f"{first} {draw.choice(SPELLINGS.get(sign, [sign]))} {said(draw, formula[2], right)}"
    elif sign == "[*]":
        is_negated = formula[2][0] == "!" and formula[2][1][0] == "name"
        text = (
            f"{'!' if is_negated else ''}{said(draw, formula[2][1] if is_negated else formula[2], ATOM)}[*{formula[1]}]"
        )
    elif sign == "!" and formula[1][0] == "[*]":
        text = f"!({said(draw, formula[1])})"
    elif sign == "within":
        end = [f" unless {said(draw, one, BINDS['unless'])}" for one in formula[3:]]
        text = f"within {formula[1]} {said(draw, formula[2], UNARY)}{''.join(end)}"
    elif binds == UNARY:
        bounds = f"[{':'.join(map(str, formula[1:-1]))}] " if len(formula) > 2 else " "
        text = (
            f"{draw.choice(SPELLINGS.get(sign, [sign]))}{bounds if sign != '!' else ''}{said(draw, formula[-1], UNARY)}"
        )
    else:
        text = f"{sign}({', '.join(said(draw, part) for part in formula[1:])})"
    return f"({text})" if binds < least or draw.random() < 0.1 else text


def meant(formula):
    """The formula with TLSF's operators in place of the words between operands."""
    return tuple(
        MEANINGS.get(part, part) if isinstance(part, str) else meant(part) if isinstance(part, tuple) else part
        for part in formula
    )


def expanded_as_said(text):
    """The basic form of a guarantee. If it is refused because it mixes words and operators, each reading of the message
    is accepted as it is, and that of TLSF is taken."""
    try:
        made = of_guarantees(text)
    except Wrong as error:
        readings = re.findall("`([^`]*)`", str(error))
        for one in readings:
            assert not of_guarantees(one).grouped, (text, one)
        made = of_guarantees(readings[0])
    for _, one in made.grouped:
        assert of_guarantees(one).text() == made.text(), (text, one)
    return made.text()


def of_guarantees(*sentences):
    return expanding.basic(specification(["a", "b"], ["c", "d"], [("GUARANTEE", sentences)]), {})


class Groupings(OnFiles):
    """Mixes of operators that other tools group differently are told, and refused beside words."""

    def test_how_a_sentence_was_read(self):
        for text, here in (
            ("G (a -> b U c)", "G ((a -> b) U c)"),
            ("a U b  /* here */ W c R d", "(a U (b W c)) R d"),
            ("a R b R c", "(a R b) R c"),
            ("a -> b <-> c", "a -> (b <-> c)"),
            ("a && b || c W d", "(a && b || c) W d"),
            ("F (a U b -> c) && G (a U X b && c)", "F (a U (b -> c)) && G (a U (X b && c))"),
        ):
            self.assertEqual([one for _, one in of_guarantees("a", text).grouped], [here])
        for text in ("a U b U c", "a W b W c", "(a -> b) U c", "a && b -> c || d", "a <-> b <-> c", "G a U F b"):
            self.assertEqual(of_guarantees(text).grouped, (), text)

    def test_words_beside_operators_are_refused_with_both_readings(self):
        for text, *readings in (
            ("G (a -> within 2 b U c)", "G ((a -> within 2 b) U c)", "G (a -> (within 2 b U c))"),
            ("a until b U c", "(a until b) U c", "a until (b U c)"),
            ("a U b and c[*2]", "a U (b and c[*2])", "(a U b) and c[*2]"),
            ("a xor b || c", "a xor (b || c)", "(a xor b) || c"),
            ("rises(a) -> b <-> c", "rises(a) -> (b <-> c)", "(rises(a) -> b) <-> c"),
        ):
            with self.assertRaises(Wrong) as caught:
                of_guarantees("a", text)
            told = " or ".join(f"`{one}`" for one in readings)
            wanted = f"tools group this mix of words and operators differently: write {told}"
            self.assertEqual(str(caught.exception), wanted, text)
        for text in ("a until b -> c && within 2 d", "a && b until c || not d", "a xor b && c", "within 2 a unless b"):
            self.assertEqual(of_guarantees(text).grouped, (), text)

    def test_files_are_read_as_before(self):
        for folder in ("tlsf", "specifications", "gallery"):
            for path in glob.glob(os.path.join(TOP, "examples", folder, "*.tlsf")):
                with open(path, encoding="utf-8") as file:
                    grouped = expanding.basic(file.read(), {}).grouped
                self.assertEqual(len(grouped), 6 * (os.path.basename(path) == "precedences.tlsf"), path)

    def test_the_tool_tells_them_by_their_lines(self):
        text = specification(["a", "b"], ["c"], [("GUARANTEE", ["G (a -> within 1 c)", "\nG (a -> b U c)"])])
        self.file("it.tlsf", text.encode())
        told = b"it.tlsf:2: read as TLSF groups it: G ((a -> b) U c)\n"
        for words in (["synth"], ["tlsf"], ["sane"], ["compose"], ["page"], ["core"]):
            self.assertTrue(self.tool(*words, "it.tlsf").stderr.startswith(told), words)
            self.assertNotIn(b"as TLSF", self.tool(*words, "--quiet", "it.tlsf").stderr)
        self.file("it.tlsf", text.replace("b U c", "within 1 b U c").encode())
        done = self.tool("synth", "it.tlsf")
        told = "psyn: it.tlsf:2:1: tools group this mix of words and operators differently: write "
        told += "`G ((a -> within 1 b) U c)` or `G (a -> (within 1 b U c))`\n"
        self.assertEqual((done.stdout, done.stderr.decode(), done.returncode), (b"", told, 2))


class Meanings(unittest.TestCase):
    """Formulas have in the basic form the meaning that they have by the precedences of the full form."""

    def test_drawn_formulas(self):
        draw = random.Random("tlsf")
        for _ in range(600):
            formula = drawn(draw, 4)
            text = said(draw, formula)
            with self.subTest(text):
                made = expanded_as_said(text)
                read = tlsf_reader.read(made.encode())
                those = [lassos.drawn(draw, 4) for _ in range(12)]
                both = ("true",)
                for _, _, _, one in read.formulas:
                    both = ("&&", both, one)
                self.assertEqual(lassos.vector(both, those), lassos.vector(meant(formula), those), made)

    def test_the_length_and_the_limits_of_a_formula_are_those_of_its_text(self):
        draw, made = random.Random("sizes"), formulas.Formulas()
        for _ in range(300):
            formula = built(made, drawn(draw, 5))
            text = formulas.text_of(formula)
            if not isinstance(formula, bool):
                self.assertEqual(formula.length, len(text), text)
                parser = tlsf_reader.Parser(text.encode())
                parser.result.names = [(name, False) for name in "abcd"]
                parser.formula()
                self.assertEqual((parser.token.kind, parser.used), ("end", formula.size), text)
                self.assertEqual(formula.nesting, nesting_of(text), text)


# Operators of numbers and of sets, by how they bind: those that bind most come first; and what they do.
OF_NUMBERS = {
    "*": (1, "left", lambda a, b: a * b), "/": (2, "right", lambda a, b: a // b),
    "%": (2, "right", lambda a, b: a % b), "+": (3, "left", lambda a, b: a + b), "-": (3, "left", lambda a, b: a - b),
}
OF_SETS = {
    "(\\)": (4, "right", lambda a, b: a - b),
    "(*)": (5, "left", lambda a, b: a & b),
    "(+)": (6, "left", lambda a, b: a | b),
}
OTHER_WORDS = {
    "*": "MUL", "/": "DIV", "%": "MOD", "+": "PLUS", "-": "MINUS", "(\\)": "SETMINUS", "(*)": "CAP", "(+)": "CUP"
}


def drawn_value(draw, depth, is_set):
    """The text of a random expression of numbers or of sets, how its outermost operator binds (0 for an operand), and
    its value."""
    if not depth or draw.random() < 0.2:
        first, last = draw.randrange(6), draw.randrange(9)
        if not is_set:
            return draw.choice([
                (str(first), 0, first),
                (f"SUM[i IN {{1, 2 .. {first}}}] i", 0, sum(range(first + 1))),
                (f"|{{{first}, {last}}}|", 0, len({first, last})),
                ("three", 0, 3),
            ])
        step = draw.randrange(1, 4)
        return draw.choice([
            (f"{{{first}, {first + step} .. {last}}}", 0, set(range(first, last + 1, step))),
            (f"{{{first}, {last}}}", 0, {first, last}),
            ("{}", 0, set()),
        ])
    if not is_set and draw.random() < 0.2:
        text, _, value = drawn_value(draw, depth - 1, True)
        word, found = draw.choice(
            [("MIN", min(value, default=0)), ("MAX", max(value, default=0)), ("SIZE", len(value))]
        )
        return (f"{word} ({text})", 0, found) if value else ("0", 0, 0)
    operators = OF_SETS if is_set else OF_NUMBERS
    sign = draw.choice(list(operators))
    binds, groups, does = operators[sign]
    sides = [drawn_value(draw, depth - 1, is_set) for _ in range(2)]
    if sign in ("/", "%") and not sides[1][2]:
        return sides[0]
    inner = [binds - (groups == "right"), binds - (groups == "left")]
    texts = [text if own <= most and draw.random() < 0.9 else f"({text})" for (text, own, _), most in zip(sides, inner)]
    return (
        draw.choice([sign, OTHER_WORDS[sign]]).join(f" {text} " for text in texts),
        binds,
        does(sides[0][2], sides[1][2]),
    )


class Values(unittest.TestCase):
    def test_drawn_numbers_and_sets_have_the_values_that_python_gives_them(self):
        draw = random.Random("numbers")
        for _ in range(400):
            is_set = draw.random() < 0.4
            text, _, value = drawn_value(draw, 4, is_set)
            if not is_set and abs(value) > 10**9:
                continue
            wanted = f"{{{', '.join(map(str, sorted(value)))}}}" if is_set else ""
            # a negative number is written as a difference
            same = (
                f"|v (\\) {wanted}| + |{wanted} (\\) v| == 0"
                if is_set
                else f"v == 0 - {-value}"
                if value < 0
                else f"v == {value}"
            )
            source = (
                f"INFO {{ SEMANTICS: Mealy TARGET: Mealy }} GLOBAL {{ DEFINITIONS {{ three = 3; v = {text}; "
                f"}} }} MAIN {{ INPUTS {{ a; b; }} GUARANTEE {{ {same} && a; {same} || b; }} }}"
            )
            with self.subTest(text):
                self.assertEqual(
                    [line.strip() for line in without_comments(expanding.expanded(source, {})) if line.endswith(";")][
                        -2:
                    ],
                    ["a;", "true;"],
                )


def built(made, formula):
    """A formula of the basic form for one that was drawn; words of sentences are left out."""
    sign, parts = (
        MEANINGS.get(formula[0], formula[0]), [built(made, part) for part in formula[1:] if isinstance(part, tuple)]
    )
    if sign == "name":
        return made.name("abcd"[formula[1]])
    if sign in ("true", "false"):
        return sign == "true"
    if sign in ("&&", "||"):
        return made.joined(0, sign, parts)
    if sign in ("->", "<->"):
        return (made.implication if sign == "->" else made.equivalence)(0, *parts)
    if sign in ("U", "R", "W"):
        return made.of(0, sign, tuple(parts))
    return (
        made.negation(0, parts[0])
        if sign == "!"
        else made.before(0, sign if sign in ("X", "F", "G") else "X", parts[0])
    )


def nesting_of(text):
    """How deep parentheses and operators nest in a text of the basic form, by the second reader."""

    class Deepest(tlsf_reader.Parser):
        most = 0

        def nest(self):
            super().nest()
            self.most = max(self.most, self.depth)

    parser = Deepest(text.encode())
    parser.result.names = [(name, False) for name in "abcd"]
    parser.formula()
    return parser.most


def broken():
    """The broken texts, with the offset and the message of each error."""
    for kind, texts in stored("broken_tlsf.toml").items():
        for part, message in texts.items():
            parts = {
                "parameters": "",
                "definitions": "",
                "signals": "",
                "formula": "used(r);" if kind == "used" else "G (r -> F g);",
            }
            parts["definitions" if kind == "used" else kind] = part
            yield (part if kind == "whole" else filled(parts)), message


def filled(parts):
    """A text with the given parts."""
    text = PARTS
    for name, part in parts.items():
        text = text.replace(f"    {name.upper()}\n", f"    {part}\n")
    return text


class Broken(OnFiles):
    def test_each_is_told_at_its_place(self):
        count = 0
        for text, message in broken():
            count += 1
            with self.subTest(text):
                with self.assertRaises(Wrong) as caught:
                    expanding.expanded(text.replace(MARK, ""), {})
                self.assertEqual((str(caught.exception), caught.exception.offset), (message, text.index(MARK)))
                self.assertEqual(message, message.strip())
                self.assertTrue(message.isprintable())
        self.assertGreaterEqual(count, 100)

    def test_the_place_is_a_line_and_a_column_of_the_file(self):
        for number, (text, message) in enumerate(broken()):
            if number % 12:
                continue
            before = text[: text.index(MARK)]
            path = self.file(f"{number}.tlsf", text.replace(MARK, "").replace("\n", "\r\n").encode())
            done = self.tool("tlsf", "--quiet", path)
            row, column = before.count("\n") + 1, len(before) - before.rfind("\n")
            with self.subTest(text):
                self.assertEqual((done.returncode, done.stdout), (2, b""))
                self.assertEqual(done.stderr.decode(), f"psyn: {path}:{row}:{column}: {message}\n")

    def test_drawn_changes_of_texts_end_in_one_line_or_in_a_basic_form(self):
        draw, ends = random.Random("changes"), {True: 0, False: 0}
        names = sorted(stored("expansions.toml"))
        for _ in range(400):
            text = text_of(draw.choice(names))
            place = draw.randrange(len(text))
            more = draw.choice([
                "",
                draw.choice("(){}[];:,!<>=+-*/%|&~_^\"019azAX \n"),
                text[draw.randrange(len(text)) :][: draw.randrange(9)],
            ])
            changed = text[:place] + more + text[place + draw.randrange(4) :]
            try:
                made = expanding.expanded(changed, {})
                tlsf_reader.read(made.encode())
                ends[True] += 1
            except Wrong as error:
                self.assertNotIn("\n", str(error))
                self.assertLessEqual(error.offset, len(changed))
                ends[False] += 1
        self.assertGreater(min(ends.values()), 50)


class Limits(unittest.TestCase):
    def wrong(self, formula, definitions="", inputs="a;"):
        text = (
            f"INFO {{ SEMANTICS: Mealy TARGET: Mealy }} GLOBAL {{ DEFINITIONS {{ {definitions} }} }} MAIN {{ INPUTS {{ "
            f"{inputs} }} GUARANTEE {{ {formula}; }} }}"
        )
        with self.assertRaises(Wrong) as caught:
            expanding.expanded(text, {})
        return str(caught.exception)

    def test_what_psyn_reads_is_written_and_no_more(self):
        chain = " && ".join(["a"] * 32_768)
        tlsf_reader.read(expanding.expanded(specification(["a"], [], [("GUARANTEE", [chain])]), {}).encode())
        self.assertIn("65,535 operators", self.wrong(f"{chain} && a"))
        self.assertIn("65,535 operators", self.wrong(" -> ".join(["a"] * 32_769)))
        self.assertIn("65,535 operators and operands up to here", self.wrong(f"{chain}; a"))
        deep = "!" * 255 + "a"
        tlsf_reader.read(
            expanding.expanded(
                specification(["a"], [], [("GUARANTEE", [deep, f"X[{formulas.MOST_NESTED}] a"])]), {}
            ).encode()
        )
        self.assertIn("nests more than 256", self.wrong("X[257] a"))
        self.assertIn("nest more than 256", self.wrong("(" * 100_000 + "a"))
        self.assertIn("more than 64 inputs", self.wrong("a0", inputs=" ".join(f"a{number};" for number in range(65))))
        long = "a" * 1_000
        self.assertIn("16,777,216 bytes", self.wrong(" || ".join([long] * 17_000), inputs=f"{long};"))
        self.assertIn("1,001 bytes", self.wrong("a" * 1_001))

    def test_so_many_steps_are_written_out(self):
        for formula, most in (("G (a -> within {} b)", 254), ("G (a[*{}] -> b)", 255), ("G (a -> X[{}] b)", 254)):
            with self.subTest(formula):
                text = specification(["a"], ["b"], [("GUARANTEE", [formula.format(most)])])
                tlsf_reader.read(expanding.expanded(text, {}).encode())
                self.assertIn(
                    "n steps, as in `within n f`, nest n deep", self.wrong(formula.format(most + 1), inputs="a; b;")
                )
        # of many sentences, which have more operators than psyn reads, each is written in short
        many = [f"G (a -> within {number} b)" for number in range(100, 128)]
        text = expanding.expanded(specification(["a"], ["b"], [("GUARANTEE", many)]), {})
        self.assertIn("b || X (b || X (b", text)
        tlsf_reader.read(text.encode())
        self.assertIn(
            "65,535 operators and operands up to here",
            self.wrong("; ".join([*many, "G (a -> within 128 b)"]), inputs="a; b;"),
        )

    def test_a_range_without_steps(self):
        text = specification(["r[n]"], ["g"], [("GUARANTEE", ["g || G[0:n-1] r[n-1]", "F[n-2:n-1] g", "G[3:2] g"])])
        text = text.replace("MAIN", "GLOBAL { PARAMETERS { n = 0; } } MAIN")
        self.assertEqual(guarantees(expanding.expanded(text, {})), ["true", "false", "true"])
        self.assertEqual(guarantees(expanding.expanded(text, {"n": 2})), ["g || r_1 && X r_1", "g || X g", "true"])

    def test_formulas_for_another_order_of_moves(self):
        for have, want, formula, said in (
            ("Mealy", "Moore", "G (g <-> r && F g)", "G (X g <-> r && F X g)"),
            ("Moore", "Mealy", "G (X g <-> (r W g))", "G (X g <-> (X r W g))"),
            ("Moore", "Moore", "G (X g <-> r)", "G (X g <-> r)"),
        ):
            text = specification(["r"], ["g"], [("GUARANTEE", [formula])], want).replace(want, have, 1)
            made = expanding.basic(text, {})
            with self.subTest(have + want):
                self.assertEqual((guarantees(made.text()), made.is_moore), ([said], want == "Moore"))
                tlsf_reader.read(made.text().encode())
                self.assertEqual(bool(made.rewritten), have != want)
                self.assertEqual(is_in_full_form(text), have != want)

    def test_a_value_of_another_enumeration(self):
        enums = "GLOBAL { DEFINITIONS { enum L = O: 0 P: 1; enum M = Q: 0 S: 1; } } MAIN"
        wrong = "`l` has values of `L`, and `S` is one of `M`"
        for formula, said in (("l == P", ""), ("b == P", ""), ("l != S", wrong), ("S == l", wrong)):
            text = specification(["L l", "b[1]"], [], [("GUARANTEE", [f"G ({formula})"])]).replace("MAIN", enums)
            with self.subTest(formula):
                if not said:
                    tlsf_reader.read(expanding.expanded(text, {}).encode())
                    continue
                with self.assertRaises(Wrong) as caught:
                    expanding.expanded(text, {})
                self.assertEqual(str(caught.exception), said)

    def test_deep_texts_end_in_one_line(self):
        for formula, said in (
            ("G" * 1_000 + " a", "nest more than 1,000 deep"),
            ("a" + "[*1]" * 20_000, "nest more than 1,000 deep"),
            (" unless ".join(["a"] * 20_000), "nest more than 1,000 deep"),
            ("GG " * 20_000 + "a", "nest more than 256 deep"),
            ("within 1 " * 20_000 + "a", "nest more than 256 deep"),
            ("!" * 20_000 + "a", "nest more than 256 deep"),
            ("{" * 20_000, "nest more than 256 deep"),
            ("f(" * 20_000, "nest more than 256 deep"),
            ("&&[i IN {" * 20_000, "nest more than 256 deep"),
        ):
            with self.subTest(formula[:20]):
                self.assertIn(said, self.wrong(formula))
        names = [f"x{number}" for number in range(300)]
        self.assertIn("at most 256 operands", self.wrong("f(a)", f"f(y) = y ~ {' && '.join(names)} : y otherwise: y;"))
        self.assertIn("nest more than 1,000 deep", self.wrong("f(a)", f"f(y) = y ~ {'G' * 1_000} z : y otherwise: y;"))

    def test_texts_that_would_grow_end_soon(self):
        for formula, definitions, said in (
            ("f(40)", "f(i) = i == 0 : a otherwise: f(i - 1) <-> f(i - 1);", "1,000,000 steps"),
            ("f(a, 60)", "f(x, i) = i == 0 : x otherwise: f(x <-> x, i - 1);", "65,535 operators"),
            ("f(1)", "f(i) = f(i + 1);", "nest more than 2,000 deep"),
            ("&&[0 <= i < 60000, 0 <= j < 60000] true", "", "1,000,000 steps"),
            ("|(+)[i IN s] s| == 1 -> a", "s = {0, 1 .. 60000};", "1,000,000 steps"),
            ("f(9) == 0 -> a", "f(i) = i == 0 : 9 otherwise: f(i - 1) * f(i - 1);", "greater than"),
            ("at most one of (" + ", ".join(["a"] * 20_000) + ")", "", "65,535 operators"),
            ("F[0:1000000000000] a", "", "nests more than 256"),
            ("a;" * 250_000, "", "500,000 words"),
            ("|{0, 1 .. 9223372036854775807}| == 1 -> a", "", "9,223,372,036,854,775,808 elements"),
            (
                "|f({}, 400)| == 2 -> a && |f({}, 400)| != 1 -> !a && |f({}, 2500)| == 2 -> a",
                "f(s, i) = i == 0 : s otherwise: f({s, {s}}, i - 1);",
                "nest more than 2,000",
            ),
            ("&&[" + ", ".join(f"x{number} IN {{0}}" for number in range(65)) + "] a", "", "more than 64 variables"),
            ("a", f"f({', '.join(f'x{number}' for number in range(65))}) = a;", "more than 64 arguments"),
            ("a", f"enum e = A: {'0' * 65};", "65 bits"),
        ):
            with self.subTest(formula):
                self.assertIn(said, self.wrong(formula, definitions))


class Commands(OnFiles):
    def test_parameters_and_files(self):
        path = os.path.join(FOLDER, "arbiter.tlsf")
        done = self.tool("tlsf", "--set", "n=2", path)
        self.assertEqual((done.returncode, done.stderr), (0, b""))
        self.assertTrue(done.stdout.startswith(b"// written by psyn tlsf\n// n = 2\nINFO {\n"))
        out = os.path.join(self.room, "out")
        for _ in range(2):
            written = self.tool("-o", out, "tlsf", path, "--set=n=2")
            self.assertEqual((written.returncode, written.stdout, written.stderr), (0, b"", b""))
            with open(f"{out}.tlsf", "rb") as file:
                self.assertEqual(file.read(), done.stdout)
        self.assertEqual(self.tool("tlsf", "-", given=done.stdout).returncode, 0)

    def test_parameters_of_commands_that_read_a_circuit_or_draw(self):
        path = os.path.join(FOLDER, "arbiter.tlsf")
        self.file("two.aag", self.tool("synth", "--set", "n=2", path).stdout)
        for words, begin in (
            (("show", path), b"digraph"),
            (("verilog", "two.aag", path), b"// Written by psyn verilog from two.aag.\n"),
            (("page", "--circuit", "two.aag", path), b"<!DOCTYPE html>"),
        ):
            done = self.tool(*words, "--set", "n=2", "--quiet")
            self.assertEqual((done.stdout[: len(begin)], done.stderr, done.returncode), (begin, b"", 0), words)
        done = self.tool("show", "--set", "m=2", path)
        told = f"psyn: {path}: --set NAME=VALUE: there is no parameter m; the specification has n\n"
        self.assertEqual((done.stderr.decode(), done.returncode), (told, 2))

    def test_what_is_refused(self):
        path, own = os.path.join(FOLDER, "lift_express.tlsf"), self.file("own.tlsf", text_of("arbiter").encode())
        for words, said in (
            (
                ("--set", "n=2", path),
                f"{path}: --set NAME=VALUE: there is no parameter n; the specification has floors, express",
            ),
            (
                ("--set", "floor=2", path),
                f"{path}: --set NAME=VALUE: there is no parameter floor (did you mean floors?); "
                "the specification has floors, express",
            ),
            (
                ("--set", "floors=-2", path),
                "--set NAME=VALUE: 'floors=-2' is no NAME=VALUE, where VALUE is a number of at most 18 digits",
            ),
            (("--set", "floors=2", "--set", "floors=3", path), "--set NAME=VALUE: floors is set twice"),
            ((path, "--set"), "--set wants NAME=VALUE behind it"),
            (
                ("-o", own.removesuffix(".tlsf"), own),
                f"-o PREFIX: {own} is there, and psyn has not written it: --force writes over it",
            ),
            (
                ("--force", "-o", own.removesuffix(".tlsf"), own),
                f"{own} would be written, and this command reads it: name another file",
            ),
            (
                (os.path.join(TOP, "examples", "files", "loop.pg"),),
                f"{os.path.join(TOP, 'examples', 'files', 'loop.pg')} is a game; tlsf wants SPECIFICATION",
            ),
        ):
            with self.subTest(words):
                done = self.tool("tlsf", *words)
                self.assertEqual((done.returncode, done.stdout, done.stderr.decode()), (2, b"", f"psyn: {said}\n"))

    def test_strings_and_comments_keep_their_bytes(self):
        text = (
            'INFO { TITLE: "\u00fcber \\ // no" /* \u00fc /* nested */ */ SEMANTICS: Strict, Mealy TARGET: Mealy TAGS: '
            'a, "b", "c d" } MAIN { INPUTS { r; } }'
        )
        made = self.tool("tlsf", self.file("it", text.encode())).stdout
        self.assertIn(
            'TITLE:       "\u00fcber \\ // no"\n  TAGS:        a, b\n  SEMANTICS:   Mealy,Strict\n'.encode(), made
        )
        self.assertTrue(tlsf_reader.read(made).is_strict)

    def test_words_that_a_text_declares_are_names(self):
        sections = [("GUARANTEE", ["until -> within U stable", "not || GF", "rises || or"])]
        made = expanding.expanded(
            specification(["until", "within", "GF"], ["stable", "rises", "not", "or"], sections), {}
        )
        self.assertEqual(without_comments(made)[-5:], ["    not || GF;", "    rises || or;", "  }", "}", ""])
        self.assertIn("    (until -> within) U stable;\n", made)

    def test_words_of_the_full_form_are_names_in_the_basic_form(self):
        inputs, outputs = ["IN", "_", "MIN", "AND", "NOT"], ["OR", "enum", "SIZEOF", "otherwise", "xor", "GF"]
        those = ["G (IN -> F OR)", "_ && MIN -> enum || !otherwise", "G !(SIZEOF && xor)"]
        text = specification(inputs, outputs, [("GUARANTEE", those)])
        self.assertFalse(is_in_full_form(text))
        self.assertEqual(guarantees(expanding.expanded(text, {})), those)
        self.file("names.tlsf", text.encode())
        for command in ("synth", "core", "sane", "translate", "show"):
            done = self.tool(command, "--quiet", "names.tlsf")
            self.assertEqual((done.stderr, done.returncode in (0, 10)), (b"", True), command)
        # beside a word or a sign of the full form they are words
        with self.assertRaises(Wrong) as caught:
            expanding.expanded(text.replace("F OR", "F[0:1] OR"), {})
        self.assertEqual(str(caught.exception), "`IN` is a word of TLSF, and can't be the name of a signal")

    def test_sentences_are_shown_as_they_were_typed(self):
        clients = "&&[0 <= i < n] G (req[i] -> {})"
        for typed, said in (
            ("G (req[1]   ->\n within 8 gnt[1])", ["G (req[1] -> within 8 gnt[1])"]),
            (clients.format("within 8 gnt[i]"), ["G (req_0 -> within 8 gnt_0)", "G (req_1 -> within 8 gnt_1)"]),
            (
                clients.format("X[2] (within 3 gnt[i] unless (stop && gnt[0]))"),
                [f"G (req_{i} -> X[2] (within 3 gnt_{i} unless (stop && gnt_0)))" for i in range(2)],
            ),
            (clients.format("(!gnt[i])[*4]"), [f"G (req_{i} -> (!gnt_{i})[*4])" for i in range(2)]),
            (clients.format("F[1:2] rises(gnt[i])"), [f"G (req_{i} -> F[1:2] rises(gnt_{i}))" for i in range(2)]),
            (clients.format("onehot(gnt)"), [f"G (req_{i} -> onehot(gnt_0, gnt_1))" for i in range(2)]),
            (clients.format("X gnt[i]") + " && stop", ["G (req_0 -> X gnt_0)", "G (req_1 -> X gnt_1)", "stop"]),
        ):
            text = specification(["req[n]", "stop"], ["gnt[n]"], [("GUARANTEE", [typed])])
            text = text.replace("MAIN", "GLOBAL { PARAMETERS { n = 2; } } MAIN")
            with self.subTest(typed):
                self.assertEqual([one.said for one in expanding.basic(text, {}).sentences], said)
                # what is shown is read again, with the same meaning
                shown = specification(["req_0", "req_1", "stop"], ["gnt_0", "gnt_1"], [("GUARANTEE", said)])
                if "[1]" not in typed:
                    self.assertEqual(
                        guarantees(expanding.expanded(shown, {})), guarantees(expanding.expanded(text, {}))
                    )
        self.file("s.tlsf", text.replace(typed, clients.format("within 2 gnt[i]") + "; G !(gnt[0] || gnt[1])").encode())
        done = self.tool("core", "s.tlsf").stdout.decode()
        self.assertRegex(done, r"  line 1  G \(req_[01] -> within 2 gnt_[01]\)\n")

    def test_a_name_that_hides_a_word_is_told(self):
        for name, formula, said in (
            ("at", "G at most one of (a, b)", "this is `most`; `at`"),
            ("within", "G (a -> within 3 b)", "this is `3`; `within`"),
            ("until", "a until b", "this is `until`; `until`"),
            ("not", "G not a", "this is `a`; `not`"),
        ):
            with self.subTest(name), self.assertRaises(Wrong) as caught:
                expanding.expanded(specification(["a", "b"], [name], [("GUARANTEE", [formula])]), {})
            self.assertIn(f"{said} is declared as a name, and so it is no word here", str(caught.exception))


if __name__ == "__main__":
    unittest.main()
