"""A second reader of specifications in TLSF's basic form, by recursive descent.

`read(text)` gives the meaning of a text, a `Specification`, or raises `Rejected` with the number, the name and the
offset of its first fault. It is written from the grammar alone, and shares nothing with psyn's own reader, so tests
compare the two.

Formulas are nested tuples: `("true",)`, `("false",)`, `("name", 3)` for proposition 3, and operators with their
operands, as `("G", f)` and `("&&", f, g)`.
"""

import re
import sys
from dataclasses import dataclass, field

TEXT_LIMIT = 16777216
NAME_LIMIT = 64
USE_LIMIT = 65535
NESTING_LIMIT = 256

FAULT_NAMES = {80: "Syntax", 81: "Name", 82: "Twice", 83: "Order", 84: "Limit"}

ITEMS = ("TITLE", "DESCRIPTION", "TAGS", "SEMANTICS", "TARGET")
SECTIONS = {
    "INITIALLY": "Initially",
    "PRESET": "Preset",
    "REQUIRE": "Require",
    "REQUIREMENTS": "Require",
    "ASSERT": "Assert",
    "INVARIANTS": "Assert",
    "ASSUME": "Assume",
    "ASSUMPTIONS": "Assume",
    "GUARANTEE": "Guarantee",
    "GUARANTEES": "Guarantee",
}
RESERVED = ("X", "F", "G", "U", "R", "W", "true", "false")

WORD = re.compile(rb"[A-Za-z_][A-Za-z0-9_'@]*")
STRING = re.compile(rb'"[^"]*"')
SIGN = re.compile(rb"<->|->|&&|\|\||[{}();:,!]")
BLANKS = re.compile(rb"[\t-\r ]+")
LINE = re.compile(rb"//[^\n]*")


class Rejected(Exception):
    """The first fault of a text."""

    def __init__(self, number, offset):
        super().__init__(f"fault {number} {FAULT_NAMES[number]} at {offset}")
        self.number = number
        self.offset = offset


@dataclass(frozen=True)
class Token:
    """A token: "word", "string", the sign itself, "wrong" or "end"; its bytes and their offsets."""

    kind: str
    text: str
    start: int
    stop: int


@dataclass
class Specification:
    """The meaning of a text."""

    title: tuple | None = None
    names: list = field(default_factory=list)
    order: str = ""
    is_strict: bool = False
    formulas: list = field(default_factory=list)
    whole: tuple = ()


def behind_comment(text, at):
    """The offset behind the comment whose `/*` is at `at`; None if it is not closed."""
    depth = 0
    while at < len(text):
        pair = text[at : at + 2]
        if pair == b"/*":
            depth += 1
            at += 2
        elif pair == b"*/":
            depth -= 1
            at += 2
            if depth == 0:
                return at
        else:
            at += 1
    return None


def next_token(text, at):
    """The first token from the offset `at` on."""
    while at < len(text):
        skipped = BLANKS.match(text, at) or LINE.match(text, at)
        if skipped:
            at = skipped.end()
            continue
        if text.startswith(b"/*", at):
            behind = behind_comment(text, at)
            if behind is None:
                return Token("wrong", "", at, at + 1)
            at = behind
            continue
        for kind, form in (("word", WORD), ("string", STRING), ("sign", SIGN)):
            found = form.match(text, at)
            if found:
                word = found.group().decode("latin-1")
                return Token(word if kind == "sign" else kind, word, at, found.end())
        return Token("wrong", "", at, at + 1)
    return Token("end", "", len(text), len(text))


class Parser:
    """Reads a text from its beginning. `token` is the next token."""

    def __init__(self, text):
        self.text = text
        self.token = next_token(text, 0)
        self.used = 0
        self.depth = 0
        self.stop = 0
        self.seen = set()
        self.semantics = None
        self.target = None
        self.result = Specification()

    # Tokens.

    def fail(self, number):
        raise Rejected(number, self.token.start)

    def is_word(self, *words):
        return self.token.kind == "word" and (not words or self.token.text in words)

    def advance(self):
        token = self.token
        self.token = next_token(self.text, token.stop)
        return token

    def take(self, kind):
        if self.token.kind != kind:
            self.fail(80)
        return self.advance()

    def take_word(self, *words):
        if not self.is_word(*words):
            self.fail(80)
        return self.advance()

    def once(self):
        """Takes a word that may occur only once."""
        if self.token.text in self.seen:
            self.fail(82)
        self.seen.add(self.token.text)
        return self.advance().text

    # The two parts.

    def read(self):
        self.take_word("INFO")
        self.take("{")
        while self.is_word(*ITEMS):
            self.item(self.once())
        self.take("}")
        if self.is_word("MAIN") and (self.semantics is None or self.semantics != self.target):
            self.fail(83)
        self.take_word("MAIN")
        self.take("{")
        while self.is_word("INPUTS", "OUTPUTS", *SECTIONS):
            if self.is_word("INPUTS", "OUTPUTS"):
                self.names(self.once())
            else:
                self.section(SECTIONS[self.advance().text])
        self.take("}")
        self.take("end")
        self.result.order = self.target
        self.result.whole = whole(self.result)
        return self.result

    def item(self, name):
        self.take(":")
        if name in ("TITLE", "DESCRIPTION"):
            string = self.take("string")
            if name == "TITLE":
                self.result.title = (string.start, string.stop)
        elif name == "TAGS":
            if self.is_word() and not self.is_word(*ITEMS):
                self.tag()
                while self.token.kind == ",":
                    self.advance()
                    self.tag()
        elif name == "SEMANTICS":
            if self.is_word("Strict"):
                self.advance()
                self.result.is_strict = True
                self.take(",")
                self.semantics = self.take_word("Mealy", "Moore").text
            else:
                self.semantics = self.take_word("Mealy", "Moore").text
                if self.token.kind == ",":
                    self.advance()
                    self.take_word("Strict")
                    self.result.is_strict = True
        else:
            self.target = self.take_word("Mealy", "Moore").text

    def tag(self):
        if self.is_word(*ITEMS):
            self.fail(80)
        self.take("word")

    def names(self, side):
        self.take("{")
        while self.token.kind != "}":
            if not self.is_word():
                self.fail(80)
            name = self.token.text
            if name in RESERVED or any(name == known for known, _ in self.result.names):
                self.fail(81)
            if len(self.result.names) == NAME_LIMIT:
                self.fail(84)
            self.result.names.append((name, side == "OUTPUTS"))
            self.advance()
            if self.token.kind != "}":
                self.take(";")
        self.advance()

    def section(self, kind):
        self.take("{")
        while self.token.kind != "}":
            start = self.token.start
            formula = self.formula()
            self.result.formulas.append((kind, start, self.stop, formula))
            if self.token.kind != "}":
                self.take(";")
        self.advance()

    # Formulas.

    def count(self):
        if self.used == USE_LIMIT:
            self.fail(84)
        self.used += 1

    def formula(self):
        first = self.unary()
        if self.is_word("U", "R", "W"):
            self.count()
            operator = self.advance().text
            return (operator, first, self.unary())
        side = self.side(first)
        if self.token.kind == "<->":
            self.count()
            self.advance()
            return ("<->", side, self.side(self.unary()))
        sides = [side]
        while self.token.kind == "->":
            self.count()
            self.advance()
            sides.append(self.side(self.unary()))
        result = sides.pop()
        while sides:
            result = ("->", sides.pop(), result)
        return result

    def side(self, first):
        result = self.conj(first)
        while self.token.kind == "||":
            self.count()
            self.advance()
            result = ("||", result, self.conj(self.unary()))
        return result

    def conj(self, first):
        result = first
        while self.token.kind == "&&":
            self.count()
            self.advance()
            result = ("&&", result, self.unary())
        return result

    def nest(self):
        if self.depth == NESTING_LIMIT:
            self.fail(84)
        self.depth += 1

    def unary(self):
        if self.token.kind == "!" or self.is_word("X", "F", "G"):
            self.count()
            self.nest()
            operator = self.advance().text
            result = (operator, self.unary())
            self.depth -= 1
            return result
        if self.token.kind == "(":
            self.nest()
            self.advance()
            result = self.formula()
            self.stop = self.take(")").stop
            self.depth -= 1
            return result
        return self.leaf()

    def leaf(self):
        if self.is_word("true", "false"):
            self.count()
            result = (self.token.text,)
        elif self.is_word() and not self.is_word("U", "R", "W"):
            known = [name for name, _ in self.result.names]
            if self.token.text not in known:
                self.fail(81)
            self.count()
            result = ("name", known.index(self.token.text))
        else:
            self.fail(80)
        self.stop = self.advance().stop
        return result


def conjunction(specification, kind):
    """The conjunction of the formulas in sections of a kind."""
    result = None
    for section, _, _, formula in specification.formulas:
        if section == kind:
            result = formula if result is None else ("&&", result, formula)
    return ("true",) if result is None else result


def whole(specification):
    """The formula of the whole specification."""
    kinds = ("Initially", "Preset", "Require", "Assert", "Assume", "Guarantee")
    initially, preset, require, assertion, assume, guarantee = (conjunction(specification, kind) for kind in kinds)
    premise = ("&&", ("G", require), assume)
    if specification.is_strict:
        safe = ("&&", preset, ("W", assertion, ("!", require)))
        return ("->", initially, ("&&", safe, ("->", premise, guarantee)))
    return ("->", initially, ("&&", preset, ("->", premise, ("&&", ("G", assertion), guarantee))))


def read(text):
    """The specification that a text describes."""
    if len(text) > TEXT_LIMIT:
        raise Rejected(84, TEXT_LIMIT)
    deepest = sys.getrecursionlimit()
    sys.setrecursionlimit(max(deepest, 20 * NESTING_LIMIT))
    try:
        return Parser(text).read()
    finally:
        sys.setrecursionlimit(deepest)
