"""Parses a specification in TLSF's full form: INFO, GLOBAL if it is there, and MAIN."""
import re

from psyntool.tlsf import grouping, readings
from psyntool.tlsf.expressions import KEYWORDS, LETTERS, MOST_VARIABLES, WORDS, Parser
from psyntool.tlsf.syntax import Clause, Definition, Enumeration, EnumValue, Match, Name, Section, Signal, Specification
from psyntool.tlsf.tokens import Token, Wrong, tokens_of

LISTS = ("INPUTS", "OUTPUTS")
ITEMS = ("TITLE", "DESCRIPTION", "SEMANTICS", "TARGET", "TAGS")
NAME = re.compile("[A-Za-z_][A-Za-z0-9_'@]*")
ORDERS = ("Mealy", "Moore")
STRICT, FINITE = "Strict", "Finite"
# The sections of formulas, with their words in the basic form.
SECTIONS = {
    "INITIALLY": "INITIALLY",
    "PRESET": "PRESET",
    "REQUIRE": "REQUIRE",
    "REQUIREMENTS": "REQUIRE",
    "ASSERT": "ASSERT",
    "INVARIANTS": "ASSERT",
    "ASSUME": "ASSUME",
    "ASSUMPTIONS": "ASSUME",
    "GUARANTEE": "GUARANTEE",
    "GUARANTEES": "GUARANTEE",
}
SIGNS_OF_BASIC_FORM = {"string", "{", "}", "(", ")", ";", ":", ",", "!", "&&", "||", "->", "<->"}
WORDS_OF_BASIC_FORM = {"X", "F", "G", "U", "R", "W", "true", "false"}
# An enumeration has at most so many strings of bits, so that comparing each two of them takes no long time.
MOST_PATTERNS = 1024


def read(text: str) -> Specification:
    """The specification that a text describes."""
    tokens = tokens_of(text)
    return Reader(tokens, declared_by(tokens)).read()


def is_in_full_form(text: str) -> bool:
    """Whether a text has a word or a sign that the full form alone has."""
    try:
        tokens = tokens_of(text)
    except Wrong:
        return False
    return has_full_form(tokens, declared_by(tokens)) or len(set(orders_of(tokens).values())) > 1


def has_full_form(tokens: list[Token], declared: frozenset) -> bool:
    return any(is_of_full_form(token, tokens[place + 1], declared) for place, token in enumerate(tokens[:-1]))


def orders_of(tokens: list[Token]) -> dict:
    """The orders of moves that SEMANTICS and TARGET name."""
    found = {}
    for place, token in enumerate(tokens[:-1]):
        if token.text in ("SEMANTICS", "TARGET") and tokens[place + 1].kind == ":":
            said = [one.text for one in tokens[place + 2 : place + 5] if one.text in ORDERS]
            found |= {token.text: said[0]} if said else {}
    return found


def is_of_full_form(token: Token, following: Token, declared: frozenset) -> bool:
    if token.kind != "word":
        return token.kind not in SIGNS_OF_BASIC_FORM
    if token.text in declared or token.text in WORDS_OF_BASIC_FORM:
        return False
    return (
        token.text in KEYWORDS
        or token.text in ("GLOBAL", *WORDS)
        or bool(LETTERS.fullmatch(token.text))
        or following.kind == "("
    )


def declared_by(tokens: list[Token]) -> frozenset:
    """The names that a text declares, as far as a look at its tokens shows them: all words of INPUTS and OUTPUTS, in
    GLOBAL the words before `=` and `:` and those of a function's head, and each word before `IN`. In the basic form,
    words of the full form may be names."""
    found, block, depth = set(), "", 0
    for place, token in enumerate(tokens):
        depth += {"{": 1, "}": -1}.get(token.kind, 0)
        if token.kind == "word" and token.text in (*LISTS, "PARAMETERS", "DEFINITIONS", "MAIN", *SECTIONS):
            block = token.text
        elif token.kind == "word" and block in LISTS:
            found.add(token.text)
        elif token.kind == "word" and block in ("PARAMETERS", "DEFINITIONS") and tokens[place - 1].kind in ("{", ";"):
            found |= head_of(tokens, place)
        elif token.kind == "word" and tokens[place + 1].text in ("IN", "ELEM", "<-"):
            found.add(token.text)
    names = frozenset(found) - WORDS_OF_BASIC_FORM
    return names - KEYWORDS if has_full_form(tokens, names) else names


def head_of(tokens: list[Token], place: int) -> set:
    """The names in the head of a declaration: those before `=`, and the values of an enumeration."""
    is_enumeration, found = tokens[place].text == "enum", set()
    while tokens[place].kind not in (";", "}", "end") and (is_enumeration or tokens[place].kind != "="):
        found |= {tokens[place].text} if tokens[place].kind == "word" else set()
        place += 1
    return found - {"enum"}


class Reader(Parser):
    """Parses a text into a `Specification`."""

    def __init__(self, tokens: list[Token], declared: frozenset):
        super().__init__(tokens, declared)
        self.read_words = {}
        self.made = Specification()
        self.semantics = None
        # expressions that mix operators: the places of their tokens, and of the parts that want parentheses
        self.mixed = []

    def read(self) -> Specification:
        self.open("INFO")
        while self.is_word(*ITEMS):
            self.item(self.once())
        self.take_end("}", "TITLE, DESCRIPTION, SEMANTICS, TARGET, TAGS")
        self.check_order()
        if self.is_word("GLOBAL"):
            self.open("GLOBAL")
            while self.is_word("PARAMETERS", "DEFINITIONS"):
                self.block(self.once())
            self.take_end("}", "PARAMETERS, DEFINITIONS")
        self.open("MAIN")
        while self.is_word(*LISTS, *SECTIONS):
            self.section()
        self.take_end("}", "INPUTS, OUTPUTS or a section of formulas")
        if not self.is_sign("end"):
            self.expected("the end of the text")
        return self.made

    # ---- blocks

    def open(self, word: str):
        if not self.is_word(word):
            self.expected(f"`{word}`")
        self.advance()
        self.take("{")

    def take_end(self, sign: str, others: str):
        if not self.is_sign(sign):
            self.expected(f"`{sign}` or {others}")
        return self.advance()

    def once(self) -> Token:
        """Takes a word that stands at most once."""
        if self.now.text in self.read_words:
            raise Wrong(self.now.start, f"{self.now.text} stands twice")
        self.read_words[self.now.text] = self.now
        return self.advance()

    def item(self, token: Token):
        self.take(":")
        if token.text == "TITLE":
            self.made.title = self.take("string").text
        elif token.text == "DESCRIPTION":
            self.made.description = self.take("string").text
        elif token.text == "TAGS":
            self.made.tags = self.tags()
        elif token.text == "SEMANTICS":
            self.semantics = self.now
            self.made.semantics, self.made.is_strict = self.semantics_words()
        else:
            self.made.target = self.order("TARGET")

    def tags(self) -> tuple:
        """Parses tags, which are words or strings. Only words have a form in the basic form."""
        found = []
        while self.is_sign("string") or self.is_word() and not self.is_word(*ITEMS):
            token = self.advance()
            text = token.text.strip('"')
            found += [text] if NAME.fullmatch(text) and text not in ITEMS else []
            if not self.is_sign(","):
                break
            self.advance()
            if not (self.is_sign("string") or self.is_word() and not self.is_word(*ITEMS)):
                self.expected("a tag")
        return tuple(found)

    def semantics_words(self) -> tuple:
        """Parses `Mealy`, `Moore`, and either of them with `Strict` before it or behind it."""
        if self.is_word(STRICT):
            self.advance()
            self.take(",", " behind `Strict`")
            return self.order("SEMANTICS"), True
        order = self.order("SEMANTICS")
        if not self.is_sign(","):
            return order, False
        self.advance()
        if not self.is_word(STRICT):
            self.order_of_finite_words()
            self.expected(f"`{STRICT}`")
        self.advance()
        return order, True

    def order(self, item: str) -> str:
        self.order_of_finite_words()
        if not self.is_word(*ORDERS):
            self.expected("`Mealy` or `Moore`" + (f", with `,{STRICT}` or without," if item == "SEMANTICS" else ""))
        return self.advance().text

    def order_of_finite_words(self):
        if self.is_word(FINITE):
            raise Wrong(
                self.now.start,
                "psyn reads formulas on infinite words, and `Finite` says that this specification is on finite ones",
            )

    def check_order(self):
        """Refuses a text that does not say who moves first."""
        end = self.tokens[self.at - 1].start
        for item, said in (("SEMANTICS", self.made.semantics), ("TARGET", self.made.target)):
            if not said:
                raise Wrong(end, f"INFO has no {item}: write `{item}: Mealy`, or Moore if outputs come before inputs")

    # ---- expressions

    def whole(self):
        """Parses an expression that is no part of another one. If other tools group its operators differently, it is
        noted how it was read, or it is refused if it has words of sentences, which only a text for psyn has."""
        begin, self.apart, self.alike = self.at, [], []
        made = self.expression()
        if self.apart:
            spans = [(first - begin, last - begin) for first, last in (*self.apart, *self.alike)]
            self.mixed.append((begin, self.at, spans))
            tokens = self.tokens[begin : self.at]
            if readings.has_words(tokens, self.declared):
                readings.refuse(tokens, self.declared, spans)
            self.made.grouped.append((tokens[0].start, grouping.with_parentheses(tokens, spans)))
        return made

    # ---- declarations

    def block(self, token: Token):
        self.take("{")
        while not self.is_sign("}"):
            if token.text == "DEFINITIONS" and self.is_word("enum"):
                self.made.enumerations.append(self.enumeration())
            else:
                (self.made.parameters if token.text == "PARAMETERS" else self.made.definitions).append(
                    self.definition(token.text)
                )
            self.end_of_declaration()
        self.advance()

    def end_of_declaration(self):
        if not self.is_sign("}"):
            self.take(";", " or an operator")

    def definition(self, block: str) -> Definition:
        """Parses `name = ..` or `name(argument, ..) = ..`."""
        name = self.name("a parameter" if block == "PARAMETERS" else "a definition")
        arguments = self.head() if self.is_sign("(") and block != "PARAMETERS" else None
        self.take("=")
        clauses = self.clauses() if block != "PARAMETERS" else [Clause(None, self.whole())]
        return Definition(name.start, name.text, arguments, tuple(clauses))

    def head(self) -> tuple:
        """Parses the arguments of a function, and returns their names."""
        self.take("(")
        found = [self.name("an argument")]
        while self.is_sign(","):
            if len(found) == MOST_VARIABLES:
                raise Wrong(self.now.start, f"this function has more than {MOST_VARIABLES} arguments")
            self.advance()
            found.append(self.name("an argument"))
            if found[-1].text in {token.text for token in found[:-1]}:
                raise Wrong(found[-1].start, f"two arguments have the name `{found[-1].text}`")
        self.take(")")
        return tuple(token.text for token in found)

    def clauses(self) -> list:
        """Parses the cases of a definition: `guard : value`, or a value that always holds."""
        found = []
        while True:
            found.append(self.clause())
            if found[-1].guard is None:
                return found
            if self.is_sign(";", "}"):
                return found

    def clause(self) -> Clause:
        if self.is_word("otherwise"):
            self.advance()
            self.take(":")
            return Clause(None, self.whole())
        guard = self.whole()
        if self.is_sign("~"):
            place = self.advance().start
            guard = Match(place, guard, self.whole())
            self.take(":", " behind a pattern")
        elif self.is_sign(":"):
            self.advance()
        else:
            return Clause(None, guard)
        return Clause(guard, self.whole())

    def enumeration(self) -> Enumeration:
        """Parses `enum name = value : bits, bits value : bits ..`."""
        self.advance()
        name, values, count = self.name("an enumeration"), [], 0
        self.take("=")
        while self.is_word():
            value = self.name("a value")
            self.take(":")
            patterns = [self.bits()]
            while self.is_sign(","):
                self.advance()
                patterns.append(self.bits())
            count += len(patterns)
            if count > MOST_PATTERNS:
                raise Wrong(value.start, f"an enumeration has at most {MOST_PATTERNS:,} strings of bits")
            values.append(EnumValue(value.start, value.text, tuple(patterns)))
        if not values:
            self.expected("the name of a value")
        return Enumeration(name.start, name.text, tuple(values))

    def bits(self) -> tuple:
        """Parses bits, such as `01*`, and returns them with their offset. No blank stands between them."""
        start, text = self.now.start, ""
        while self.is_sign("number", "*") and self.now.start == start + len(text):
            text += self.advance().text
        wrong = next((place for place, sign in enumerate(text) if sign not in "01*"), None)
        if wrong is not None:
            raise Wrong(start + wrong, "a bit is `0`, `1`, or `*` for both")
        if not text:
            self.expected("a string of bits, such as `01*`,")
        return start, text

    # ---- MAIN

    def section(self):
        if self.is_word(*LISTS):
            signals = self.made.inputs if self.once().text == "INPUTS" else self.made.outputs
            self.listed(lambda: signals.append(self.signal()))
        else:
            formulas, word = [], SECTIONS[self.advance().text]
            self.listed(lambda: formulas.append(self.placed()))
            self.made.sections.append(Section(word, tuple(formulas)))

    def placed(self) -> tuple:
        """Parses an expression; returns the offsets of its begin and its end, and the expression."""
        begin, made = self.now.start, self.whole()
        return begin, self.tokens[self.at - 1].stop, made

    def listed(self, one):
        """Parses entries, each of which `;` ends; behind the last one it may be missing."""
        self.take("{")
        while not self.is_sign("}"):
            one()
            self.end_of_declaration()
        self.advance()

    def signal(self) -> Signal:
        """Parses `name`, `name[width]` or `enumeration name`."""
        name, enumeration = self.name("a signal"), None
        if self.is_word():
            enumeration, name = Name(name.start, name.text), self.name("a signal")
        if enumeration or not self.is_sign("["):
            return Signal(name.start, name.text, None, enumeration)
        self.advance()
        width = self.inner()
        self.take("]")
        return Signal(name.start, name.text, width)
