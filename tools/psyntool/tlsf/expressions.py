"""Parses expressions by the precedences of TLSF, in which `U`, `R` and `W` bind less than `->`. The words of sentences
(`until`, `weak until`, `unless`) bind as Spot's operators do: more than `&&`, and less than `!`, `X`, `F` and `G`."""
import re

from psyntool.tlsf import elsewhere, grouping
from psyntool.tlsf.syntax import (
    Between, Big, Bounded, Call, Chain, Choice, Listed, Member, Name, Number, Prefix, Range, Repeated, Truth, Within,
)  # fmt: skip
from psyntool.tlsf.tokens import Token, Wrong

# Operators with two operands, by the signs and words for them: those that bind less come first.
LEVELS = (
    ({"R": "R"}, "left"),
    ({"U": "U"}, "right"),
    ({"W": "W"}, "right"),
    ({"->": "->", "IMPLIES": "->", "<->": "<->", "EQUIV": "<->"}, "right"),
    ({"xor": "xor"}, "left"),
    ({"||": "||", "OR": "||", "|": "||", "or": "||"}, "left"),
    ({"&&": "&&", "AND": "&&", "&": "&&", "and": "&&"}, "left"),
    ({"until": "U", "weak": "W", "unless": "unless"}, "right"),
    # `!`, `X`, `F`, `G` and operators over sets whose value is a formula stand here
    ({}, "left"),
    ({"IN": "IN", "ELEM": "IN", "<-": "IN"}, "left"),
    (
        {
            "==": "==",
            "EQ": "==",
            "!=": "!=",
            "/=": "!=",
            "NEQ": "!=",
            "<": "<",
            "LE": "<",
            "<=": "<=",
            "LEQ": "<=",
            ">": ">",
            "GE": ">",
            ">=": ">=",
            "GEQ": ">=",
        },
        "left",
    ),
    ({"(+)": "(+)", "CUP": "(+)"}, "left"),
    ({"(*)": "(*)", "CAP": "(*)"}, "left"),
    ({"(\\)": "(\\)", "(-)": "(\\)", "SETMINUS": "(\\)"}, "right"),
    ({"+": "+", "PLUS": "+", "-": "-", "MINUS": "-"}, "left"),
    ({"/": "/", "DIV": "/", "%": "%", "MOD": "%"}, "right"),
    ({"*": "*", "MUL": "*"}, "left"),
)
LEVEL_OF = {word: level for level, (signs, _) in enumerate(LEVELS) for word in signs}
UNARY, SET, SUM = (
    next(level for level, (signs, _) in enumerate(LEVELS) if word in signs) for word in ("IN", "(+)", "+")
)
UNARY -= 1
# Operators before their operand: those of formulas, and those that bind most.
OF_FORMULAS = {"!": "!", "NOT": "!", "not": "!", "X": "X", "F": "F", "G": "G"}
OF_NUMBERS = {"MIN": "MIN", "MAX": "MAX", "SIZE": "SIZE", "SIZEOF": "SIZEOF"}
# Operators over sets, by the signs and words that stand before `[`.
BIG_FORMULAS = {"&&": "&&", "AND": "&&", "FORALL": "&&", "||": "||", "OR": "||", "EXISTS": "||"}
BIG_OTHERS = {"+": "+", "SUM": "+", "*": "*", "PROD": "*", "(+)": "(+)", "CUP": "(+)", "(*)": "(*)", "CAP": "(*)"}
CONSTANTS = {"true": True, "false": False}
# Words that no declaration may take as a name.
KEYWORDS = {
    *(
        word
        for word in (*LEVEL_OF, *OF_FORMULAS, *OF_NUMBERS, *BIG_FORMULAS, *BIG_OTHERS)
        if word.isalpha() and word.isupper()
    ),
    *CONSTANTS,
}
KEYWORDS |= {"otherwise", "enum", "_"}
# Words of sentences between operands and before them, which are names if a text declares them.
WORDS = ("until", "weak", "unless", "and", "or", "xor", "not", "within", "at")
AT_MOST_ONE_OF = ("at", "most", "one", "of")
AT_MOST_ONE = "at most one of"
# Operators of one letter that are written as one word, such as `GF`.
LETTERS = re.compile("[GFX]{2,}")
MOST_NESTED = 256
# Variables in the brackets of an operator over sets, and arguments of a function.
MOST_VARIABLES = 64
MOST_NUMBER = 2**63 - 1


class Parser:
    """A list of tokens, and the parser's position in it. `declared` has the names that the text declares, of which none
    is a word of sentences."""

    def __init__(self, tokens: list[Token], declared: frozenset):
        self.tokens = tokens
        self.at = 0
        self.declared = declared
        self.depth = 0
        # where each `within n f` that stands in parentheses begins
        self.closed = set()
        # whether a bar ends a size `|set|`
        self.in_bars = False
        # the operators outermost in what was parsed last; parts that tools group differently, by the places of tokens,
        # and parts of which a reader may doubt it
        self.kinds = frozenset()
        self.apart = []
        self.alike = []
        self.spans_of = grouping.spans_apart

    # ---- tokens

    @property
    def now(self) -> Token:
        return self.tokens[self.at]

    def next(self, count: int = 1) -> Token:
        return self.tokens[min(self.at + count, len(self.tokens) - 1)]

    def is_sign(self, *signs: str) -> bool:
        return self.now.kind in signs

    def is_word(self, *words: str) -> bool:
        return self.now.kind == "word" and (not words or self.now.text in words)

    def advance(self) -> Token:
        token = self.now
        self.at += 1
        return token

    def take(self, sign: str, where: str = "") -> Token:
        if not self.is_sign(sign):
            self.expected(
                {"word": "a word", "number": "a number", "string": 'a string in `"`'}.get(sign, f"`{sign}`") + where
            )
        return self.advance()

    def expected(self, what: str):
        near = [
            token.text
            for token in (self.now, *self.tokens[max(0, self.at - 1) : self.at])
            if token.kind == "word" and token.text not in self.declared
        ]
        hint = self.hidden() or elsewhere.hint(*near)
        raise Wrong(self.now.start, f"{what} is expected here, and this is {self.now.shown}{hint}")

    def hidden(self) -> str:
        """A hint at a word of sentences that stands here, and that the text declares as a name."""
        near = [token.text for token in (*self.tokens[max(0, self.at - 1) : self.at], self.now) if token.kind == "word"]
        found = next((text for text in near if text in WORDS and text in self.declared), None)
        return f"; `{found}` is declared as a name, and so it is no word here" if found else ""

    def name(self, of: str) -> Token:
        """Takes a word that becomes a name."""
        if not self.is_word():
            self.expected(f"the name of {of}")
        if self.now.text in KEYWORDS - self.declared:
            raise Wrong(self.now.start, f"`{self.now.text}` is a word of TLSF, and can't be the name of {of}")
        return self.advance()

    # ---- expressions

    def expression(self):
        return self.binary(0)

    def binary(self, loosest: int, is_bare: bool = False):
        """Parses an expression whose operators outside parentheses bind at least as those of the level `loosest`. If it
        is bare, `[*n]` behind its first operand is left."""
        self.depth += 1
        if self.depth > MOST_NESTED:
            raise Wrong(self.now.start, f"parentheses and operators nest more than {MOST_NESTED} deep here")
        begin = self.at
        left = self.prefix(loosest, is_bare)
        self.depth -= 1
        self.kinds = frozenset()
        while (level := self.level()) is not None and level >= loosest:
            left = self.chain(left, level, begin)
        return left

    def level(self):
        """The level of the operator that stands here, or None."""
        text, kind = self.now.text, self.now.kind
        if text not in LEVEL_OF or kind in ("string", "number") or text == "|" and self.in_bars:
            return None
        if kind == "word" and (text in self.declared or text == "weak" and self.next().text != "until"):
            return None
        return LEVEL_OF[text]

    def sign_of(self, token: Token, level: int) -> str:
        """The sign of an operator between operands, which stands at a level."""
        return LEVELS[level][0][token.text]

    def above(self, level):
        """The level of the operators that bind more than those of a level, but least of these."""
        return level + 1

    def is_right(self, level) -> bool:
        """Whether the operators of a level group to the right."""
        return LEVELS[level][1] == "right"

    def chain(self, left, level, begin: int):
        """Parses the operators of a level with the operands behind them; `left` is the operand before them, and `begin`
        the place of its first token."""
        signs, tokens, operands, spans = [], [], [left], [(begin, self.at, self.kinds)]
        while self.level() == level:
            token = self.advance()
            if token.text == "weak":
                self.advance()
            signs.append(self.sign_of(token, level))
            tokens.append(token)
            start = self.at
            operands.append(self.binary(self.above(level)))
            spans.append((start, self.at, self.kinds))
        words, places = [token.text for token in tokens], [token.start for token in tokens]
        self.kinds = grouping.kinds_of(words)
        self.apart += self.spans_of(words, spans, self.is_right(level))
        self.alike += grouping.spans_alike(words, spans)
        if "unless" in signs:
            return self.with_unless(signs, places, operands)
        return Chain(left.at, tuple(signs), tuple(places), tuple(operands), self.is_right(level))

    def with_unless(self, signs: list, places: list, operands: list):
        """Operands with `until`, `weak until` and `unless` between them, which group to the right. Directly behind
        `within n f`, `unless` ends the waiting; elsewhere it is `weak until`."""
        right = operands.pop()
        while operands:
            left, sign, place = operands.pop(), signs.pop(), places.pop()
            if sign == "unless" and isinstance(left, Within) and left.end is None and left.at not in self.closed:
                right = Within(left.at, left.count, left.operand, right)
            else:
                right = Chain(left.at, ("W" if sign == "unless" else sign,), (place,), (left, right), True)
        return right

    def prefix(self, loosest: int, is_bare: bool):
        """Parses an operator before its operand with this operand, or an operand. `[*n]` binds less than `!`, and more
        than the other operators."""
        token = self.now
        sign = self.formula_sign(token)
        if sign and loosest > UNARY:
            raise Wrong(
                token.start, f"{token.shown} binds less than the operator before it: write parentheses around it"
            )
        if sign == "big":
            return self.big(BIG_FORMULAS[token.text], UNARY)
        if sign == "within":
            return self.within()
        if sign == "letters":
            self.advance()
            operand = self.binary(UNARY)
            for place in reversed(range(len(token.text))):
                operand = Prefix(token.start + place, token.text[place], operand)
            return operand
        if sign == "!":
            self.advance()
            return self.behind(Prefix(token.start, sign, self.binary(UNARY, True)), is_bare)
        if sign:
            self.advance()
            return self.bounded(token, sign) if self.is_sign("[") else Prefix(token.start, sign, self.binary(UNARY))
        if token.text in BIG_OTHERS and token.kind not in ("number", "string") and self.next().kind == "[":
            return self.big(BIG_OTHERS[token.text], SUM if BIG_OTHERS[token.text] in ("(+)", "(*)") else len(LEVELS))
        if self.is_word(*OF_NUMBERS) and token.text not in self.declared:
            self.advance()
            return Prefix(token.start, OF_NUMBERS[token.text], self.binary(len(LEVELS)))
        return self.behind(self.operand(), is_bare)

    def formula_sign(self, token: Token) -> str:
        """The operator of formulas that stands before its operand here, or an empty string."""
        if token.kind in ("number", "string"):
            return ""
        if token.text in BIG_FORMULAS and self.next().kind == "[":
            return "big"
        if token.text in self.declared:
            return ""
        if token.text == "within" and self.next().kind in ("number", "word", "("):
            return "within"
        if token.kind == "word" and LETTERS.fullmatch(token.text):
            return "letters"
        return OF_FORMULAS.get(token.text, "")

    def bounded(self, token: Token, sign: str):
        """Parses the bounds in brackets behind `X`, `F` or `G`, and the operand."""
        self.advance()
        low, high = self.inner(), None
        if sign != "X":
            self.take(":", f" between the bounds of `{sign}`")
            high = self.inner()
        self.take("]")
        return Bounded(token.start, sign, low, high, self.binary(UNARY))

    def within(self):
        """Parses `within n f`, where n is a number, a name or in parentheses."""
        token = self.advance()
        count = (
            self.number()
            if self.is_sign("number")
            else self.parenthesised()
            if self.is_sign("(")
            else Name(self.now.start, self.name("a number").text)
        )
        return Within(token.start, count, self.binary(UNARY))

    def inner(self):
        """Parses an expression inside brackets, in which no bar ends a size outside them."""
        before, self.in_bars = self.in_bars, False
        made = self.expression()
        self.in_bars = before
        return made

    # ---- operators over sets

    def big(self, sign: str, level: int):
        token = self.advance()
        self.take("[")
        choices = [self.choice()]
        while self.is_sign(","):
            if len(choices) == MOST_VARIABLES:
                raise Wrong(self.now.start, f"these brackets have more than {MOST_VARIABLES} variables")
            self.advance()
            choices.append(self.choice())
        self.take("]")
        return Big(token.start, sign, tuple(choices), self.binary(level))

    def choice(self):
        """Parses `i IN set` or `low <= i < high`."""
        if self.is_word() and self.next().text in ("IN", "ELEM", "<-"):
            name = self.name("a variable")
            self.advance()
            return Choice(name.start, name.text, self.binary(SET))
        low = self.binary(SUM)
        is_low_left_out = self.comparison()
        name = self.name("a variable")
        is_high_left_out = self.comparison()
        return Between(name.start, low, is_low_left_out, name.text, is_high_left_out, self.binary(SUM))

    def comparison(self) -> bool:
        """Takes `<`, and returns true, or takes `<=`."""
        sign = LEVELS[LEVEL_OF["<"]][0].get(self.now.text)
        if sign not in ("<", "<="):
            raise Wrong(
                self.now.start,
                f"in these brackets stands `i IN set` or `low <= i < high`, and this is {self.now.shown}",
            )
        self.advance()
        return sign == "<"

    # ---- operands

    def operand(self):
        token = self.now
        if self.is_sign("("):
            return self.parenthesised()
        if self.is_sign("number"):
            return self.number()
        if self.is_sign("{"):
            return self.set()
        if self.is_sign("|"):
            return self.size()
        if self.is_word(*CONSTANTS):
            return Truth(token.start, CONSTANTS[self.advance().text])
        if self.is_word("_"):
            return Name(token.start, self.advance().text)
        if self.is_word() and token.text not in KEYWORDS - self.declared and self.level() is None:
            return self.named()
        return self.expected("an operand")

    def number(self) -> Number:
        token = self.take("number")
        if len(token.text) > len(str(MOST_NUMBER)) or int(token.text) > MOST_NUMBER:
            raise Wrong(token.start, f"a number is at most {MOST_NUMBER:,}")
        return Number(token.start, int(token.text))

    def parenthesised(self):
        self.take("(")
        made = self.inner()
        self.take(")")
        if isinstance(made, Within):
            self.closed.add(made.at)
        return made

    def set(self):
        """Parses a set: `{}`, `{a, b}` or `{first, second .. last}`."""
        token, elements = self.take("{"), []
        while not self.is_sign("}"):
            elements.append(self.inner())
            if self.is_sign(".."):
                if len(elements) != 2:
                    raise Wrong(
                        self.now.start, "a range gives its first two numbers and its last one, as in {0, 1 .. n - 1}"
                    )
                self.advance()
                last = self.inner()
                self.take("}")
                return Range(token.start, *elements, last)
            if not self.is_sign("}"):
                self.take(",")
                if self.is_sign("}"):
                    self.expected("an element")
        self.advance()
        return Listed(token.start, tuple(elements))

    def size(self):
        token, before, self.in_bars = self.take("|"), self.in_bars, True
        made = self.expression()
        self.in_bars = before
        self.take("|", ", which ends the size of a set,")
        return Prefix(token.start, "SIZE", made)

    def named(self):
        """Parses a name, a signal of a bus, or a call."""
        token = self.advance()
        if (
            token.text == "at"
            and token.text not in self.declared
            and tuple(self.next(count - 1).text for count in (1, 2, 3)) == AT_MOST_ONE_OF[1:]
        ):
            self.at += 3
            return Call(token.start, AT_MOST_ONE, self.arguments())
        if self.is_sign("("):
            return Call(token.start, token.text, self.arguments())
        if self.is_sign("[") and not self.is_repetition():
            self.advance()
            index = self.inner()
            self.take("]")
            return Member(token.start, token.text, index)
        return Name(token.start, token.text)

    def arguments(self) -> tuple:
        self.take("(")
        found = []
        while not self.is_sign(")"):
            found.append(self.inner())
            if not self.is_sign(")"):
                self.take(",")
                if self.is_sign(")"):
                    self.expected("an argument")
        self.advance()
        return tuple(found)

    def is_repetition(self) -> bool:
        """Whether `[*n]` stands here, and not an index that begins with a product `*[..]`."""
        return self.is_sign("[") and self.next().kind == "*" and self.next(2).kind != "["

    def behind(self, made, is_bare: bool):
        """Parses what may stand behind an operand, if it is not bare: `[*n]`."""
        while not is_bare and self.is_repetition():
            self.at += 2
            made = Repeated(made.at, self.inner(), made)
            self.take("]")
        return made
