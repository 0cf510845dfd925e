"""Sentences of a command line, in the syntax of Spot and of other tools, as a specification.

`U`, `R`, `W` and `M` bind more than `&`, as `until` does in sentences of TLSF's full form; the words of those sentences
serve here too.
"""
import re

from psyntool.tlsf.expanding import deep_calls
from psyntool.tlsf.expressions import LEVEL_OF, Parser
from psyntool.tlsf.names import parts_of
from psyntool.tlsf.syntax import Member, Name, Prefix, Section, Signal, Specification
from psyntool.tlsf.tokens import Token, Wrong, shown_byte

FORM = re.compile(
    r"""(?P<blank>[\t-\r ]+)
      | (?P<word>[A-Za-z_][A-Za-z0-9_'@]*)
      | (?P<number>[0-9]+)
      | (?P<sign><->|<=>|->|=>|\[\]|<>|&&|/\\|\|\||\\/|\.\.|[][(),:!~&|^*])""",
    re.X,
)
# Signs and words of other tools, as they are written in TLSF's full form.
SIGNS = {"<=>": "<->", "=>": "->", "/\\": "&&", "\\/": "||", "~": "!", "..": ":", "^": "xor", "[]": "G", "<>": "F"}
WORDS = {"tt": "true", "ff": "false", "V": "R", "U": "U", "R": "R", "W": "W", "M": "M"}
CONSTANTS = {"0": "false", "1": "true"}
BETWEEN = ("U", "R", "W", "M")


def tokens_of(text: str, begin: int, known: frozenset) -> list[Token]:
    """The tokens of a sentence, as TLSF's full form has them; their offsets begin with the given one. A known name is
    no word of another tool."""
    tokens, at, brackets = [], 0, 0
    while at < len(text):
        found = FORM.match(text, at)
        if not found:
            raise Wrong(begin + at, f"no word, number or sign of a formula begins with {shown_byte(text[at])}")
        said, at = found[0], found.end()
        if found["blank"]:
            continue
        brackets += {"[": 1, "]": -1}.get(said, 0)
        kind, said = kind_of(found, tokens, brackets, known)
        tokens.append(Token(kind, said, begin + found.start(), begin + at))
    return [*tokens, Token("end", "", begin + len(text), begin + len(text))]


def kind_of(found, before: list, brackets: int, known: frozenset) -> tuple:
    """The kind and the text of a token. Outside brackets, and not behind `within`, 0 and 1 are truth values."""
    said = found[0]
    if found["number"]:
        is_truth = said in CONSTANTS and not brackets and not (before and before[-1].text == "within")
        return ("word", CONSTANTS[said]) if is_truth else ("number", said)
    if found["word"]:
        return "word", said if said in known else WORDS.get(said, said)
    said = SIGNS.get(said, said)
    return ("word", said) if said.isalpha() else (said, said)


class Sentences(Parser):
    """Parses sentences in which `U`, `R`, `W` and `M` bind as `until` does."""

    def level(self):
        if self.now.kind == "word" and self.now.text in BETWEEN and self.now.text not in self.declared:
            return LEVEL_OF["until"]
        return super().level()

    def sign_of(self, token: Token, level: int) -> str:
        return token.text if token.text in BETWEEN else super().sign_of(token, level)


def read(sections: list, inputs, outputs: list, is_moore: bool, is_strict: bool) -> tuple:
    """The specification of sentences, and the text in which its offsets are. `sections` has the word of a section for
    each sentence; `inputs` is None if each other name of the sentences is an input."""
    known, found, begin = frozenset([*(inputs or ()), *outputs]), [], 0
    for word, text in sections:
        with deep_calls():
            found.append(parsed(word, tokens_of(text, begin, known), known, is_strict))
        begin += len(text) + 1
    if inputs is None:
        used = (name for section in found for _, _, made in section.formulas for name in names_in(made))
        inputs = [name for name in dict.fromkeys(used) if name not in known]
    order = "Moore" if is_moore else "Mealy"
    declared = [[Signal(0, name) for name in names] for names in (inputs, outputs)]
    made = Specification(
        semantics=order, is_strict=is_strict, target=order, inputs=declared[0], outputs=declared[1], sections=found
    )
    return made, "\n".join(text for _, text in sections)


def parsed(word: str, tokens: list, known: frozenset, is_strict: bool) -> Section:
    """The section of one sentence."""
    parser = Sentences(tokens, known)
    first, made = parser.now.start, parser.expression()
    if not parser.is_sign("end"):
        parser.expected("the end of the sentence")
    return section_of(word, first, parser.tokens[parser.at - 1].stop, made, is_strict)


def section_of(word: str, begin: int, stop: int, made, is_strict: bool) -> Section:
    """The section of a sentence. Where semantics are strict, `G f` is the invariant f."""
    if is_strict and isinstance(made, Prefix) and made.sign == "G":
        return Section({"ASSUME": "REQUIRE", "GUARANTEE": "ASSERT"}[word], ((made.operand.at, stop, made.operand),))
    return Section(word, ((begin, stop, made),))


def names_in(made):
    """The names in an expression, in order."""
    waiting = [made]
    while waiting:
        one = waiting.pop()
        if isinstance(one, (Name, Member)):
            yield one.text if isinstance(one, Name) else one.name
        waiting += reversed([*parts_of(one)])
