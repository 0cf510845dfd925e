"""Both readings of an expression that mixes operators without parentheses."""
from psyntool.tlsf import grouping
from psyntool.tlsf.expressions import LEVEL_OF, WORDS, Parser
from psyntool.tlsf.sentences import CALLED
from psyntool.tlsf.tokens import Token, Wrong

# `<->` binds less than `->`, and `xor` more than `||`.
LEVELS = {**dict.fromkeys(("<->", "EQUIV"), LEVEL_OF["->"] - 0.5), "xor": LEVEL_OF["||"] + 0.5}
ABOVE = {
    LEVEL_OF["->"] - 0.5: LEVEL_OF["->"],
    LEVEL_OF["||"]: LEVEL_OF["||"] + 0.5,
    LEVEL_OF["||"] + 0.5: LEVEL_OF["&&"],
}

# Words of sentences, which no text of another tool has.
OF_SENTENCES = frozenset((*WORDS, *CALLED))


class Elsewhere(Parser):
    """Parses an expression in which `U`, `R` and `W` bind more than `&&`, as `until` does."""

    def level(self):
        found = super().level()
        if found is None or self.now.kind != "word" or self.now.text not in ("U", "R", "W"):
            return found if found is None else LEVELS.get(self.now.text, found)
        return LEVEL_OF["until"]

    def above(self, level):
        return ABOVE.get(level, level + 1)

    def is_right(self, level) -> bool:
        return level == LEVELS["<->"] or level != LEVELS["xor"] and super().is_right(level)

    def sign_of(self, token: Token, level) -> str:
        return token.text


def has_words(tokens: list[Token], declared: frozenset) -> bool:
    """Whether an expression has words of sentences, or `[*n]`."""
    repeats = any(one.kind == "[" and other.kind == "*" for one, other in zip(tokens, tokens[1:]))
    return repeats or any(one.kind == "word" and one.text in OF_SENTENCES - declared for one in tokens)


def both(tokens: list[Token], declared: frozenset, spans: list, spans_of=grouping.spans_apart) -> str:
    """The texts of an expression with parentheses, as TLSF and as other tools group it, where its parts are given that
    TLSF groups."""
    parser = Elsewhere([*tokens, Token("end", "", tokens[-1].stop, tokens[-1].stop)], declared)
    parser.spans_of = spans_of
    parser.expression()
    texts = [grouping.with_parentheses(tokens, those) for those in (spans, [*parser.apart, *parser.alike])]
    return " or ".join(f"`{one}`" for one in dict.fromkeys(texts))


def refuse(tokens: list[Token], declared: frozenset, spans: list):
    """Refuses an expression with words of sentences, with both readings."""
    found = both(tokens, declared, spans)
    raise Wrong(tokens[0].start, f"tools group this mix of words and operators differently: write {found}")
