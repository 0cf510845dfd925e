"""Operators that stand beside each other without parentheses, and that TLSF and other tools group differently: `U`, `R`
and `W` beside other operators, `->` beside `<->`, and `xor` beside `||`."""
from psyntool.tlsf.tokens import Token

# The operators of formulas, by their signs and words. `U`, `R` and `W` bind least in TLSF, elsewhere more than `&&`.
KINDS = {
    **dict.fromkeys(("U", "R", "W"), "letter"),
    **dict.fromkeys(("until", "weak", "unless"), "word"),
    **dict.fromkeys(("->", "IMPLIES"), "->"),
    **dict.fromkeys(("<->", "EQUIV"), "<->"),
    "xor": "xor",
    **dict.fromkeys(("||", "OR", "|", "or"), "||"),
    **dict.fromkeys(("&&", "AND", "&", "and"), "&&"),
}
UNTIL = frozenset(("letter", "word"))
APART = ({"xor", "||"}, {"->", "<->"})


def kinds_of(signs: list) -> frozenset:
    return frozenset(filter(None, map(KINDS.get, signs)))


def spans_apart(signs: list, spans: list, is_right: bool) -> list:
    """The operands of a chain of operators, and its beginnings or ends, that others group differently. Each operand is
    given by the places of its first token and behind its last one, and the kinds of operators that are outermost in
    it."""
    kinds, last = kinds_of(signs), len(spans) - 1
    found = [
        (begin, end) for place, (begin, end, inner) in enumerate(spans) if are_apart(kinds, inner, place == last)
    ]
    if kinds == {"->", "<->"} or "letter" in kinds and (len(set(signs)) > 1 or is_right and "R" in signs):
        found += [(begin, spans[last][1]) for begin, _, _ in spans[1:last]]
    elif "R" in signs:
        found += [(spans[0][0], end) for _, end, _ in spans[1:last]]
    return found


def spans_wanted(signs: list, spans: list, is_right: bool) -> list:
    """The same for the operands and the ends that the program wants in parentheses: also where all group them alike."""
    kinds = kinds_of(signs)
    found = [
        (begin, end)
        for begin, end, inner in spans
        if inner and ("letter" in kinds | inner or are_apart(kinds, inner, False))
    ]
    if len(signs) > 1 and ("letter" in kinds or "<->" in kinds):
        outer = [(begin, spans[-1][1]) for begin, _, _ in spans[1:-1]]
        found += outer if is_right else [(spans[0][0], end) for _, end, _ in spans[1:-1]]
    return found


def spans_alike(signs: list, spans: list) -> list:
    """The last operand of a chain of `U`, `R` and `W`, if it is another one, which all tools group alike."""
    begin, end, inner = spans[-1]
    return [(begin, end)] if inner and kinds_of(signs) | inner <= UNTIL else []


def are_apart(outer: frozenset, inner: frozenset, is_last: bool) -> bool:
    """Whether operators group differently elsewhere, where one stands in the other's operand without parentheses."""
    if "letter" in outer | inner:
        those = [kinds for kinds in (outer, inner) if kinds <= UNTIL]
        return not is_last if len(those) == 2 and inner else bool(inner) and "letter" in those[0]
    return any(len(outer) == len(inner) == 1 and outer | inner == both for both in APART)


def with_parentheses(tokens: list[Token], spans) -> str:
    """The text of an expression on one line, with parentheses around some of its parts."""
    parts, before = [], None
    opening = [begin for begin, _ in dict.fromkeys(spans)]
    closing = [end - 1 for _, end in dict.fromkeys(spans)]
    for place, token in enumerate(tokens):
        parts += [" "] if before is not None and before < token.start else []
        parts += ["(" * opening.count(place), token.text, ")" * closing.count(place)]
        before = token.stop
    return "".join(parts)
