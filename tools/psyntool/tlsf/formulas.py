"""Formulas of TLSF's basic form, in which every name is one of a signal.

Constants are Python's `True` and `False`, as the values of guards are: they are taken out of the formulas in which they
stand, except beside `U`, `R` and `W`. A formula knows how long its text is, so that no text is written that psyn does
not read.
"""
from dataclasses import dataclass

from psyntool.tlsf.tokens import Wrong

# What psyn reads: operators and operands, parentheses and operators within each other, and bytes.
MOST_OPERATORS, MOST_NESTED, MOST_BYTES = 65_535, 256, 16_777_216
# Writing a text out takes at most so many steps: values of expressions, operands, and elements of sets.
MOST_STEPS = 1_000_000
BEFORE, BESIDE = ("!", "X", "F", "G"), ("U", "R", "W")
# Which formulas need no parentheses as an operand: of an operator before its operand or of `U`, `R`, `W`, and of others
# by their sign, besides formulas without an operator between operands.
BARE = {"&&": (), "||": ("&&",), "<->": ("&&", "||"), "->": ("&&", "||")}
UNIT = {"&&": True, "||": False}


class TooLarge(Wrong):
    """A formula that is larger, written out, than psyn reads."""


@dataclass(frozen=True, eq=False)
class Formula:
    """A formula: its operator and operands, or its name (whose operator is empty); the number of its operators and
    operands, the depth to which its parentheses and operators nest, and the number of its bytes.

    `&&` and `||` have two operands or more. Two formulas that are made by the same `Formulas` are the same object if
    they are equal.
    """

    sign: str
    operands: tuple
    size: int
    nesting: int
    length: int

    @property
    def is_between(self) -> bool:
        """Whether its operator stands between operands."""
        return self.sign in UNIT or self.sign in BESIDE or self.sign in ("->", "<->")


class Formulas:
    """Makes formulas, and counts the steps of doing so. Each function takes the offset at which the expression stands
    for which the formula is made. Where they are short, a formula at many steps is written in few operators, though
    psyn takes longer then."""

    def __init__(self, are_short: bool = False):
        self.made = {}
        self.steps = 0
        self.are_short = are_short
        # formulas that were said in words: whether they need no parentheses, and the texts and formulas of the words
        self.spoken = {}

    def spend(self, at: int, steps: int):
        self.steps += steps
        if self.steps > MOST_STEPS:
            raise Wrong(
                at,
                f"writing this specification out takes more than {MOST_STEPS:,} steps: "
                "choose smaller parameters or sets",
            )

    def say(self, made, is_closed: bool, *pieces):
        """Notes the words by which a formula was said: texts, and formulas that are operands in them."""
        if isinstance(made, Formula) and made.sign and not any(isinstance(piece, bool) for piece in pieces):
            self.spoken.setdefault(made, (is_closed, pieces))
        return made

    def closed(self, part) -> tuple:
        """An operand of words, in parentheses where it needs them."""
        is_closed = not isinstance(part, Formula) or self.spoken.get(part, (not part.is_between,))[0]
        return (part,) if is_closed else ("(", part, ")")

    def name(self, text: str) -> Formula:
        return self.kept("", (text,), 1, 0, len(text))

    def kept(self, sign: str, operands: tuple, size: int, nesting: int, length: int) -> Formula:
        key = (sign, *operands)
        if key not in self.made:
            self.made[key] = Formula(sign, operands, size, nesting, length)
        return self.made[key]

    def of(self, at: int, sign: str, operands: tuple) -> Formula:
        """The formula of an operator and its operands, as they are."""
        self.spend(at, len(operands))
        parts = [self.name("true" if part else "false") if isinstance(part, bool) else part for part in operands]
        count = max(1, len(parts) - 1)
        size, nesting, length = count, 0, count * len(written(sign))
        for place, part in enumerate(parts):
            closed = needs_parentheses(sign, part, place == len(parts) - 1)
            size, nesting, length = (
                size + part.size, max(nesting, part.nesting + closed), length + part.length + 2 * closed
            )
        nesting += len(parts) == 1
        if size > MOST_OPERATORS:
            raise TooLarge(
                at,
                f"written out, this has more than {MOST_OPERATORS:,} operators and operands, the most that psyn reads",
            )
        if nesting > MOST_NESTED:
            raise TooLarge(
                at,
                f"written out, this nests more than {MOST_NESTED} deep, the most that psyn reads: "
                "n steps, as in `within n f`, nest n deep",
            )
        if length > MOST_BYTES:
            raise TooLarge(at, f"written out, this has more than {MOST_BYTES:,} bytes, the most that psyn reads")
        return self.kept(sign, tuple(parts), size, nesting, length)

    def negation(self, at: int, part):
        return not part if isinstance(part, bool) else self.of(at, "!", (part,))

    def joined(self, at: int, sign: str, parts):
        """The conjunction (`&&`) or the disjunction (`||`) of formulas, in order."""
        unit, found = UNIT[sign], []
        for part in parts:
            if part is (not unit):
                return part
            if part is not unit:
                found += part.operands if part.sign == sign else [part]
        return unit if not found else found[0] if len(found) == 1 else self.of(at, sign, tuple(found))

    def implication(self, at: int, left, right):
        if isinstance(left, bool):
            return right if left else True
        if isinstance(right, bool):
            return True if right else self.negation(at, left)
        return self.of(at, "->", (left, right))

    def equivalence(self, at: int, left, right):
        for constant, other in ((left, right), (right, left)):
            if isinstance(constant, bool):
                return other if constant else self.negation(at, other)
        return self.of(at, "<->", (left, right))

    def before(self, at: int, sign: str, part):
        """`X`, `F` or `G` of a formula."""
        return part if isinstance(part, bool) else self.of(at, sign, (part,))

    def next(self, at: int, count: int, part):
        """`X` of a formula, so many times."""
        for _ in range(0 if isinstance(part, bool) else count):
            part = self.of(at, "X", (part,))
        return part

    def delayed(self, at: int, part, names: frozenset, known: dict):
        """The formula with the given names one step later; `known` has those of parts."""
        if isinstance(part, bool):
            return part
        if part not in known:
            if part.sign:
                those = tuple(self.delayed(at, one, names, known) for one in part.operands)
                known[part] = self.of(at, part.sign, those)
            else:
                known[part] = self.of(at, "X", (part,)) if part.operands[0] in names else part
        return known[part]

    def between(self, at: int, sign: str, low: int, high: int, part):
        """The disjunction (`||`) or conjunction (`&&`) of a formula at the steps from `low` to `high`: for 1 and 3
        `X f || X X f || X X X f`, which psyn translates fastest, or in short `X (f || X (f || X f))`."""
        if high < low or isinstance(part, bool):
            return UNIT[sign] if high < low else part
        if self.are_short:
            made = part
            for _ in range(high - low):
                made = self.joined(at, sign, (part, self.before(at, "X", made)))
            return self.next(at, low, made)
        found = [self.next(at, low, part)]
        for _ in range(high - low):
            found.append(self.of(at, "X", (found[-1],)))
        return self.joined(at, sign, found)


def needs_parentheses(sign: str, part: Formula, is_last: bool) -> bool:
    """Whether an operand needs parentheses beside the operator; `->` groups to the right."""
    if not part.is_between:
        return False
    return part.sign not in BARE.get(sign, ()) and not (sign == part.sign == "->" and is_last)


def text_of(formula, spoken=None, most: int = 0) -> str:
    """The text of a formula in the basic form, or with the words by which parts of it were said; empty if it has more
    than so many signs. Long chains of operators need no recursion."""
    if isinstance(formula, bool):
        return "true" if formula else "false"
    texts, waiting, length = [], [formula], 0
    while waiting:
        part = waiting.pop()
        if isinstance(part, str):
            texts.append(part)
            length += len(part)
            if most and length > most:
                return ""
        elif spoken and part in spoken:
            waiting += reversed(spoken[part][1])
        elif not part.sign:
            texts.append(part.operands[0])
        else:
            waiting += reversed(pieces(part, spoken or {}))
    return "".join(texts)


def pieces(formula: Formula, spoken: dict) -> list:
    """A formula's text as strings and operands."""
    found, last = [], len(formula.operands) - 1
    for place, part in enumerate(formula.operands):
        found += [written(formula.sign)] if place or formula.sign in BEFORE else []
        if part in spoken:
            is_apart = formula.sign in (*BEFORE, *BESIDE) and not spoken[part][0]
        else:
            is_apart = needs_parentheses(formula.sign, part, place == last)
        found += ["(", part, ")"] if is_apart else [part]
    return found


def written(sign: str) -> str:
    """An operator with the blanks around it."""
    return sign if sign == "!" else f"{sign} " if sign in BEFORE else f" {sign} "


def sentences_of(formula) -> tuple:
    """The formulas whose conjunction a formula is."""
    return formula.operands if isinstance(formula, Formula) and formula.sign == "&&" else (formula,)


def names_in(formula) -> list:
    """The names in a formula, in the order in which they stand, each once."""
    found, seen, waiting = {}, set(), [formula]
    while waiting:
        part = waiting.pop()
        if isinstance(part, bool) or part in seen:
            continue
        seen.add(part)
        if part.sign:
            waiting += reversed(part.operands)
        elif part.operands[0] not in ("true", "false"):
            found[part.operands[0]] = None
    return list(found)
