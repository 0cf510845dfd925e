"""Satisfaction of formulas by random lassos, straight from the meaning of each operator, for tests of the tool.

Formulas are those of `tlsf_reader`: nested tuples, in which `("name", 3)` is proposition 3. A few more operators are
those of sentences and of TLSF's full form: `("F", low, high, f)`, `("G", low, high, f)`, `("X", n, f)`,
`("within", n, f)`, `("within", n, f, g)`, `("[*]", n, f)`, `("rises", f)`, `("falls", f)`, `("stable", f, ..)`,
`("onehot", f, ..)` and `("at most one of", f, ..)`.
"""
import operator
from dataclasses import dataclass

BOOLEAN = {"&&": operator.and_, "||": operator.or_, "->": lambda one, other: not one or other, "<->": operator.eq}


@dataclass(frozen=True)
class Lasso:
    """A lasso: its letters, each with the truth of each proposition, and the place to which the last one leads."""

    letters: tuple
    stem: int

    def after(self, place, steps):
        """The place so many steps behind a place."""
        at = place + steps
        last = len(self.letters)
        return at if at < last else self.stem + (at - self.stem) % (last - self.stem)

    def truths(self, formula):
        """The truth of a formula at each place."""
        sign, places = formula[0], range(len(self.letters))
        if sign == "name":
            return [letter[formula[1]] for letter in self.letters]
        if sign in ("true", "false"):
            return [sign == "true"] * len(self.letters)
        parts = [self.truths(part) for part in formula[1:] if isinstance(part, tuple)]
        if sign in BOOLEAN:
            return [bool(BOOLEAN[sign](*pair)) for pair in zip(*parts)]
        if sign == "!":
            return [not one for one in parts[0]]
        if sign in ("U", "R", "W"):
            return [self.binary(sign, place, *parts) for place in places]
        if len(formula) > 2 and isinstance(formula[1], int):
            return [self.counted(formula, place, parts) for place in places]
        if sign in ("X", "F", "G"):
            return [self.unary(sign, place, parts[0]) for place in places]
        return [self.word(sign, [(one[place], one[self.after(place, 1)]) for one in parts]) for place in places]

    def ahead(self, place):
        """The places from a place on, each once."""
        return [self.after(place, steps) for steps in range(len(self.letters))]

    def unary(self, sign, place, truths):
        if sign == "X":
            return truths[self.after(place, 1)]
        return (any if sign == "F" else all)(truths[other] for other in self.ahead(place))

    def binary(self, sign, place, left, right):
        if sign == "R":
            return not self.binary("U", place, [not one for one in left], [not one for one in right])
        for other in self.ahead(place):
            if right[other]:
                return True
            if not left[other]:
                return False
        return sign == "W"

    def counted(self, formula, place, parts):
        sign, low = formula[:2]
        high = {"X": low, "within": low, "[*]": low - 1}.get(sign, formula[2])
        first = 0 if sign in ("within", "[*]") else low
        those = [any(part[self.after(place, steps)] for part in parts) for steps in range(first, high + 1)]
        return all(those) if sign in ("G", "[*]") else any(those)

    def word(self, sign, pairs):
        """The truth of a word of sentences, given the truths of each part at this place and at the next one."""
        now = [pair[0] for pair in pairs]
        if sign == "stable":
            return all(one == other for one, other in pairs)
        if sign in ("rises", "falls"):
            return pairs[0] == ((False, True) if sign == "rises" else (True, False))
        return now.count(True) == 1 if sign == "onehot" else now.count(True) <= 1


def drawn(draw, names, longest=6):
    """A random lasso over so many propositions, on some of which each proposition is mostly true or mostly false."""
    chances = [draw.choice([0.1, 0.5, 0.5, 0.9]) for _ in range(names)]
    length = draw.randrange(1, longest)
    letters = tuple(tuple(draw.random() < chance for chance in chances) for _ in range(length))
    return Lasso(letters, draw.randrange(length))


def vector(formula, lassos):
    """The truth of a formula on each lasso, at its first letter."""
    return tuple(lasso.truths(formula)[0] for lasso in lassos)
