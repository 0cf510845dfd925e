"""Formulas as obligations: what is left of a formula behind a letter, and its truth at each place of a lasso.

An obligation is a formula in which only names are negated, made of `&&`, `||`, `X`, `U` and `R`. Two obligations that
are made by the same `Obligations` are the same object if they have the same operator and the same operands.
"""
import contextlib
from dataclasses import dataclass

from psyntool.parts.diagrams import Diagrams
from psyntool.tlsf.expanding import deep_calls
from psyntool.tlsf.formulas import Formula

# Of a longer list of operands it is not found out which of them follow from others.
MOST_COMPARED = 64


class TooLong(Exception):
    """Making obligations, or what is left of them, takes more than is allowed."""


@contextlib.contextmanager
def limited():
    """Allows deep calls; a formula that nests too deep for them is too long."""
    try:
        with deep_calls():
            yield
    except RecursionError:
        raise TooLong from None


@dataclass(frozen=True, eq=False)
class Obligation:
    """An obligation: its operator (`true`, `false`, `name`, `not`, `&&`, `||`, `X`, `U`, `R`), its operands, its number
    in the order in which obligations were made, and whether it has `X`, `U` or `R`. The operand of a name, or of a name
    that is negated, is the name."""

    sign: str
    operands: tuple
    number: int
    is_of_later: bool


class Obligations:
    """Makes obligations, in at most so many steps."""

    def __init__(self, most_steps: int = 1_000_000):
        self.left = most_steps
        self.made = {}
        self.known = {}
        self.true = self.kept("true", ())
        self.false = self.kept("false", ())

    def kept(self, sign: str, operands: tuple) -> Obligation:
        self.left -= 1 + len(operands)
        if self.left < 0:
            raise TooLong
        key = (sign, frozenset(operands) if sign in ("&&", "||") else operands)
        if key not in self.made:
            is_of_later = (
                sign in ("X", "U", "R") or any(isinstance(one, Obligation) and one.is_of_later for one in operands)
            )
            self.made[key] = Obligation(sign, operands, len(self.made), is_of_later)
        return self.made[key]

    # ---- operators

    def both(self, those) -> Obligation:
        return self.joined("&&", those, self.true, self.false)

    def either(self, those) -> Obligation:
        return self.joined("||", those, self.false, self.true)

    def joined(self, sign: str, those, unit: Obligation, zero: Obligation) -> Obligation:
        """The conjunction or the disjunction of obligations, without those that follow from others."""
        found = {}
        for one in those:
            for part in one.operands if one.sign == sign else (one,):
                found[part] = None
        found.pop(unit, None)
        if zero in found or any(one.sign == "not" and self.made.get(("name", one.operands)) in found for one in found):
            return zero
        if len(found) <= MOST_COMPARED:
            found = self.least(sign, found)
        return unit if not found else next(iter(found)) if len(found) == 1 else self.kept(sign, tuple(found))

    def least(self, sign: str, found: dict) -> dict:
        """The operands without each that follows from another one: `a || b` beside `a`, or beside `a || b || c`."""
        other = "||" if sign == "&&" else "&&"
        inside = {one: frozenset(one.operands) if one.sign == other else frozenset((one,)) for one in found}
        self.left -= len(found) ** 2
        return {one: None for one in found if not any(inside[less] < inside[one] for less in found)}

    def later(self, one: Obligation) -> Obligation:
        return one if one in (self.true, self.false) else self.kept("X", (one,))

    def until(self, left: Obligation, right: Obligation) -> Obligation:
        return right if right in (self.true, self.false) or left is self.false else self.kept("U", (left, right))

    def release(self, left: Obligation, right: Obligation) -> Obligation:
        return right if right in (self.true, self.false) or left is self.true else self.kept("R", (left, right))

    def always(self, one: Obligation) -> Obligation:
        return self.release(self.false, one)

    # ---- formulas

    def of(self, formula, holds: bool = True) -> Obligation:
        """The obligation that a formula holds, or that it does not hold."""
        if isinstance(formula, bool):
            return self.true if formula == holds else self.false
        key = (formula, holds)
        if key not in self.known:
            self.known[key] = self.of_operator(formula, holds)
        return self.known[key]

    def of_operator(self, formula: Formula, holds: bool) -> Obligation:
        sign, parts = formula.sign, formula.operands
        if not sign:
            return (
                self.of(parts[0] == "true", holds)
                if parts[0] in ("true", "false")
                else self.kept("name" if holds else "not", parts)
            )
        if sign == "!":
            return self.of(parts[0], not holds)
        if sign in ("&&", "||"):
            return (self.both if (sign == "&&") == holds else self.either)([self.of(one, holds) for one in parts])
        if sign == "->":
            return (self.either if holds else self.both)([self.of(parts[0], not holds), self.of(parts[1], holds)])
        if sign == "<->":
            sides = [[self.of(parts[0], one), self.of(parts[1], one == holds)] for one in (False, True)]
            return self.either([self.both(side) for side in sides])
        return self.of_later(sign, [self.of(one, holds) for one in parts], holds)

    def of_later(self, sign: str, parts: list, holds: bool) -> Obligation:
        """`X`, `F`, `G`, `U`, `R` or `W` of obligations; or its negation, whose operands are negated already."""
        if sign == "X":
            return self.later(parts[0])
        if sign in ("F", "G"):
            return self.until(self.true, parts[0]) if (sign == "F") == holds else self.always(parts[0])
        if sign == "W":
            left, right = parts
            return self.release(right, self.either(parts)) if holds else self.until(right, self.both([left, right]))
        return (self.until if (sign == "U") == holds else self.release)(*parts)


class Remains:
    """What is left of obligations behind letters, as decision diagrams over names and over obligations that begin with
    `X`, `U` or `R`, in at most so many nodes. Equal functions of them have equal numbers, so the same remains are seen
    again, and remains that nothing can meet at the next step are the leaf `false`."""

    def __init__(self, obligations: Obligations, most_nodes: int = 50_000):
        self.obligations = obligations
        self.most_nodes = most_nodes
        self.texts = {}
        self.diagrams = Diagrams(self.texts)
        self.never = self.diagrams.leaf(False)
        self.always = self.diagrams.leaf(True)
        self.parts = {}
        self.known = {}
        self.behind = {}
        self.done = {"&&": {}, "||": {}}

    def both(self, first: int, second: int) -> int:
        return self.diagrams.joined(first, second, lambda one, other: one and other, self.done["&&"])

    def either(self, first: int, second: int) -> int:
        return self.diagrams.joined(first, second, lambda one, other: one or other, self.done["||"])

    def alone(self, one: Obligation, low: int, high: int) -> int:
        """The diagram that is `low` or `high`, as a name or an obligation is false or true."""
        self.parts[one.number] = one
        if one.number not in self.texts:
            self.texts[one.number] = text_of(one)
        return self.diagrams.node(one.number, low, high)

    def of(self, one: Obligation) -> int:
        """The diagram of an obligation."""
        if one not in self.known:
            self.known[one] = self.made(one)
        return self.known[one]

    def made(self, one: Obligation) -> int:
        if one.sign in ("true", "false"):
            return self.always if one.sign == "true" else self.never
        if one.sign == "not":
            return self.alone(self.obligations.kept("name", one.operands), self.always, self.never)
        if one.sign not in ("&&", "||"):
            return self.alone(one, self.never, self.always)
        found = self.always if one.sign == "&&" else self.never
        for part in one.operands:
            found = (self.both if one.sign == "&&" else self.either)(found, self.of(part))
        return found

    def after(self, one: int, letter: frozenset) -> int:
        """What is left behind a letter, which is the set of the names that are true."""
        if len(self.diagrams.known) > self.most_nodes:
            raise TooLong
        known = self.behind.setdefault(letter, {})
        if one not in known:
            known[one] = one if self.diagrams.is_leaf(one) else self.stepped(one, letter)
        return known[one]

    def stepped(self, one: int, letter: frozenset) -> int:
        part = self.parts[self.diagrams.propositions[one]]
        low, high = [self.after(side, letter) for side in self.diagrams.sides(one, part.number)]
        if part.sign == "name":
            return high if part.operands[0] in letter else low
        step = self.step_of(part, letter)
        return self.either(
            self.both(step, high), self.both(self.diagrams.mapped(step, lambda value: not value, {}), low)
        )

    def step_of(self, one: Obligation, letter: frozenset) -> int:
        if one.sign == "X":
            return self.of(one.operands[0])
        left, right = [self.after(self.of(part), letter) for part in one.operands]
        again = self.of(one)
        if one.sign == "U":
            return self.either(right, self.both(left, again))
        return self.both(right, self.either(left, again))

    def breaks(self, one: Obligation, letters: list, stem: int):
        """The first step of a lasso behind which nothing meets what is left of an obligation, or None if there is none,
        or if finding it takes too many nodes. The letters are those of the stem and of one lap."""
        try:
            return self.first_break(self.of(one), letters, stem)
        except TooLong:
            return None

    def first_break(self, left: int, letters: list, stem: int):
        seen, step, place = set(), 0, 0
        while (left, place) not in seen and left != self.never:
            seen.add((left, place))
            left = self.after(left, frozenset(letters[place]))
            step, place = step + 1, place + 1 if place + 1 < len(letters) else stem
        return step - 1 if left == self.never else None

    def owed(self, left: int, first: int) -> list:
        """Texts of what is left, without what was there at first: of each part that must hold, and of the rest."""
        must = [part for part in self.musts(left) if part not in self.musts(first)]
        found = [self.texts[part] for part in must]
        rest = self.diagrams.fixed(left, dict.fromkeys(self.musts(left), True), {})
        if rest not in (self.always, self.never) and left != first:
            found.append(self.diagrams.labels(rest)[True].replace(" & ", " && ").replace(" | ", " || "))
        return found

    def musts(self, left: int) -> list:
        """The numbers of the obligations, or names, without which a diagram is false."""
        found, waiting, seen = set(), [left], set()
        while waiting:
            one = waiting.pop()
            if one not in seen and not self.diagrams.is_leaf(one):
                seen.add(one)
                found.add(self.diagrams.propositions[one])
                waiting += [self.diagrams.lows[one], self.diagrams.highs[one]]
        return sorted(number for number in found if self.diagrams.fixed(left, {number: False}, {}) == self.never)


def truths(one: Obligation, letters: list, stem: int, known: dict) -> list:
    """The truth of an obligation at each place of a lasso, whose letters are those of the stem and of one lap; `known`
    has the truths that are found already."""
    if one not in known:
        known[one] = truths_of(one, letters, stem, known)
    return known[one]


def truths_of(one: Obligation, letters: list, stem: int, known: dict) -> list:
    sign, count = one.sign, len(letters)
    if sign in ("true", "false"):
        return [sign == "true"] * count
    if sign in ("name", "not"):
        return [(one.operands[0] in letter) == (sign == "name") for letter in letters]
    parts = [truths(part, letters, stem, known) for part in one.operands]
    if sign in ("&&", "||"):
        return [(all if sign == "&&" else any)(those) for those in zip(*parts)]
    if sign == "X":
        return [*parts[0][1:], parts[0][stem]]
    return of_until(*parts, stem, sign == "U")


def of_until(left: list, right: list, stem: int, is_until: bool) -> list:
    """The truths of `U` or `R` by those of its operands, from the last place back: the lap twice, since its end leads
    to its begin."""
    found, later, places = [False] * len(left), not is_until, range(len(left))
    for place in [*reversed(places[stem:]), *reversed(places)]:
        later = right[place] or left[place] and later if is_until else right[place] and (left[place] or later)
        found[place] = later
    return found


def text_of(one: Obligation) -> str:
    """The text of an obligation."""
    sign, parts = one.sign, one.operands
    if sign in ("true", "false", "name"):
        return parts[0] if parts else sign
    if sign == "not":
        return f"!{parts[0]}"
    if sign in ("&&", "||"):
        return f" {sign} ".join(inside(part) for part in parts)
    if sign == "X":
        return f"X {inside(parts[0])}"
    left, right = parts
    if left.sign == ("true" if sign == "U" else "false"):
        return f"{'F' if sign == 'U' else 'G'} {inside(right)}"
    others = (
        [part for part in right.operands if part is not left]
        if sign == "R" and right.sign == "||" and left in right.operands
        else []
    )
    if len(others) == 1:
        return f"{inside(others[0])} W {inside(left)}"
    return f"{inside(left)} {sign} {inside(right)}"


def inside(one: Obligation) -> str:
    """The text of an obligation as an operand."""
    is_bare = (
        one.sign in ("true", "false", "name", "not", "X")
        or one.sign in ("U", "R")
        and one.operands[0].sign == ("true" if one.sign == "U" else "false")
    )
    return text_of(one) if is_bare else f"({text_of(one)})"
