"""Terms over named signals: constants, names, negations, conjunctions, disjunctions, exclusive disjunctions, choices.

The functions below make terms, and fold constants and double negations. Equal terms are equal objects of Python.
"""
from dataclasses import dataclass


@dataclass(frozen=True)
class Constant:
    value: int
    sides = ()


@dataclass(frozen=True)
class Name:
    text: str
    sides = ()


@dataclass(frozen=True)
class Operation:
    """An operator with the terms to which it is applied."""

    sides: tuple


class Not(Operation):
    """True if its only side is false."""


class And(Operation):
    pass


class Or(Operation):
    pass


class Xor(Operation):
    """True if its two sides differ."""


class Choice(Operation):
    """Its second side where its first side, the condition, is true, and elsewhere its third."""


FALSE, TRUE = Constant(0), Constant(1)


def size(term):
    """How many names and constants stand in a term."""
    return sum(map(size, term.sides)) or 1


def negations(term):
    """How many signs of negation stand in a term."""
    return isinstance(term, Not) + sum(map(negations, term.sides))


def names_in(term):
    """The names in a term, each once, in the order in which they stand there."""
    if isinstance(term, Name):
        return [term.text]
    return list(dict.fromkeys(name for side in term.sides for name in names_in(side)))


def opposite(term):
    """The negation of a term. Of a conjunction or a disjunction, it is the form with fewer signs of negation."""
    if isinstance(term, Constant):
        return Constant(1 - term.value)
    if isinstance(term, Not):
        return term.sides[0]
    if isinstance(term, Choice):
        condition, yes, no = term.sides
        return choice(condition, opposite(yes), opposite(no))
    if isinstance(term, (And, Or)):
        parts = [opposite(side) for side in term.sides]
        inside = any_of(parts) if isinstance(term, And) else all_of(parts)
        if negations(inside) <= negations(term) + 1:
            return inside
    return Not((term,))


def all_of(parts):
    """The conjunction of terms."""
    return joined(And, parts, FALSE)


def any_of(parts):
    """The disjunction of terms."""
    return joined(Or, parts, TRUE)


def joined(kind, parts, decisive):
    """The conjunction or the disjunction of terms; a part that is the decisive constant decides it."""
    flat = []
    for part in parts:
        flat += part.sides if isinstance(part, kind) else [part]
    flat = [part for part in dict.fromkeys(flat) if part != opposite(decisive)]
    if decisive in flat or any(isinstance(part, Not) and part.sides[0] in flat for part in flat):
        return decisive
    return kind(tuple(flat)) if len(flat) > 1 else flat[0] if flat else opposite(decisive)


def either(one, other):
    """The exclusive disjunction of two terms."""
    if isinstance(one, Not):
        return opposite(either(one.sides[0], other))
    if isinstance(other, Not):
        return opposite(either(one, other.sides[0]))
    if isinstance(one, Constant):
        return opposite(other) if one.value else other
    if isinstance(other, Constant):
        return either(other, one)
    return FALSE if one == other else Xor((one, other))


def choice(condition, yes, no):
    """The second term where the first one, the condition, is true, and elsewhere the third one."""
    if isinstance(condition, Not):
        return choice(condition.sides[0], no, yes)
    if isinstance(condition, Constant):
        return yes if condition.value else no
    if isinstance(yes, Constant):
        return any_of([condition, no]) if yes.value else all_of([opposite(condition), no])
    if isinstance(no, Constant):
        return any_of([opposite(condition), yes]) if no.value else all_of([condition, yes])
    if yes == no:
        return yes
    return either(condition, no) if yes == opposite(no) else Choice((condition, yes, no))
