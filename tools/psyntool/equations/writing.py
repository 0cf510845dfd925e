"""Terms as texts."""
from collections.abc import Callable
from dataclasses import dataclass

from psyntool.equations.terms import And, Choice, Constant, Name, Not, Or, Xor


@dataclass(frozen=True)
class Signs:
    """How a language writes names, constants, operators, and a choice of two terms by a condition."""

    name: Callable
    constants: tuple
    negation: str
    operators: dict
    choice: str


PLAIN = Signs(str, ("0", "1"), "!", {And: " & ", Or: " | ", Xor: " ^ "}, "if {} then {} else {}")


def written(term, signs):
    """The text of a term. A term inside another one stands in parentheses, unless it is a name, a constant or a
    negation."""
    if isinstance(term, Constant):
        return signs.constants[term.value]
    if isinstance(term, Name):
        return signs.name(term.text)
    sides = [
        f"({text})" if isinstance(side, (And, Or, Xor, Choice)) else text
        for side, text in ((side, written(side, signs)) for side in term.sides)
    ]
    if isinstance(term, Not):
        return signs.negation + sides[0]
    return signs.choice.format(*sides) if isinstance(term, Choice) else signs.operators[type(term)].join(sides)
