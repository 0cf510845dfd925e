"""Acceptance conditions that are chains, which means nested like a parity condition, and the priorities that a chain
gives to edges.

A condition is a Boolean constant or a pair: (`Inf`, set), (`Fin`, set), (`&`, operands) or (`|`, operands).
"""
from dataclasses import dataclass


@dataclass(frozen=True)
class Chain:
    """An acceptance condition as a list of links and a base. A link is an acceptance set, and a flag that states
    whether the run is accepted if it meets the set infinitely often. The first link whose set is met infinitely often
    decides; if there is none, `base` says whether the run is accepted."""

    links: tuple
    base: bool

    def priority(self, marks):
        """The priority of an edge that is in the acceptance sets `marks`: the priority of the chain's first link whose
        set is in `marks` or, if there is no such link, the priority of `base`."""
        numbers, number = [], 0 if self.base else 1
        for _, accepts in reversed(self.links):
            number += accepts != (number % 2 == 0)
            numbers.insert(0, number)
        found = [number for (mark, _), number in zip(self.links, numbers) if mark in marks]
        return found[0] if found else 0 if self.base else 1


def chain_of(condition):
    """The condition as a chain, or None if it is not nested like a parity condition."""
    links = []
    while True:
        if isinstance(condition, bool):
            return Chain(tuple(links), condition)
        sign, operands = condition
        if sign in ("Inf", "Fin"):
            return Chain((*links, (operands, sign == "Inf")), sign == "Fin")
        single = "Inf" if sign == "|" else "Fin"
        others = [place for place, it in enumerate(operands) if isinstance(it, bool) or it[0] != single]
        if len(others) > 1:
            return None
        links += [(it[1], single == "Inf") for place, it in enumerate(operands) if place not in others]
        if not others:
            return Chain(tuple(links), sign == "&")
        condition = operands[others[0]]
