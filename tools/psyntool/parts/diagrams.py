"""Decision diagrams for functions of letters. A diagram is identified by a number, and equal functions have equal
numbers.

A letter says which propositions are true. A diagram is a leaf, which has a value, or a node: the smallest proposition
on which the function depends, and the diagrams for false and for true.
"""
from psyntool.ends import Refused
from psyntool.texts.labels import Alias, Operator, Proposition

MOST_NODES = 1_000_000
LAST = 1 << 30


class Diagrams:
    """A store of diagrams, in which no diagram occurs twice. Labels are written with the propositions' numbers or, if
    `names` is given, with their names."""

    def __init__(self, names=None):
        self.names = names
        # for each node: its proposition and its two children; for each leaf: a number greater than any proposition, and
        # its value
        self.propositions = []
        self.lows = []
        self.highs = []
        self.known = {}
        self.texts = {}

    def made(self, key, proposition, low, high):
        found = self.known.get(key)
        if found is None:
            found = self.known[key] = len(self.lows)
            if found > MOST_NODES:
                raise Refused(
                    f"more than {MOST_NODES:,} sets of letters have to be told apart; leave parts out, "
                    "or write two as one"
                )
            self.propositions.append(proposition)
            self.lows.append(low)
            self.highs.append(high)
        return found

    def leaf(self, value):
        return self.made((LAST, value), LAST, value, None)

    def node(self, proposition, low, high):
        return low if low == high else self.made((proposition, low, high), proposition, low, high)

    def is_leaf(self, one):
        return self.propositions[one] == LAST

    def value(self, leaf):
        return self.lows[leaf]

    def sides(self, one, proposition):
        """The diagram that is left if a proposition is false, and the one that is left if it is true. The proposition
        must not be greater than the one at the diagram's root."""
        return (self.lows[one], self.highs[one]) if self.propositions[one] == proposition else (one, one)

    def joined(self, first, second, function, known):
        """The diagram that results from applying a function of two arguments to the values of two diagrams; `known`
        caches results."""
        key = first, second
        found = known.get(key)
        if found is None:
            proposition = min(self.propositions[first], self.propositions[second])
            if proposition == LAST:
                found = self.leaf(function(self.lows[first], self.lows[second]))
            else:
                (low, high), (other_low, other_high) = self.sides(first, proposition), self.sides(second, proposition)
                found = self.node(
                    proposition,
                    self.joined(low, other_low, function, known),
                    self.joined(high, other_high, function, known),
                )
            known[key] = found
        return found

    def parting(self, sets, other):
        """The diagram that has, at each letter, the value of the first of the sets with the letter, or another value at
        a letter that is in no set. The sets are pairs of a diagram with the values true and false, and a value."""
        never, always = self.leaf(False), self.leaf(True)
        sets = [(one, value) for one, value in sets if one != never]
        if not sets or sets[0][0] == always:
            return self.leaf(sets[0][1] if sets else other)
        proposition = min(self.propositions[one] for one, _ in sets)
        sides = [(self.sides(one, proposition), value) for one, value in sets]
        low, high = ([(both[side], value) for both, value in sides] for side in (0, 1))
        return self.node(proposition, self.parting(low, other), self.parting(high, other))

    def mapped(self, one, function, known):
        """The diagram that results from applying the function to each value of the given diagram."""
        found = known.get(one)
        if found is None:
            if self.is_leaf(one):
                found = self.leaf(function(self.value(one)))
            else:
                low, high = self.mapped(self.lows[one], function, known), self.mapped(self.highs[one], function, known)
                found = self.node(self.propositions[one], low, high)
            known[one] = found
        return found

    def at(self, one, letter):
        """The value at a letter, which is given as the set of the true propositions."""
        while not self.is_leaf(one):
            one = self.highs[one] if self.propositions[one] in letter else self.lows[one]
        return self.value(one)

    def fixed(self, one, letter, known):
        """The diagram that is left after the given letter has fixed the truth of some propositions."""
        found = known.get(one)
        if found is None:
            if self.is_leaf(one):
                found = one
            elif self.propositions[one] in letter:
                found = self.fixed((self.lows, self.highs)[letter[self.propositions[one]]][one], letter, known)
            else:
                low, high = self.fixed(self.lows[one], letter, known), self.fixed(self.highs[one], letter, known)
                found = self.node(self.propositions[one], low, high)
            known[one] = found
        return found

    def values(self, one):
        """The values of the diagram, in the order of the first letters at which they occur."""
        found, seen, waiting = {}, set(), [one]
        while waiting:
            now = waiting.pop()
            if now in seen:
                continue
            seen.add(now)
            if self.is_leaf(now):
                found[self.value(now)] = None
            else:
                waiting += [self.highs[now], self.lows[now]]
        return list(found)

    def letter(self, one, is_wanted):
        """The first letter with a wanted value, as a dictionary from propositions to truth values, or None if there is
        no such letter. Propositions that do not affect the value are left out."""
        waiting, seen = [(one, ())], set()
        while waiting:
            now, path = waiting.pop()
            if now in seen:
                continue
            seen.add(now)
            if self.is_leaf(now):
                if is_wanted(self.value(now)):
                    return dict(path)
                continue
            proposition = self.propositions[now]
            waiting += [
                (self.highs[now], (*path, (proposition, True))), (self.lows[now], (*path, (proposition, False)))
            ]
        return None

    def labels(self, one):
        """For each value, an HOA label of exactly the letters with this value. The values are in the order of the first
        letters that have them."""
        return {value: text for value, (text, _) in self.parted(one).items()}

    def parted(self, one):
        """For each value its label, and the outermost operator of the label."""
        found = self.texts.get(one)
        if found is None:
            if self.is_leaf(one):
                found = {self.value(one): ("t", "")}
            else:
                low, high = self.parted(self.lows[one]), self.parted(self.highs[one])
                name = str(self.propositions[one]) if self.names is None else self.names[self.propositions[one]]
                found = {value: either(name, low.get(value), high.get(value)) for value in {**low, **high}}
            self.texts[one] = found
        return found

    # ---- labels


    def of_label(self, label, aliases):
        """The decision diagram of a label; `aliases` has the diagram of each alias."""
        stack = []
        for part in label:
            if isinstance(part, Proposition):
                stack.append(self.node(part.number, self.leaf(False), self.leaf(True)))
            elif isinstance(part, Alias):
                stack.append(aliases[part.name])
            elif isinstance(part, Operator) and part.sign == "!":
                stack.append(self.mapped(stack.pop(), lambda value: not value, {}))
            elif isinstance(part, Operator):
                second, first = stack.pop(), stack.pop()
                stack.append(self.joined(first, second, both if part.sign == "&" else one_of, {}))
            else:
                stack.append(self.leaf(part))
        return stack[0]


def both(first, second):
    return first and second


def one_of(first, second):
    return first or second


def either(name, low, high):
    """A label that holds if the proposition is false and `low` holds, or if it is true and `high` holds. The value None
    stands for the label that never holds."""
    if low is None or high is None:
        sign, (text, binds) = (name, high) if low is None else (f"!{name}", low)
        return (sign, "") if text == "t" else (f"{sign} & {nested(text, binds, '&')}", "&")
    if low[0] == "t" or high[0] == "t":
        sign, (text, binds) = (f"!{name}", high) if low[0] == "t" else (name, low)
        return ("t", "") if text == "t" else (f"{sign} | {nested(text, binds, '|')}", "|")
    if low == high:
        return low
    return f"{name} & {nested(*high, '&')} | !{name} & {nested(*low, '&')}", "|"


def nested(text, binds, sign):
    return f"({text})" if binds and binds != sign else text
