"""The equations of a circuit: for each output, and for each latch that an output depends on, a term over names."""
from collections import Counter
from collections.abc import Callable
from dataclasses import dataclass

from psyntool.equations import terms
from psyntool.equations.terms import FALSE, Name, opposite

# A gate that is read once is written into the term that reads it, up to this size of the term.
MOST = 10


@dataclass(frozen=True)
class Names:
    """The names of inputs, latches and outputs in the circuit's order, and a function that names the variable of a
    gate."""

    inputs: tuple
    latches: tuple
    outputs: tuple
    of_gate: Callable


class Scope:
    """Names that are all different."""

    def __init__(self):
        self.taken = set()

    def new(self, wanted):
        """The wanted name or, if it is taken, that name with a number."""
        name, number = wanted, 1
        while name in self.taken:
            number += 1
            name = f"{wanted}_{number}"
        self.taken.add(name)
        return name


@dataclass(frozen=True)
class Register:
    """A latch that an output depends on: its name, its first value, and the term of its next value."""

    name: str
    first: int
    next: object


@dataclass(frozen=True)
class Equations:
    """Wires and outputs, each a pair of a name and a term, and registers. The term of a wire has no later wire. For
    each output, `sources` has the names of the inputs and latches from which its value is computed."""

    wires: tuple
    outputs: tuple
    registers: tuple
    sources: dict


def equations(made, names):
    """The equations of a circuit. Each variable must be defined once, and no gate may read itself through others."""
    return Reading(made.ordered, names).equations()


class Reading:
    """A circuit whose gates become terms, one after another."""

    def __init__(self, made, names):
        self.made = made
        self.names = names
        self.wires = []
        self.sides = {gate.literal // 2: gate.sides for gate in made.gates}
        self.latches = {latch.literal // 2: latch for latch in made.latches}
        self.choices = self.choices_in(Counter(side // 2 for side in self.literals_read()))
        self.read = self.variables_read()
        roots = [*made.outputs, *(latch.next for latch in made.latches if latch.literal // 2 in self.read)]
        self.uses = Counter(literal // 2 for literal in roots)
        self.uses.update(side // 2 for variable in self.sides if variable in self.read for side in self.parts(variable))
        self.terms = {0: FALSE}
        for literal, name in [*zip(made.inputs, names.inputs), *zip(self.latch_literals(), names.latches)]:
            self.terms[literal // 2] = Name(name)
        self.outputs = {}

    def latch_literals(self):
        return [latch.literal for latch in self.made.latches]

    def literals_read(self):
        """The literals that outputs, latches and gates read."""
        made = self.made
        return [
            *made.outputs,
            *(latch.next for latch in made.latches),
            *(side for gate in made.gates for side in gate.sides),
        ]

    def choices_in(self, uses):
        """The gates that are a choice between two literals: for each its condition, and what it is where the condition
        is true and where it is false. The two gates that such a gate reads are read by no other."""
        found = {}
        for variable, sides in self.sides.items():
            first, second = (self.sides.get(side // 2) if side % 2 and uses[side // 2] == 1 else None for side in sides)
            shared = (
                first and second and next(((one, other) for one in first for other in second if one == other ^ 1), None)
            )
            if shared:
                yes, no = (rest_of(pair, one) for pair, one in zip((first, second), shared))
                found[variable] = (shared[0], yes ^ 1, no ^ 1)
        return found

    def parts(self, variable):
        """The literals from which a gate is written: its sides, those of a choice, or the two that must differ."""
        found = self.choices.get(variable)
        if found is None:
            return self.sides[variable]
        condition, yes, no = found
        return (condition, no) if yes == no ^ 1 else found

    def variables_read(self):
        """The variables on which the outputs depend."""
        found, waiting = set(), [literal // 2 for literal in self.made.outputs]
        while waiting:
            one = waiting.pop()
            if one not in found:
                found.add(one)
                waiting += [side // 2 for side in self.parts(one)] if one in self.sides else []
                waiting += [self.latches[one].next // 2] if one in self.latches else []
        return found

    def equations(self):
        for gate in self.made.gates:
            if gate.literal // 2 in self.read and self.uses[gate.literal // 2]:
                self.take(gate.literal // 2)
        outputs = [
            (name, self.outputs.get(name) or self.of(literal))
            for name, literal in zip(self.names.outputs, self.made.outputs)
        ]
        registers = [
            Register(name, latch.reset, self.of(latch.next))
            for name, latch in zip(self.names.latches, self.made.latches)
            if latch.literal // 2 in self.read
        ]
        return Equations(tuple(self.wires), tuple(outputs), tuple(registers), self.sources())

    def take(self, variable):
        """Makes the term of a gate. If several terms read the gate, it gets the name of an output, or of a wire."""
        term = self.term(variable)
        self.terms[variable] = term
        if self.uses[variable] > 1 and terms.size(term) > 1:
            self.name(variable)

    def term(self, variable):
        parts = self.parts(variable)
        while sum(terms.size(self.of(part)) for part in parts) > MOST:
            self.name(max((part // 2 for part in parts), key=lambda one: terms.size(self.terms[one])))
        said = [self.of(part) for part in parts]
        if variable not in self.choices:
            return terms.all_of(said)
        return terms.either(*said) if len(said) == 2 else terms.choice(*said)

    def name(self, variable):
        """Gives a gate a name, and writes its term down behind it."""
        term = self.terms[variable]
        for name, literal in zip(self.names.outputs, self.made.outputs):
            if literal // 2 == variable:
                self.outputs[name] = opposite(term) if literal % 2 else term
                self.terms[variable] = opposite(Name(name)) if literal % 2 else Name(name)
                return
        self.wires.append((self.names.of_gate(variable), term))
        self.terms[variable] = Name(self.names.of_gate(variable))

    def of(self, literal):
        term = self.terms[literal // 2]
        return opposite(term) if literal % 2 else term

    def sources(self):
        found = {}
        for name, literal in zip(self.names.outputs, self.made.outputs):
            there, waiting = set(), [literal // 2]
            while waiting:
                one = waiting.pop()
                if one not in there:
                    there.add(one)
                    waiting += [side // 2 for side in self.sides.get(one, ())]
            named = [*zip(self.made.inputs, self.names.inputs), *zip(self.latch_literals(), self.names.latches)]
            found[name] = tuple(name for literal, name in named if literal // 2 in there)
        return found


def rest_of(pair, one):
    """The other literal of a pair."""
    return pair[1] if pair[0] == one else pair[0]
