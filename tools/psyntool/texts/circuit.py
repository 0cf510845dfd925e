"""Circuits, parsed from texts in ASCII AIGER. A literal is twice its variable, plus one if it is negated."""
import re
from dataclasses import dataclass, replace

from psyntool.texts import NUMBER, Unreadable, is_number

CAUSE = "this is no circuit: run `sim` to see where it goes wrong"


@dataclass(frozen=True)
class Latch:
    """A latch: its literal, the literal of its next value, and its reset value."""

    literal: int
    next: int
    reset: int = 0


@dataclass(frozen=True)
class Gate:
    literal: int
    sides: tuple


@dataclass(frozen=True)
class Circuit:
    """A circuit: the literals of inputs and outputs, the latches, the gates, and the symbols by kind (`i`, `l`, `o`)
    and index."""

    inputs: tuple
    latches: tuple
    outputs: tuple
    gates: tuple
    symbols: dict
    # The comment section at the end of the text, which begins with a line `c`.
    comment: str = ""

    def name_of(self, kind, number):
        return self.symbols.get((kind, number), f"{kind}{number}")

    def names(self, kind):
        """The names of all inputs (`i`), latches (`l`) or outputs (`o`)."""
        count = len({"i": self.inputs, "l": self.latches, "o": self.outputs}[kind])
        return [self.name_of(kind, number) for number in range(count)]

    @property
    def read_variables(self):
        """The variables that the latches, the outputs and the gates read."""
        sides = [side for gate in self.gates for side in gate.sides]
        return {literal // 2 for literal in [*(latch.next for latch in self.latches), *self.outputs, *sides]}

    @property
    def needed_variables(self):
        """The variables on which the outputs depend, by gates and latches."""
        sides = {gate.literal // 2: gate.sides for gate in self.gates} | {
            latch.literal // 2: (latch.next,) for latch in self.latches
        }
        found, waiting = set(), [literal // 2 for literal in self.outputs]
        while waiting:
            one = waiting.pop()
            if one not in found:
                found.add(one)
                waiting += [side // 2 for side in sides.get(one, ())]
        return found

    def without_input(self, name):
        """The circuit without the input of the given name, which must be unread; the inputs after it move up by one."""
        dropped = next((number for number in range(len(self.inputs)) if self.symbols.get(("i", number)) == name), None)
        if dropped is None:
            raise Unreadable(f"no input of the circuit is called {name!r}")
        if self.inputs[dropped] // 2 in self.read_variables:
            raise Unreadable(f"the input {name!r} can't be dropped: the circuit reads it")
        symbols = {}
        for (kind, number), symbol in self.symbols.items():
            if kind != "i" or number < dropped:
                symbols[kind, number] = symbol
            elif number > dropped:
                symbols[kind, number - 1] = symbol
        inputs = self.inputs[:dropped] + self.inputs[dropped + 1 :]
        return replace(self, inputs=inputs, symbols=symbols)

    @property
    def ordered(self):
        """The circuit with each gate behind the gates that it reads. No gate may read itself, directly or through
        others."""
        left, order = {gate.literal // 2: gate for gate in self.gates}, []
        for gate in self.gates:
            waiting = [gate.literal // 2]
            while waiting:
                now = left.get(waiting[-1])
                before = [side // 2 for side in now.sides if side // 2 in left] if now else []
                if now and not before:
                    order.append(left.pop(waiting[-1]))
                waiting += before
                if not before:
                    waiting.pop()
        return replace(self, gates=tuple(order))

    def constants(self):
        """The outputs that have the same value in every step, whatever the inputs are, with their values: those for
        which this is seen if a latch that may change, and each input, counts as unknown."""
        latches = {latch.literal // 2: latch.reset if latch.reset < 2 else None for latch in self.latches}
        while True:
            values = self.known_values(latches)
            after = {latch.literal // 2: at(values, latch.next) for latch in self.latches}
            joined = {one: value if after[one] == value else None for one, value in latches.items()}
            if joined == latches:
                break
            latches = joined
        found = {name: at(values, literal) for name, literal in zip(self.names("o"), self.outputs)}
        return {name: value for name, value in found.items() if value is not None}

    def known_values(self, latches):
        """The value of each variable, None where it is unknown. A gate must stand after the gates that it reads."""
        values = {0: 0, **latches}
        for gate in self.gates:
            sides = [at(values, side) for side in gate.sides]
            values[gate.literal // 2] = 0 if 0 in sides else None if None in sides else 1
        return values

    @property
    def ending(self):
        """The symbols, one on each line, and the comment section."""
        return "".join(f"{kind}{number} {name}\n" for (kind, number), name in self.symbols.items()) + self.comment

    def text(self):
        """The circuit's text in ASCII AIGER."""
        defined = [*self.inputs, *(latch.literal for latch in self.latches), *(gate.literal for gate in self.gates)]
        most = max([0, *defined, *(2 * variable for variable in self.read_variables)]) // 2
        head = ("aag", most, len(self.inputs), len(self.latches), len(self.outputs), len(self.gates))
        rows = [head, *((literal,) for literal in self.inputs)]
        rows += [
            (latch.literal, latch.next, latch.reset) if latch.reset else (latch.literal, latch.next)
            for latch in self.latches
        ]
        rows += [*((literal,) for literal in self.outputs), *((gate.literal, *gate.sides) for gate in self.gates)]
        return "".join(" ".join(map(str, row)) + "\n" for row in rows) + self.ending


def at(values, literal):
    """The value of a literal; a variable without a value is unknown."""
    value = values.get(literal // 2)
    return None if value is None else value ^ literal & 1


def numbers(lines, count, least):
    """The numbers on each of the first `count` lines. Each of these lines must have at least `least` numbers."""
    rows = [line.split() for line in lines[:count]]
    if len(rows) < count or any(len(row) < least or not all(map(is_number, row)) for row in rows):
        raise Unreadable(CAUSE)
    return [tuple(map(int, row)) for row in rows]


def read(text):
    """Parses a circuit."""
    lines = text.split("\n")
    head = lines[0].split()
    if not head or head[0] != "aag" or len(head) < 6 or not all(map(is_number, head[1:])):
        raise Unreadable("this is no circuit: its first line is not `aag M I L O A`")
    counts = [int(word) for word in head[2:6]]
    if sum(counts) > len(lines) - 1:
        raise Unreadable("this circuit has fewer lines than its first line says: run `sim` to see where it goes wrong")
    parts, at = [], 1
    for count, least in zip(counts, (1, 2, 1, 3)):
        parts.append(numbers(lines[at : at + count], count, least))
        at += count
    symbols, comment = {}, ""
    for place, line in enumerate(lines[at:], at):
        if line.startswith("c"):
            comment = "\n".join(lines[place:])
            break
        found = re.fullmatch(rf"([ilo])({NUMBER}) (.+)", line)
        if found:
            symbols[found[1], int(found[2])] = found[3]
    inputs, latches, outputs, gates = parts
    return Circuit(
        tuple(row[0] for row in inputs),
        tuple(Latch(*row[:3]) for row in latches),
        tuple(row[0] for row in outputs),
        tuple(Gate(row[0], row[1:3]) for row in gates),
        symbols,
        comment,
    )
