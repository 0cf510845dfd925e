"""The machine of a circuit: the states that it reaches, and for each state what follows from the inputs. It is written
as a table in the form KISS2, or as an automaton in the Hanoi format whose edges have the outputs too, the form in which
the synthesis competition reads controllers."""
from __future__ import annotations

from dataclasses import dataclass

from psyntool.ends import Refused
from psyntool.texts.circuit import Circuit, at

# The most rows of a table, and the most gates that are evaluated for it.
MOST_ROWS, MOST_GATES = 100_000, 50_000_000


@dataclass(frozen=True)
class Move:
    """What follows from some inputs, each 0, 1 or None if it does not matter: the outputs, and the number of the next
    state."""

    inputs: tuple
    outputs: tuple
    target: int


@dataclass(frozen=True)
class Machine:
    """The names of inputs and outputs, and the moves from each state. The first state is 0."""

    inputs: tuple
    outputs: tuple
    moves: tuple


def machine_of(made: Circuit) -> Machine:
    """The machine of a circuit, whose gates may stand in any order."""
    return Exploring(made.ordered).machine()


class Exploring:
    """A circuit whose states, the values of its latches, are explored from the first one on."""

    def __init__(self, made):
        self.made = made
        self.numbers = {}
        self.states = []
        self.rows = self.gates = 0

    def machine(self):
        if any(latch.reset > 1 for latch in self.made.latches):
            raise Refused("a latch of this circuit has no first value, so there is no table (--zero-resets gives it 0)")
        self.number(tuple(latch.reset for latch in self.made.latches))
        # The list grows while it is gone through.
        moves = tuple(tuple(self.moves(state)) for state in self.states)
        return Machine(tuple(self.made.names("i")), tuple(self.made.names("o")), moves)

    def number(self, state):
        if state not in self.numbers:
            self.numbers[state] = len(self.states)
            self.states.append(state)
        return self.numbers[state]

    def moves(self, state):
        """The moves from a state. Inputs are tried in their order, as long as what follows is not known."""
        waiting = [()]
        while waiting:
            inputs = waiting.pop()
            values = self.values(state, inputs)
            outputs = tuple(at(values, literal) for literal in self.made.outputs)
            after = tuple(at(values, latch.next) for latch in self.made.latches)
            if None in outputs or None in after:
                waiting += [(*inputs, 1), (*inputs, 0)]
                continue
            self.rows += 1
            if self.rows > MOST_ROWS:
                raise Refused(f"the table of this circuit has more than {MOST_ROWS:,} rows")
            rest = (None,) * (len(self.made.inputs) - len(inputs))
            yield Move((*inputs, *rest), outputs, self.number(after))

    def values(self, state, inputs):
        """The values of the variables in a state, for the first inputs; None where they are unknown."""
        self.gates += len(self.made.gates) + 1
        if self.gates > MOST_GATES:
            raise Refused(f"the table of this circuit takes more than {MOST_GATES:,} steps")
        known = {latch.literal // 2: value for latch, value in zip(self.made.latches, state)}
        known.update({literal // 2: value for literal, value in zip(self.made.inputs, inputs)})
        return self.made.known_values(known)


# ---- texts


def kiss(machine: Machine) -> str:
    """The machine in the form KISS2. A blank in a name becomes `_`."""
    rows = [
        f"{digits(move.inputs)} s{state} s{move.target} {digits(move.outputs)}"
        for state, moves in enumerate(machine.moves)
        for move in moves
    ]
    head = [
        f".i {len(machine.inputs)}", f".o {len(machine.outputs)}", f".s {len(machine.moves)}", f".p {len(rows)}",
        ".r s0", named(".ilb", machine.inputs), named(".ob", machine.outputs),
    ]  # fmt: skip
    return "\n".join([*filter(None, head), *rows, ".e", ""])


def digits(values):
    return "".join("-" if value is None else str(value) for value in values) or "-"


def named(key, names):
    return " ".join([key, *("_".join(name.split()) for name in names)]) if names else ""


def hoa(machine: Machine) -> str:
    """The machine as an automaton, which accepts what the circuit does. The outputs are its controllable
    propositions."""
    names = [*machine.inputs, *machine.outputs]
    quoted = [f'"{escaped(name)}"' for name in names]
    lines = [
        "HOA: v1",
        'tool: "psyn show"',
        f"States: {len(machine.moves)}",
        "Start: 0",
        " ".join([f"AP: {len(names)}", *quoted]),
        " ".join(["controllable-AP:", *map(str, range(len(machine.inputs), len(names)))]),
        "acc-name: all",
        "Acceptance: 0 t",
        "properties: deterministic",
        "--BODY--",
    ]
    for state, moves in enumerate(machine.moves):
        lines.append(f"State: {state}")
        lines += [f"[{label((*move.inputs, *move.outputs))}] {move.target}" for move in moves]
    return "\n".join([*lines, "--END--", ""])


def escaped(name):
    return name.replace("\\", "\\\\").replace('"', '\\"')


def label(values):
    literals = [f"{'' if value else '!'}{number}" for number, value in enumerate(values) if value is not None]
    return "&".join(literals) or "t"


FORMS = {"kiss2": kiss, "hoa": hoa}
