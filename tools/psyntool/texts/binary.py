"""Converts circuits from the binary form of AIGER 1.9 to the ASCII form, and back."""
from psyntool.texts import Unreadable, is_number


class Broken(Exception):
    """An error: the bytes are not a circuit in binary AIGER."""


def number_at(data, at):
    """The number that begins at an offset, in bytes of seven bits with the low bits first, and the offset after it."""
    value, shift = 0, 0
    while True:
        if at >= len(data) or shift > 63:
            raise Broken("it ends inside the gates")
        value |= (data[at] & 127) << shift
        at, shift = at + 1, shift + 7
        if data[at - 1] < 128:
            return value, at


def line_at(data, at):
    stop = data.find(b"\n", at)
    if stop < 0:
        raise Broken("it ends inside its lines")
    return data[at:stop], stop + 1


def ascii_form(data):
    """The circuit in ASCII AIGER, with the variable numbers, symbols and comments of the binary form."""
    head, at = line_at(data, 0)
    words = head.split(b" ")
    if words[0] != b"aig" or len(words) < 6 or not all(map(is_number, words[1:])):
        raise Broken("its first line is not `aig M I L O A`")
    most, inputs, latches, outputs, gates = (int(word) for word in words[1:6])
    if most != inputs + latches + gates or gates > len(data) or latches + outputs > len(data):
        raise Broken("its first line and its length disagree")
    lines = [b" ".join([b"aag", *words[1:]])]
    lines += [b"%d" % (2 * variable) for variable in range(1, inputs + 1)]
    for variable in range(inputs + 1, inputs + latches + 1):
        row, at = line_at(data, at)
        lines.append(b"%d %s" % (2 * variable, row))
    sections = outputs + sum(int(word) for word in words[6:8])
    if words[8:] and any(int(word) for word in words[8:]):
        raise Broken("it has justice or fairness properties")
    for _ in range(sections):
        row, at = line_at(data, at)
        lines.append(row)
    for variable in range(inputs + latches + 1, most + 1):
        first, at = number_at(data, at)
        second, at = number_at(data, at)
        lines.append(b"%d %d %d" % (2 * variable, 2 * variable - first, 2 * variable - first - second))
    return b"\n".join(lines) + b"\n" + data[at:]


def binary_form(circuit):
    """A circuit in binary AIGER. The variables are renumbered: inputs, latches, and then gates, each gate after the
    gates that it reads."""
    ordered = in_order(circuit.gates)
    defined = [*circuit.inputs, *(latch.literal for latch in circuit.latches), *(gate.literal for gate in ordered)]
    numbers = {0: 0, **{literal // 2: number for number, literal in enumerate(defined, 1)}}
    twice = len(ordered) < len(circuit.gates) or len(numbers) <= len(defined)
    if twice or any(literal % 2 for literal in defined) or not circuit.read_variables <= numbers.keys():
        raise Unreadable("a variable of the circuit is not defined exactly once: run `sim` to see where it goes wrong")

    def renumbered(literal):
        return 2 * numbers[literal // 2] + literal % 2

    head = ("aig", len(defined), len(circuit.inputs), len(circuit.latches), len(circuit.outputs), len(ordered))
    rows = [head]
    for latch in circuit.latches:
        reset = renumbered(latch.reset) if latch.reset > 1 else latch.reset
        rows.append((renumbered(latch.next), reset) if reset else (renumbered(latch.next),))
    rows += [(renumbered(literal),) for literal in circuit.outputs]
    written = bytearray("".join(" ".join(map(str, row)) + "\n" for row in rows).encode())
    for gate in ordered:
        lower, upper = sorted(map(renumbered, gate.sides))
        written += number_bytes(renumbered(gate.literal) - upper) + number_bytes(upper - lower)
    return bytes(written) + circuit.ending.encode("utf-8", "surrogateescape")


def number_bytes(value):
    """A number in bytes of seven bits, with the low bits first."""
    written = bytearray()
    while value > 127:
        written.append(value & 127 | 128)
        value >>= 7
    written.append(value)
    return bytes(written)


def in_order(gates):
    """The gates in the order of the text, except that each one comes after the gates that it reads."""
    by_variable = {gate.literal // 2: gate for gate in gates}
    ordered, opened, done = [], set(), set()
    for first in gates:
        stack = [first]
        while stack:
            gate = stack[-1]
            variable = gate.literal // 2
            waiting = [
                by_variable[side // 2] for side in gate.sides if side // 2 in by_variable and side // 2 not in done
            ]
            if variable in done or not waiting:
                stack.pop()
                if variable not in done:
                    done.add(variable)
                    ordered.append(gate)
            elif variable in opened:
                raise Unreadable("a gate of the circuit depends on itself: run `sim` to see where")
            else:
                opened.add(variable)
                stack += waiting
    return ordered
