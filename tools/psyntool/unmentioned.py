"""Inputs of a circuit that the automaton or the specification does not mention, such as the clock that yosys adds, or a
proposition that a tool found superfluous. If nothing in the circuit reads such an input, it is left out."""
import re

from psyntool.kinds import Kind
from psyntool.texts import Unreadable

HEAD = re.compile(rb"\s*aag\s+\d+\s+(\d+)")
SYMBOL = re.compile(rb"(?m)^i\d+ (.+)$")
PROPOSITIONS = re.compile(rb'\bAP:\s*\d+((?:\s*"(?:\\.|[^"\\])*")*)')


def drop(texts):
    """Leaves these inputs out of the circuit, and their digits out of the stimulus, if there is one. The texts are an
    automaton or a specification, a circuit, and perhaps a stimulus."""
    first, circuit = texts[:2]
    if first.kind is Kind.AUTOMATON and seem_mentioned(first.bytes, circuit.bytes):
        return
    try:
        count, unread, _ = inputs(mentioned_in(first), circuit.string)
    except Unreadable:
        return
    head = HEAD.match(circuit.bytes)
    if not unread or not head:
        return
    counted = (*head.span(1), b"%d" % (count - len(unread)))
    circuit.replace([counted, *definitions(circuit.bytes, count, unread), *symbols(circuit.bytes, unread)])
    names, these = ", ".join(unread.values()), "it" if len(unread) == 1 else "them"
    circuit.told.append(
        f"{circuit.name}: {'input' if these == 'it' else 'inputs'} {names} left out: "
        f"the {first.kind.title} does not mention {these}, and nothing reads {these}"
    )
    for stimulus in texts[2:]:
        spans = digits(stimulus.bytes, count, unread)
        if spans:
            stimulus.replace(spans)
            stimulus.told.append(f"{stimulus.name}: so are the digits of {names}")


def seem_mentioned(automaton, circuit):
    """Whether, at a quick look, the automaton has each name of an input as a proposition."""
    found = PROPOSITIONS.search(automaton)
    return bool(found) and all(b'"%s"' % name.rstrip(b"\r") in found[1] for name in SYMBOL.findall(circuit))


def mentioned_in(text):
    """The names of the propositions of an automaton or a specification."""
    from psyntool.texts import hoa, specification

    if text.kind is Kind.SPECIFICATION:
        return {name for names in specification.owners(text.string) for name in names}
    reader = hoa.Reader(hoa.tokens_of(text.string, "--BODY--"))
    reader.take("HOA:")
    reader.take()
    return set(hoa.header_of(reader, text.string).names)


def inputs(mentioned, text):
    """The number of the circuit's inputs; and, by number, the names of those that are not mentioned: first those that
    nothing reads, and then those that the circuit reads."""
    from psyntool.texts import circuit

    made = circuit.read(text)
    others = {
        number: made.symbols[kind, number] for kind, number in made.symbols if kind == "i" and number < len(made.inputs)
    }
    others = {number: name for number, name in sorted(others.items()) if name not in mentioned}
    are_read = made.read_variables
    unread = {number: name for number, name in others.items() if made.inputs[number] // 2 not in are_read}
    return len(made.inputs), unread, {number: name for number, name in others.items() if number not in unread}


def definitions(text, count, dropped):
    """The lines of the circuit that define the dropped inputs, as spans with what replaces them."""
    begin = text.index(b"\n") + 1
    for number in range(count):
        end = text.index(b"\n", begin) + 1
        if number in dropped:
            yield begin, end, b""
        begin = end


def symbols(text, dropped):
    """The lines of the circuit that name the dropped inputs, and the numbers in those that name later inputs, as spans
    with what replaces them."""
    comment = re.search(rb"(?m)^c", text)
    for found in re.finditer(rb"(?m)^i(\d+) .*\n?", text[: comment.start()] if comment else text):
        number = int(found[1])
        before = sum(other < number for other in dropped)
        if number in dropped:
            yield (*found.span(), b"")
        elif before:
            yield (*found.span(1), b"%d" % (number - before))


def digits(text, count, dropped):
    """The digits of a stimulus for the dropped inputs as spans, if each letter has a digit for each input."""
    spans = []
    for found in re.finditer(rb"(?m)^.*$", text.rstrip(b"\n")):
        if found[0] == b"-":
            continue
        if len(found[0]) != count or set(found[0]) - set(b"01"):
            return []
        spans += [(found.start() + number, found.start() + number + 1, b"") for number in dropped]
    return spans

