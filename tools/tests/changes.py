"""Changes single literals of circuits, and compares `verify` with an enumeration of the product; `lasso` must confirm
each counterexample."""
import random
from dataclasses import dataclass
from functools import cached_property

from psyntool.texts import automaton, circuit
from tests import products
from upkeep import rows


def ask(psyn, command, *texts):
    """The program's answer to a command with texts, and the exit status."""
    answer, status = rows.answered(psyn, rows.Row(command, (command + "\n" + "%%\n".join(texts)).encode(), 0))
    return answer.decode(), status


def places(text):
    """The positions of the literals that a circuit reads, each as the index of its line and the index of its word."""
    inputs, latches, outputs, gates = map(int, text.split("\n", 1)[0].split()[2:6])
    first = 1 + inputs
    found = [(first + k, 1) for k in range(latches)] + [(first + latches + k, 0) for k in range(outputs)]
    return found + [(first + latches + outputs + k, side) for k in range(gates) for side in (1, 2)]


def negated(text, place):
    """The circuit with the literal at the given position negated."""
    (line, word), lines = place, text.split("\n")
    words = lines[line].split(" ")
    words[word] = str(int(words[word]) ^ 1)
    return "\n".join([*lines[:line], " ".join(words), *lines[line + 1 :]])


def with_inputs_as_outputs(text):
    """For each output and each input, the circuit in which the input replaces the output."""
    lines = text.split("\n")
    inputs, latches, outputs = map(int, lines[0].split()[2:5])
    for line in range(1 + inputs + latches, 1 + inputs + latches + outputs):
        yield from ("\n".join([*lines[:line], lines[place], *lines[line + 1 :]]) for place in range(1, 1 + inputs))


class TooSlow(Exception):
    """The program did not answer in time."""


def refuse_if_late(status):
    if status is None:
        raise TooSlow(f"no answer within {rows.SECONDS} s")


def refuse_unless(is_so, *what):
    if not is_so:
        raise AssertionError("\n".join(str(it)[:2_000] for it in what))


def answered(psyn, spec, text, env, moore):
    """The first line of the answer of `verify`; a counterexample is confirmed by `lasso`."""
    flags = " --env" * env + " --moore" * moore
    answer, status = ask(psyn, "verify" + flags, spec, text)
    refuse_if_late(status)
    first, _, counterexample = answer.partition("\n")
    refuse_unless(status == (1 if first.startswith("fault") else 0), first, status, spec, text, flags)
    if first == "loses":
        # The latches need not recur with the lap: the stem and the lap that `lasso` tells may be longer.
        said, status = ask(psyn, "lasso" + " --env" * env, spec, text, counterexample)
        refuse_unless(
            (said.split(" ")[0], status) == ("accepted" if env else "rejected", 0), said, answer, spec, text, flags
        )
    return first


@dataclass(frozen=True)
class Case:
    """An automaton and a circuit of one of the players, and whether the controller moves first (`moore`)."""

    psyn: str
    spec: str
    text: str
    env: bool
    moore: bool

    @cached_property
    def read(self):
        return automaton.read(self.spec)

    def drawn(self, seed, count):
        """The circuit, and then changed copies of it: in each, one of `count` randomly chosen literals is negated."""
        found = places(self.text)
        chosen = random.Random(seed).sample(found, min(count, len(found)))
        return [self.text, *(negated(self.text, place) for place in chosen)]

    def judged(self, text):
        """The answer of `verify` about a changed circuit, which must agree with the enumeration of the product."""
        wanted = products.verdict(self.read, circuit.read(text), self.env, self.moore)
        found = answered(self.psyn, self.spec, text, self.env, self.moore)
        refuse_unless(found == wanted, found, wanted, self.spec, text, self.env, self.moore)
        return found


def case_of(psyn, spec, moore):
    """An automaton, and the circuit that `synth` prints for it."""
    answer, status = ask(psyn, "synth" + " --moore" * moore, spec)
    refuse_if_late(status)
    refuse_unless(status in (10, 20), answer, spec)
    return Case(psyn, spec, answer.partition("\n")[2], status == 20, moore)
