"""The sentences of a specification that a lasso violates, as the tool finds them. Each is confirmed by the program,
which judges the lasso by this sentence alone."""
from dataclasses import replace

from psyntool import program, specifying
from psyntool.command import ENV, TLSF
from psyntool.texts import circuit, specification
from psyntool.tlsf import keeping
from psyntool.tlsf.obligations import TooLong
from psyntool.tlsf.tokens import ENCODING

# Of more sentences that a lasso violates, so many are told.
MOST = 10


def of_trace(texts, letters, stem, flags):
    """The guarantees that a circuit's trace violates; of an environment's circuit, the assumptions. The texts are a
    specification, a circuit and a stimulus."""
    head = " ".join(["lasso", TLSF.name, *flags]) + "\n"
    given = b"%%\n".join(text.bytes for text in texts[1:])
    return confirmed(texts[0], letters, stem, ENV.name in flags, lambda basic: basic, head.encode(), given)


def of_word(text, letters, stem, are_assumed):
    """The guarantees, or the assumptions, that a lasso violates. The program reads it as the trace of a circuit whose
    inputs are all propositions."""
    names = specification.names(text.string)
    made = circuit.Circuit(
        tuple(range(2, 2 * len(names) + 2, 2)), (), (), (), {("i", number): name for number, name in enumerate(names)}
    )
    lines = ["".join("01"[name in true] for name in names) for true in letters]
    given = f"{made.text()}%%\n" + "".join(f"{line}\n" for line in [*lines[:stem], "-", *lines[stem:]])
    head = f"lasso {TLSF.name}\n".encode()
    return confirmed(
        text,
        letters,
        stem,
        are_assumed,
        lambda basic: replace(basic, inputs=tuple(names), outputs=()),
        head,
        given.encode(ENCODING),
    )


def confirmed(text, letters, stem, are_assumed, changed, head, given):
    """The guarantees, or the assumptions, of a specification that a lasso violates. The program gets the line `head`,
    the specification, changed by a function, with one sentence alone, and then the given texts."""
    basic = specifying.basic_of(text)
    try:
        found = (keeping.lifted if are_assumed else keeping.violated)(basic, letters, stem) if basic else []
    except TooLong:
        return []
    asked = [
        head + keeping.alone(changed(basic), one.sentence).encode(ENCODING) + b"%%\n" + given for one in found[:MOST]
    ]
    return [one for one, text in zip(found, asked) if program.ask(text).text.startswith("violated ")]
