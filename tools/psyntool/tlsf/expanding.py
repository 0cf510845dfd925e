"""The basic form of a specification: signals by names alone, and formulas without parameters, functions and sets."""
import bisect
import contextlib
import re
import sys
from dataclasses import dataclass, replace

from psyntool.tlsf.definitions import Definitions
from psyntool.tlsf.formulas import (
    MOST_BYTES, MOST_OPERATORS, Formula, TooLarge, names_in, sentences_of, text_of
)
from psyntool.tlsf.reading import read
from psyntool.tlsf.syntax import Specification
from psyntool.tlsf.tokens import Wrong
from psyntool.tlsf.values import Bus
from psyntool.words import nearest

SIGN = "// written by psyn tlsf"
WORDS = ("INITIALLY", "PRESET", "REQUIRE", "ASSERT", "ASSUME", "GUARANTEE")
# The sections for the values that a bus of an enumeration has: of an input, and of an output.
OF_INPUTS, OF_OUTPUTS = "REQUIRE", "ASSERT"
# A formula of more bytes, or with a comment in it, is shown in the basic form.
MOST_SHOWN = 200
# Python's own limit on calls within each other: each level of an expression takes a few.
MOST_FRAMES = 40_000


class Unset(Exception):
    """A parameter that is set is not one of the specification; the message says which ones there are."""


@dataclass(frozen=True)
class Sentence:
    """A sentence: the word of its section, its formula in the basic form, the line of the text on which the formula
    begins for which it is written (0 if there is none), and that formula as it was typed or, if several sentences are
    written for it, this one with the words in which it was typed."""

    word: str
    formula: object
    row: int
    source: str = ""

    @property
    def said(self) -> str:
        """The sentence as it is shown."""
        return self.source or text_of(self.formula)

    @property
    def names(self) -> list:
        """The names of the signals that the sentence mentions, in order."""
        return names_in(self.formula)


@dataclass(frozen=True)
class Basic:
    """A specification in the basic form: the lines of its head, the names of its inputs and outputs, whether its
    semantics are strict, whether the outputs move first, and the sentences in the order of their sections."""

    head: tuple
    inputs: tuple
    outputs: tuple
    is_strict: bool
    is_moore: bool
    sentences: tuple
    # expressions that other tools group differently: their offsets, and how each was read
    grouped: tuple = ()
    # how a text was read whose formulas are written for another order of moves, or nothing
    rewritten: str = ""

    def of(self, word: str) -> list:
        """The sentences of a section."""
        return [one for one in self.sentences if one.word == word]

    def having(self, sentences) -> "Basic":
        """The specification with these sentences alone."""
        return replace(self, sentences=tuple(sentences))

    def text(self) -> str:
        """The text of the basic form."""
        parts = [*self.head, "MAIN {\n", *signals("INPUTS", self.inputs), *signals("OUTPUTS", self.outputs)]
        for word in WORDS:
            those = self.of(word)
            if those:
                parts += [f"  {word} {{\n", *lines(those), "  }\n"]
        return "".join([*parts, "}\n"])


def expanded(text: str, settings: dict) -> str:
    """The basic form of a text, with the given values of parameters."""
    return basic(text, settings).text()


def basic(text: str, settings: dict) -> Basic:
    """The specification that a text describes, in the basic form, with the given values of parameters."""
    with deep_calls():
        return of_specification(read(text), text, settings)


def of_specification(specification: Specification, text: str, settings: dict) -> Basic:
    """The basic form of a parsed text."""
    with deep_calls():
        try:
            made = written(specification, text, settings, False)
        except TooLarge as error:
            made = written_shortly(specification, text, settings, error)
        length = len(made.text())
    if length > MOST_BYTES:
        raise Wrong(0, f"written out, this specification has {length:,} bytes, and psyn reads at most {MOST_BYTES:,}")
    return made


@contextlib.contextmanager
def deep_calls():
    """Allows Python so many calls within each other as the limits of expressions may take."""
    before = sys.getrecursionlimit()
    sys.setrecursionlimit(max(before, MOST_FRAMES))
    try:
        yield
    finally:
        sys.setrecursionlimit(before)


def written_shortly(specification: Specification, text: str, settings: dict, error: TooLarge) -> Basic:
    """The basic form in short formulas, of a text whose other formulas are too large. If these are too large as well,
    the error is that of the others."""
    try:
        return written(specification, text, settings, True)
    except TooLarge:
        raise error from None


def written(specification: Specification, text: str, settings: dict, are_short: bool) -> Basic:
    refuse_unknown(specification, settings)
    definitions = Definitions(specification, settings, are_short)
    head = [
        f"{SIGN}\n",
        *(
            f"// {name} = {definitions.declared(made.at, name)}\n"
            for made in specification.parameters
            for name in [made.name]
        ),
    ]
    names = [
        tuple(name for value in those for name in names_of(value))
        for those in (definitions.inputs, definitions.outputs)
    ]
    order = specification.is_strict, specification.target == "Moore"
    late, said = delay(specification, *names)
    those = tuple(sentences(text, specification, definitions, late))
    return Basic((*head, *info(specification)), *names, *order, those, tuple(specification.grouped), said)


def delay(specification: Specification, inputs: tuple, outputs: tuple) -> tuple:
    """The names that are taken one step later where SEMANTICS and TARGET differ, and a message that says so: an output
    that may answer the input of its step is one step late if it moves first, and the other way round."""
    have, want = specification.semantics, specification.target
    if have == want:
        return frozenset(), ""
    names, kind, one = (outputs, "output", "o") if want == "Moore" else (inputs, "input", "i")
    return (
        frozenset(names), f"SEMANTICS is {have} and TARGET {want}: each {kind} {one} is read as X {one}, as TLSF does"
    )


def refuse_unknown(specification: Specification, settings: dict):
    names = [made.name for made in specification.parameters]
    for name in settings:
        if name not in names:
            raise Unset(
                f"there is no parameter {name}{nearest(name, names)}; "
                + (f"the specification has {', '.join(names)}" if names else "the specification has none")
            )


def sentences(text: str, specification: Specification, definitions: Definitions, late: frozenset) -> list:
    """The sentences, in which some names are taken one step later. A conjunction is written as several of them."""
    found, size, length, known = [], 0, 0, {}
    starts = [0, *(at.end() for at in re.finditer("\n", text))]
    for at, stop, word, formula in formulas_of(specification, definitions):
        formula = definitions.evaluator.formulas.delayed(at, formula, late, known) if late else formula
        size += formula.size if isinstance(formula, Formula) else 1
        length += formula.length if isinstance(formula, Formula) else len("false")
        if size > MOST_OPERATORS:
            raise TooLarge(
                at,
                f"written out, the specification has more than {MOST_OPERATORS:,} operators and operands up to here, "
                "the most that psyn reads",
            )
        if length > MOST_BYTES:
            raise TooLarge(
                at,
                f"written out, the specification has more than {MOST_BYTES:,} bytes up to here, "
                "the most that psyn reads",
            )
        parts, row = sentences_of(formula), bisect.bisect_right(starts, at)
        typed = shown(text[at:stop]) if len(parts) == 1 and not late else ""
        spoken = definitions.evaluator.formulas.spoken
        found += [Sentence(word, one, row, typed or text_of(one, spoken, MOST_SHOWN)) for one in parts]
    return found


def shown(source: str) -> str:
    """A formula of the text on one line, as it is shown; empty if it is long or has a comment."""
    return "" if len(source) > MOST_SHOWN or "//" in source or "/*" in source else " ".join(source.split())


def formulas_of(specification: Specification, definitions: Definitions):
    """The formula of each sentence with its offset, the offset behind it, and its section: first that buses have values
    of their enumerations."""
    for word, declared, those in (
        (OF_INPUTS, specification.inputs, definitions.inputs), (OF_OUTPUTS, specification.outputs, definitions.outputs)
    ):
        for signal, bus in zip(declared, those):
            if isinstance(bus, Bus) and bus.enumeration:
                formula = definitions.in_enumeration(signal.at, bus)
                yield from [(signal.at, signal.at, word, formula)] if formula is not True else []
    for section in specification.sections:
        for at, stop, expression in section.formulas:
            yield at, stop, section.word, definitions.evaluator.formula(expression, {})


def info(specification: Specification):
    yield "INFO {\n"
    if specification.title:
        yield f"  TITLE:       {specification.title}\n"
    if specification.description:
        yield f"  DESCRIPTION: {specification.description}\n"
    if specification.tags:
        yield f"  TAGS:        {', '.join(specification.tags)}\n"
    yield f"  SEMANTICS:   {specification.target}{',Strict' * specification.is_strict}\n"
    yield f"  TARGET:      {specification.target}\n"
    yield "}\n"


def names_of(value) -> tuple:
    """The names of a declared signal, or of the signals of a bus."""
    return value.signals if isinstance(value, Bus) else value.operands


def signals(word: str, names: tuple):
    """The lines that declare signals."""
    return [f"  {word} {{\n", *(f"    {name};\n" for name in names), "  }\n"]


def lines(those: list):
    """The lines of sentences, each below the number of the line on which its formula begins in the full form."""
    before = 0
    for sentence in those:
        if sentence.row != before:
            yield f"    // line {sentence.row}\n"
        before = sentence.row
        yield f"    {text_of(sentence.formula)};\n"
