"""Expressions and declarations of a specification as trees. Each has the offset `at` of its first byte, or of its
operator."""
from __future__ import annotations

from dataclasses import dataclass, field


@dataclass(frozen=True)
class Number:
    at: int
    value: int


@dataclass(frozen=True)
class Truth:
    """`true` or `false`."""

    at: int
    value: bool


@dataclass(frozen=True)
class Name:
    at: int
    text: str


@dataclass(frozen=True)
class Member:
    """A signal of a bus, `bus[index]`."""

    at: int
    name: str
    index: object


@dataclass(frozen=True)
class Call:
    """`name(..)`, where the name is one of a definition, or a word of sentences such as `onehot`."""

    at: int
    name: str
    arguments: tuple


@dataclass(frozen=True)
class Listed:
    """A set by its elements, `{a, b}`."""

    at: int
    elements: tuple


@dataclass(frozen=True)
class Range:
    """A set of numbers, `{first, second .. last}`."""

    at: int
    first: object
    second: object
    last: object


@dataclass(frozen=True)
class Prefix:
    """An operator before its only operand: `!`, `X`, `F`, `G`, `MIN`, `MAX`, `SIZE`, `SIZEOF`."""

    at: int
    sign: str
    operand: object


@dataclass(frozen=True)
class Bounded:
    """`X[low] f` (where `high` is None), `F[low:high] f` or `G[low:high] f`."""

    at: int
    sign: str
    low: object
    high: object
    operand: object


@dataclass(frozen=True)
class Within:
    """`within n f`, or `within n f unless end`."""

    at: int
    count: object
    operand: object
    end: object = None


@dataclass(frozen=True)
class Repeated:
    """`f[*n]`."""

    at: int
    count: object
    operand: object


@dataclass(frozen=True)
class Choice:
    """`i IN set`, in the brackets of an operator over sets."""

    at: int
    name: str
    elements: object


@dataclass(frozen=True)
class Between:
    """`low <= i < high`, in the brackets of an operator over sets."""

    at: int
    low: object
    is_low_left_out: bool
    name: str
    is_high_left_out: bool
    high: object


@dataclass(frozen=True)
class Big:
    """An operator over sets: `&&[i IN set, ..] body`; its sign is that of the operator with two operands."""

    at: int
    sign: str
    choices: tuple
    body: object


@dataclass(frozen=True)
class Chain:
    """Operands with operators of one precedence between them. `places` has the operators' offsets."""

    at: int
    signs: tuple
    places: tuple
    operands: tuple
    is_right: bool


@dataclass(frozen=True)
class Match:
    """A guard `subject ~ pattern`."""

    at: int
    subject: object
    pattern: object


@dataclass(frozen=True)
class Clause:
    """A case of a definition: its guard, a `Match`, `None` if the case always holds; and its value."""

    guard: object
    value: object


@dataclass(frozen=True)
class Definition:
    """A parameter, a constant or a function; `arguments` is None if the name is used without parentheses."""

    at: int
    name: str
    arguments: tuple | None
    clauses: tuple


@dataclass(frozen=True)
class EnumValue:
    """A value of an enumeration: the bits by which a bus has it, as strings of `0`, `1` and `*`."""

    at: int
    name: str
    patterns: tuple


@dataclass(frozen=True)
class Enumeration:
    at: int
    name: str
    values: tuple


@dataclass(frozen=True)
class Signal:
    """A declared signal; a bus has a width, and a bus of an enumeration the enumeration's name."""

    at: int
    name: str
    width: object = None
    enumeration: Name | None = None


@dataclass(frozen=True)
class Section:
    """A section of formulas, by its word in the basic form; each formula with the offsets of its begin and its end."""

    word: str
    formulas: tuple


@dataclass
class Specification:
    """A parsed text. Strings have their quotes, and `tags` has only the tags that are words."""

    title: str = ""
    description: str = ""
    tags: tuple = ()
    semantics: str = ""
    is_strict: bool = False
    target: str = ""
    parameters: list = field(default_factory=list)
    definitions: list = field(default_factory=list)
    enumerations: list = field(default_factory=list)
    inputs: list = field(default_factory=list)
    outputs: list = field(default_factory=list)
    sections: list = field(default_factory=list)
    # expressions that other tools group differently: their offsets, and how each was read
    grouped: list = field(default_factory=list)
