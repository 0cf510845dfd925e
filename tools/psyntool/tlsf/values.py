"""What expressions stand for: numbers, truth values (Python's `bool`), formulas, sets, buses, and values of
enumerations."""
from dataclasses import dataclass

from psyntool.tlsf.formulas import Formula


@dataclass(frozen=True)
class Bus:
    """A bus: its name, the names of its signals in the basic form, and its enumeration if it has one."""

    name: str
    signals: tuple
    enumeration: str = ""


@dataclass(frozen=True)
class Bits:
    """A value of an enumeration: its name, the bits by which a bus has it, as strings of `0`, `1` and `*`, and the
    enumeration."""

    name: str
    patterns: tuple
    enumeration: str

    @property
    def width(self) -> int:
        return len(self.patterns[0])


@dataclass(frozen=True, eq=False)
class Elements:
    """A set: its elements, and a number that it shares with the sets of the same elements alone."""

    items: tuple
    number: int


def described(value) -> str:
    """A value in messages, by its kind."""
    if isinstance(value, bool):
        return "a truth value"
    if isinstance(value, int):
        return "a number"
    if isinstance(value, Elements):
        return "a set"
    if isinstance(value, Bus):
        return f"the bus `{value.name}`"
    if isinstance(value, Bits):
        return f"the value `{value.name}` of an enumeration"
    return "a formula"


def is_number(value) -> bool:
    return isinstance(value, int) and not isinstance(value, bool)


def key_of(value):
    """What is the same for equal values, and for no others."""
    if isinstance(value, Elements):
        return "set", value.number
    if isinstance(value, Formula):
        return "formula", id(value)
    return type(value).__name__, value


class Sets:
    """Makes sets, and numbers them."""

    def __init__(self):
        self.numbers = {}

    def of(self, values) -> Elements:
        """The set of the given values: numbers in increasing order, and others in the order in which they first
        occur."""
        found = {key_of(value): value for value in values}
        items = tuple(found.values())
        number = self.numbers.setdefault(frozenset(found), len(self.numbers))
        return Elements(tuple(sorted(items)) if all(map(is_number, items)) else items, number)
