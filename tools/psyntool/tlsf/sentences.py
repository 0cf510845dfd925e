"""Formulas that words of sentences stand for, and those that a bus has a value of an enumeration."""
from psyntool.tlsf.expressions import AT_MOST_ONE
from psyntool.tlsf.formulas import MOST_OPERATORS, Formula, Formulas
from psyntool.tlsf.tokens import Wrong
from psyntool.tlsf.values import Bits, Bus, described


def stable(formulas: Formulas, at: int, those: list):
    """Each one is the same in the next step as in this one."""
    return formulas.joined(at, "&&", [formulas.equivalence(at, one, formulas.before(at, "X", one)) for one in those])


def rises(formulas: Formulas, at: int, those: list):
    """Not in this step, and in the next one."""
    [one] = those
    return formulas.joined(at, "&&", [formulas.negation(at, one), formulas.before(at, "X", one)])


def falls(formulas: Formulas, at: int, those: list):
    """In this step, and not in the next one."""
    [one] = those
    return formulas.joined(at, "&&", [one, formulas.before(at, "X", formulas.negation(at, one))])


def at_most_one(formulas: Formulas, at: int, those: list):
    """No two of them hold."""
    count = len(those)
    if count * (count - 1) // 2 > MOST_OPERATORS:
        raise Wrong(
            at,
            f"no two of {count:,} formulas: written out, this has more than {MOST_OPERATORS:,} operators and operands, "
            "the most that psyn reads",
        )
    pairs = [(one, other) for place, one in enumerate(those) for other in those[place + 1 :]]
    return formulas.joined(at, "&&", [formulas.negation(at, formulas.joined(at, "&&", pair)) for pair in pairs])


def onehot(formulas: Formulas, at: int, those: list):
    """Exactly one of them holds."""
    return formulas.joined(at, "&&", [formulas.joined(at, "||", those), at_most_one(formulas, at, those)])


# By each word its formula, and whether it has one argument alone.
CALLED = {
    "stable": (stable, False),
    "rises": (rises, True),
    "falls": (falls, True),
    "onehot": (onehot, False),
    AT_MOST_ONE: (at_most_one, False),
    "onehot0": (at_most_one, False),
}


def called(formulas: Formulas, it, values: list):
    """The formula of a call of a word. Each argument is a formula, or a bus, which stands for its signals."""
    function, has_one = CALLED[it.name]
    those = []
    for at, value in values:
        if not isinstance(value, (bool, Formula, Bus)):
            raise Wrong(at, f"`{it.name}` is of formulas and buses, and this is {described(value)}")
        those += [formulas.name(name) for name in value.signals] if isinstance(value, Bus) else [value]
    if not those or has_one and len(those) > 1:
        raise Wrong(
            it.at,
            f"`{it.name}` is of {'one formula' if has_one else 'at least one formula'}, "
            f"and this is of {len(those) or 'none'}",
        )
    formulas.spend(it.at, len(those))
    words = [piece for one in those for piece in (", ", one)][1:]
    name = it.name if it.name != AT_MOST_ONE else f"{AT_MOST_ONE} "
    return formulas.say(function(formulas, it.at, those), True, f"{name}(", *words, ")")


def has_bits(formulas: Formulas, at: int, bus: Bus, bits: Bits):
    """The formula that a bus has a value of an enumeration: bit 0 is the first one of the value."""
    if bus.enumeration not in ("", bits.enumeration):
        raise Wrong(
            at, f"`{bus.name}` has values of `{bus.enumeration}`, and `{bits.name}` is one of `{bits.enumeration}`"
        )
    if len(bus.signals) != bits.width:
        raise Wrong(
            at,
            f"the bus `{bus.name}` has {len(bus.signals)} signals, and the value `{bits.name}` has {bits.width} bits",
        )
    found = []
    for pattern in bits.patterns:
        names = [(formulas.name(name), bit) for name, bit in zip(bus.signals, pattern) if bit != "*"]
        found.append(
            formulas.joined(at, "&&", [name if bit == "1" else formulas.negation(at, name) for name, bit in names])
        )
    return formulas.joined(at, "||", found)
