"""What a specification declares: parameters, constants and functions, enumerations, and signals."""
from psyntool.tlsf import sentences
from psyntool.tlsf.evaluating import Evaluator
from psyntool.tlsf.formulas import Formula
from psyntool.tlsf.names import WILD, Names, hint
from psyntool.tlsf.syntax import Call, Chain, Definition, Enumeration, Match, Name, Prefix, Signal, Specification, Truth
from psyntool.tlsf.tokens import Wrong
from psyntool.tlsf.values import Bits, Bus, described

MOST_NAMES = 64
# Of an enumeration of at most so many bits it is found out whether each row of bits has a value.
MOST_BITS = 6


class Definitions:
    """The declarations of a specification. `settings` has the values of parameters that a user sets; `are_short` says
    which formulas are made."""

    def __init__(self, read: Specification, settings: dict, are_short: bool):
        self.evaluator = Evaluator(self.declared, self.called, are_short)
        self.places = {}
        self.written = {}
        # values that are known, and definitions; and those that are being evaluated, with what they need
        self.values = {}
        self.definitions = {}
        self.open = set()
        self.parameters = {made.name for made in read.parameters}
        for made in (*read.parameters, *read.definitions):
            self.declare(made.at, made.name)
            self.definitions[made.name] = made
        for name, number in settings.items():
            self.values[name] = number
        self.enumerations = {}
        for made in read.enumerations:
            self.add_enumeration(made)
        for made in (*read.inputs, *read.outputs):
            self.declare(made.at, made.name)
        Names(read).check_all(read)
        self.inputs = [self.signal(made) for made in read.inputs]
        self.outputs = [self.signal(made) for made in read.outputs]

    # ---- declarations

    def declare(self, at: int, name: str):
        if name in self.places:
            raise Wrong(at, f"`{name}` is declared before")
        self.places[name] = at

    def add_enumeration(self, made: Enumeration):
        """Adds the values of an enumeration, of which no two may have the same bits."""
        self.declare(made.at, made.name)
        width, seen = len(made.values[0].patterns[0][1]), []
        for value in made.values:
            self.declare(value.at, value.name)
            for at, pattern in value.patterns:
                if len(pattern) > MOST_NAMES:
                    raise Wrong(
                        at,
                        f"this value has {len(pattern):,} bits, "
                        f"and psyn reads at most {MOST_NAMES} inputs and outputs together",
                    )
                if len(pattern) != width:
                    raise Wrong(at, f"this value has {len(pattern)} bits, and those before it have {width}")
                other = next(
                    (name for name, before in seen if name != value.name and have_common(before, pattern)), None
                )
                if other:
                    raise Wrong(at, f"`{other}` and `{value.name}` have bits in common")
                seen.append((value.name, pattern))
            self.values[value.name] = Bits(value.name, tuple(pattern for _, pattern in value.patterns), made.name)
        self.enumerations[made.name] = [self.values[value.name] for value in made.values]

    def signal(self, made: Signal):
        """Declares a signal or a bus with the names of its signals in the basic form, and returns its value."""
        enumeration, width = "", None
        if made.enumeration:
            enumeration = made.enumeration.text
            if enumeration not in self.enumerations:
                raise Wrong(
                    made.enumeration.at,
                    f"there is no enumeration `{enumeration}`{hint(enumeration, self.enumerations)}",
                )
            width = self.enumerations[enumeration][0].width
        elif made.width is not None:
            width = self.evaluator.number(made.width, {})
            if width < 0:
                raise Wrong(made.width.at, f"a bus has no negative number of signals, and this is {width}")
        if width is None:
            self.write(made.at, made.name, made.name)
            value = self.evaluator.formulas.name(made.name)
        else:
            if width > MOST_NAMES:
                raise Wrong(
                    made.at,
                    f"the bus `{made.name}` has {width:,} signals, "
                    f"and psyn reads at most {MOST_NAMES} inputs and outputs together",
                )
            names = tuple(f"{made.name}_{index}" for index in range(width))
            for index, name in enumerate(names):
                self.write(made.at, name, f"{made.name}[{index}]")
            value = Bus(made.name, names, enumeration)
        self.values[made.name] = value
        return value

    def write(self, at: int, name: str, said: str):
        """Takes a name of the basic form, which no other signal has."""
        if name in self.written:
            raise Wrong(
                at,
                f"`{self.written[name]}` and `{said}` are both written as `{name}` in the basic form: "
                "give one of them another name",
            )
        if len(self.written) == MOST_NAMES:
            raise Wrong(
                at,
                f"there are more than {MOST_NAMES} inputs and outputs, the most that psyn reads, "
                f"and `{said}` is one more",
            )
        self.written[name] = said

    def in_enumeration(self, at: int, bus: Bus):
        """The formula that a bus has some value of its enumeration, which is `true` if it always has."""
        formulas, width = self.evaluator.formulas, len(bus.signals)
        patterns = [pattern for bits in self.enumerations[bus.enumeration] for pattern in bits.patterns]
        if (
            width <= MOST_BITS
            and all(any(have_common(f"{row:0{width}b}", pattern) for pattern in patterns) for row in range(1 << width))
        ):
            return True
        return formulas.joined(
            at, "||", [sentences.has_bits(formulas, at, bus, bits) for bits in self.enumerations[bus.enumeration]]
        )

    # ---- names and calls in expressions

    def declared(self, at: int, name: str):
        """The value of a declared name."""
        if name in self.values:
            return self.values[name]
        if name not in self.definitions:
            raise Wrong(at, f"`{name}` is a signal, which has no value in a declaration of signals")
        if name in self.open:
            raise Wrong(at, f"`{name}` is defined by itself")
        self.open.add(name)
        made = self.definitions[name]
        self.values[name] = (
            self.evaluator.number(made.clauses[0].value, {})
            if name in self.parameters
            else self.by_clauses(at, made, {})
        )
        self.open.remove(name)
        return self.values[name]

    def called(self, it: Call, values: list):
        """The value of a call, whose arguments are given by their offsets and values."""
        if it.name not in self.definitions:
            return sentences.called(self.evaluator.formulas, it, values)
        made = self.definitions[it.name]
        return self.by_clauses(it.at, made, {name: value for name, (_, value) in zip(made.arguments, values)})

    def by_clauses(self, at: int, made: Definition, scope: dict):
        """The value of the first case of a definition whose guard holds."""
        for clause in made.clauses:
            if clause.guard is None:
                return self.evaluator.value(clause.value, scope)
            if isinstance(clause.guard, Match):
                found = self.matched(clause.guard, scope)
                if found is not None:
                    return self.evaluator.value(clause.value, {**scope, **found})
            elif self.holds(clause.guard, scope):
                return self.evaluator.value(clause.value, scope)
        raise Wrong(at, f"no case of `{made.name}` holds here, and it has no `otherwise`")

    def holds(self, guard, scope: dict) -> bool:
        value = self.evaluator.value(guard, scope)
        if not isinstance(value, bool):
            raise Wrong(
                guard.at, f"a guard is decided when the specification is written out, and this is {described(value)}"
            )
        return value

    # ---- patterns

    def matched(self, it: Match, scope: dict):
        """The parts of a formula that the names of a pattern stand for, or None if the formula has another form."""
        subject, found = self.evaluator.formula(it.subject, scope), {}
        return found if self.fits(subject, it.pattern, found) else None

    def fits(self, formula, pattern, found: dict) -> bool:
        """Whether a formula has the form of a pattern. What the pattern's names stand for is put into `found`."""
        self.evaluator.formulas.spend(pattern.at, 1)
        if isinstance(pattern, Name):
            found.update({pattern.text: formula} if pattern.text != WILD else {})
            return True
        if isinstance(pattern, Truth):
            return (
                formula is pattern.value
                or isinstance(formula, Formula)
                and not formula.sign
                and formula.operands == ("true" if pattern.value else "false",)
            )
        sign, operands = outermost(pattern)
        if not isinstance(formula, Formula) or formula.sign != sign:
            return False
        parts = formula.operands
        if len(parts) > 2:
            parts = (self.evaluator.formulas.joined(pattern.at, sign, parts[:-1]), parts[-1])
        return all(self.fits(part, one, found) for part, one in zip(parts, operands))


def outermost(pattern) -> tuple:
    """The outermost operator of a pattern and its operands."""
    if isinstance(pattern, Prefix):
        return pattern.sign, (pattern.operand,)
    if len(pattern.operands) == 2:
        return pattern.signs[0], pattern.operands
    return (pattern.signs[0] if pattern.is_right else pattern.signs[-1]), grouped(pattern)


def grouped(pattern: Chain) -> tuple:
    """The two operands of the outermost operator of a chain."""
    if pattern.is_right:
        return (
            pattern.operands[0],
            Chain(pattern.operands[1].at, pattern.signs[1:], pattern.places[1:], pattern.operands[1:], True),
        )
    return (
        Chain(pattern.at, pattern.signs[:-1], pattern.places[:-1], pattern.operands[:-1], False), pattern.operands[-1]
    )


def have_common(left: str, right: str) -> bool:
    """Whether some bits are of both patterns."""
    return all(one == other or "*" in (one, other) for one, other in zip(left, right))
