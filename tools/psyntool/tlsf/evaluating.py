"""The values of expressions, where names stand for what a scope says, and else for what the text declares."""
from psyntool.tlsf import sentences
from psyntool.tlsf.formulas import Formula, Formulas
from psyntool.tlsf.syntax import (
    Between, Big, Bounded, Call, Chain, Listed, Member, Name, Number, Prefix, Range, Repeated, Truth, Within,
)  # fmt: skip
from psyntool.tlsf.tokens import Wrong
from psyntool.tlsf.values import Bits, Bus, Elements, Sets, described, is_number, key_of

# Calls, parentheses and operators within each other, over all definitions that a formula uses.
MOST_DEEP = 2_000
MOST_NUMBER, MOST_ELEMENTS = 2**63 - 1, 65_536
ARITHMETIC = {"+": int.__add__, "-": int.__sub__, "*": int.__mul__, "/": int.__floordiv__, "%": int.__mod__}
ORDERED = {"<": int.__lt__, "<=": int.__le__, ">": int.__gt__, ">=": int.__ge__}
SETS = ("(+)", "(*)", "(\\)")
UNITED = ("&&", "||")


class Evaluator:
    """Evaluates expressions. `declared` maps a name to its value, `called` calls a definition."""

    def __init__(self, declared, called, are_short: bool):
        self.formulas = Formulas(are_short)
        self.sets = Sets()
        self.declared = declared
        self.called = called
        self.deep = 0
        self.rules = {
            Number: lambda it, scope: it.value,
            Truth: lambda it, scope: it.value,
            Name: self.name,
            Member: self.member,
            Call: self.call,
            Listed: self.listed,
            Range: self.range,
            Prefix: self.prefixed,
            Bounded: self.bounded,
            Within: self.within,
            Repeated: self.repeated,
            Big: self.big,
            Chain: self.chained,
        }

    def value(self, it, scope: dict):
        """The value of an expression."""
        self.formulas.spend(it.at, 1)
        self.deep += 1
        if self.deep > MOST_DEEP:
            raise Wrong(
                it.at,
                f"calls and operators nest more than {MOST_DEEP:,} deep here: does a function call itself without end?",
            )
        made = self.rules[type(it)](it, scope)
        self.deep -= 1
        return made

    # ---- values of one kind

    def number(self, it, scope: dict) -> int:
        value = self.value(it, scope)
        if not is_number(value):
            raise Wrong(it.at, f"a number is wanted here, and this is {described(value)}")
        return value

    def formula(self, it, scope: dict):
        """The value of an expression that is a formula or a truth value."""
        return self.as_formula(it.at, self.value(it, scope))

    def as_formula(self, at: int, value):
        if isinstance(value, (bool, Formula)):
            return value
        if isinstance(value, Bus):
            raise Wrong(
                at, f"a formula is wanted here, and `{value.name}` is a bus: name one of its signals, `{value.name}[i]`"
            )
        if isinstance(value, Bits):
            raise Wrong(
                at, f"a formula is wanted here, and this is {described(value)}: compare a bus with it, by `==` or `!=`"
            )
        raise Wrong(at, f"a formula is wanted here, and this is {described(value)}")

    def elements(self, it, scope: dict) -> Elements:
        value = self.value(it, scope)
        if not isinstance(value, Elements):
            raise Wrong(it.at, f"a set is wanted here, and this is {described(value)}")
        return value

    def in_range(self, at: int, value: int) -> int:
        if abs(value) > MOST_NUMBER:
            raise Wrong(at, f"this number is greater than {MOST_NUMBER:,}")
        return value

    # ---- names

    def name(self, it, scope: dict):
        return scope[it.text] if it.text in scope else self.declared(it.at, it.text)

    def member(self, it, scope: dict):
        bus, index = self.name(Name(it.at, it.name), scope), self.number(it.index, scope)
        if not isinstance(bus, Bus):
            raise Wrong(it.at, f"`{it.name}` is {described(bus)}, and only a bus has an index")
        if not 0 <= index < len(bus.signals):
            last = len(bus.signals) - 1
            has = (
                f"has the signals {bus.name}[0] to {bus.name}[{last}]"
                if last > 0
                else f"has the signal {bus.name}[0] alone"
                if not last
                else "has no signal"
            )
            raise Wrong(it.index.at, f"the bus {has}, and this is {bus.name}[{index}]")
        return self.formulas.name(bus.signals[index])

    def call(self, it, scope: dict):
        values = [(argument.at, self.value(argument, scope)) for argument in it.arguments]
        return self.called(it, values)

    # ---- sets

    def listed(self, it, scope: dict) -> Elements:
        return self.sets.of([self.value(one, scope) for one in it.elements])

    def range(self, it, scope: dict) -> Elements:
        first, second, last = [self.number(one, scope) for one in (it.first, it.second, it.last)]
        if first == second:
            raise Wrong(
                it.second.at,
                f"the range {{{first}, {second} .. {last}}} has no step: its first two numbers are the same",
            )
        step = second - first
        count = max(0, (last - first) // step + 1)
        if count > MOST_ELEMENTS:
            raise Wrong(it.at, f"this set has {count:,} elements, and at most {MOST_ELEMENTS:,} are read")
        self.formulas.spend(it.at, count)
        return self.sets.of(first + place * step for place in range(count))

    def scopes(self, choices: tuple, scope: dict):
        """The scopes in which the variables in the brackets of an operator over sets have each choice of values."""
        if not choices:
            yield scope
            return
        choice = choices[0]
        for value in (
            self.between(choice, scope) if isinstance(choice, Between) else self.elements(choice.elements, scope).items
        ):
            yield from self.scopes(choices[1:], {**scope, choice.name: value})

    def between(self, it, scope: dict):
        low = self.number(it.low, scope) + it.is_low_left_out
        high = self.number(it.high, scope) - it.is_high_left_out
        if high - low >= MOST_ELEMENTS:
            raise Wrong(it.at, f"`{it.name}` takes {high - low + 1:,} values, and at most {MOST_ELEMENTS:,} are read")
        return range(low, high + 1)

    # ---- operators

    def prefixed(self, it, scope: dict):
        if it.sign in ("MIN", "MAX", "SIZE"):
            return self.of_set(it, self.elements(it.operand, scope).items)
        if it.sign == "SIZEOF":
            bus = self.value(it.operand, scope)
            if not isinstance(bus, Bus):
                raise Wrong(it.operand.at, f"SIZEOF is of a bus, and this is {described(bus)}")
            return len(bus.signals)
        part = self.formula(it.operand, scope)
        return self.formulas.negation(it.at, part) if it.sign == "!" else self.formulas.before(it.at, it.sign, part)

    def of_set(self, it, elements: tuple) -> int:
        if it.sign == "SIZE":
            return len(elements)
        if not elements or not all(map(is_number, elements)):
            raise Wrong(it.operand.at, f"{it.sign} is of a set of numbers that is not empty")
        return (min if it.sign == "MIN" else max)(elements)

    def bounded(self, it, scope: dict):
        if it.high is not None:
            low, high = self.number(it.low, scope), self.number(it.high, scope)
            if high < max(low, 0):
                # no step is meant, so there may be no value at one
                return it.sign == "G"
        low = self.step(it.low, scope)
        high = low if it.high is None else self.step(it.high, scope)
        part = self.formula(it.operand, scope)
        made = self.formulas.between(it.at, "&&" if it.sign == "G" else "||", low, high, part)
        steps = str(low) if it.high is None else f"{low}:{high}"
        return self.formulas.say(made, True, f"{it.sign}[{steps}] ", *self.formulas.closed(part))

    def step(self, it, scope: dict) -> int:
        """A number of steps, which is not negative."""
        number = self.number(it, scope)
        if number < 0:
            raise Wrong(it.at, f"this is a number of steps, and {number} is negative")
        return number

    def within(self, it, scope: dict):
        count, part = self.step(it.count, scope), self.formula(it.operand, scope)
        words, ends = [f"within {count} ", *self.formulas.closed(part)], part
        if it.end is not None:
            end = self.formula(it.end, scope)
            words += [" unless ", *self.formulas.closed(end)]
            ends = self.formulas.joined(it.at, "||", (part, end))
        return self.formulas.say(self.formulas.between(it.at, "||", 0, count, ends), it.end is None, *words)

    def repeated(self, it, scope: dict):
        count, part = self.step(it.count, scope), self.formula(it.operand, scope)
        if not count:
            raise Wrong(it.count.at, "`[*n]` is of at least one step")
        made = self.formulas.between(it.at, "&&", 0, count - 1, part)
        words = self.formulas.closed(part) if not isinstance(part, Formula) or not part.sign else ("(", part, ")")
        return self.formulas.say(made, False, *words, f"[*{count}]")

    def big(self, it, scope: dict):
        scopes = self.scopes(it.choices, scope)
        if it.sign in ("&&", "||"):
            return self.formulas.joined(it.at, it.sign, [self.formula(it.body, one) for one in scopes])
        if it.sign in SETS:
            sets = [self.elements(it.body, one) for one in scopes]
            if not sets and it.sign == "(*)":
                raise Wrong(it.at, "an intersection over no set has no value")
            return self.folded(it.at, it.sign, sets or [self.sets.of(())])
        made = 0 if it.sign == "+" else 1
        for one in scopes:
            made = self.in_range(it.at, ARITHMETIC[it.sign](made, self.number(it.body, one)))
        return made

    def folded(self, at: int, sign: str, sets: list) -> Elements:
        made = sets[0]
        for one in sets[1:]:
            made = self.of_sets(at, sign, made, one)
        return made

    def of_sets(self, at: int, sign: str, left: Elements, right: Elements) -> Elements:
        """The union, intersection or difference of two sets."""
        self.formulas.spend(at, len(left.items) + len(right.items))
        if sign == "(+)":
            made = self.sets.of((*left.items, *right.items))
            if len(made.items) > MOST_ELEMENTS:
                raise Wrong(at, f"this set has more than {MOST_ELEMENTS:,} elements, and no more are read")
            return made
        keys = {key_of(one) for one in right.items}
        return self.sets.of(one for one in left.items if (key_of(one) in keys) == (sign == "(*)"))

    def chained(self, it, scope: dict):
        """The value of operators of one precedence with their operands."""
        if it.signs[0] in UNITED:
            return self.formulas.joined(it.at, it.signs[0], self.parts(it.signs[0], it.operands, scope))
        if it.is_right:
            return self.grouped_to_the_right(it, scope)
        (at, made), *others = [(one.at, self.value(one, scope)) for one in it.operands]
        for sign, place, right in zip(it.signs, it.places, others):
            made = self.combined(sign, place, (at, made), right)
        return made

    def parts(self, sign: str, operands, scope: dict) -> list:
        """The operands of `&&` or `||`, up to the first that decides: `i > 0 && r[i - 1]` has no value of `r[-1]`."""
        found = []
        for one in operands:
            found.append(self.formula(one, scope))
            if found[-1] is (sign == "||"):
                break
        return found

    def grouped_to_the_right(self, it, scope: dict):
        """The value of operators that group to the right. Behind `false ->` nothing is evaluated."""
        values = []
        for one, sign in zip(it.operands, (*it.signs, "")):
            values.append((one.at, self.value(one, scope)))
            if values[-1][1] is False and sign == "->":
                values[-1] = (one.at, True)
                break
        at, made = values.pop()
        while values:
            left = values.pop()
            made = self.combined(it.signs[len(values)], it.places[len(values)], left, (at, made))
            at = left[0]
        return made

    def combined(self, sign: str, at: int, left: tuple, right: tuple):
        """The value of an operator for two operands, each given by its offset and its value."""
        self.formulas.spend(at, 1)
        if sign in ARITHMETIC or sign in ORDERED:
            return self.of_numbers(sign, at, *(self.wanted(at, sign, one, "a number") for one in (left, right)))
        if sign in SETS:
            return self.of_sets(at, sign, *(self.wanted(at, sign, one, "a set") for one in (left, right)))
        if sign == "IN":
            elements = self.wanted(at, sign, right, "a set").items
            self.formulas.spend(at, len(elements))
            return key_of(left[1]) in {key_of(one) for one in elements}
        if sign in ("==", "!="):
            equal = self.equal(sign, at, left[1], right[1])
            return equal if sign == "==" else self.formulas.negation(at, equal)
        parts = [self.as_formula(*one) for one in (left, right)]
        if sign == "->":
            return self.formulas.implication(at, *parts)
        if sign in ("<->", "xor"):
            same = self.formulas.equivalence(at, *parts)
            return same if sign == "<->" else self.formulas.negation(at, same)
        if sign == "M":
            return self.formulas.of(at, "U", (parts[1], self.formulas.joined(at, "&&", parts)))
        return self.formulas.of(at, sign, tuple(parts))

    def wanted(self, at: int, sign: str, operand: tuple, kind: str):
        """An operand's value, which must be a number or a set."""
        value = operand[1]
        is_right = isinstance(value, Elements) if kind == "a set" else is_number(value)
        if not is_right:
            raise Wrong(operand[0], f"`{sign}` wants {kind} here, and this is {described(value)}")
        return value

    def of_numbers(self, sign: str, at: int, left: int, right: int):
        if sign in ORDERED:
            return ORDERED[sign](left, right)
        if sign in ("/", "%") and not right:
            raise Wrong(at, "this divides by zero")
        return self.in_range(at, ARITHMETIC[sign](left, right))

    def equal(self, sign: str, at: int, left, right):
        """Whether two numbers are equal, or the formula that a bus has a value of an enumeration."""
        if isinstance(left, Bits) and isinstance(right, Bus):
            left, right = right, left
        if isinstance(left, Bus) and isinstance(right, Bits):
            return sentences.has_bits(self.formulas, at, left, right)
        for one in (left, right):
            if not is_number(one):
                raise Wrong(
                    at,
                    f"`{sign}` compares numbers, or a bus with a value of its enumeration, "
                    f"and not {described(one)}{': use `<->`' * isinstance(one, Formula)}",
                )
        return left == right
