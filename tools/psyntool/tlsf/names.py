"""Checks the names of a specification before anything is evaluated: a name that is not declared is told even where it
is not needed for the given parameters."""
from psyntool.tlsf import elsewhere
from psyntool.tlsf.sentences import CALLED
from psyntool.tlsf.syntax import Big, Call, Chain, Match, Member, Name, Prefix, Specification, Truth
from psyntool.tlsf.tokens import Wrong
from psyntool.words import nearest

WILD = "_"
# Operators that a pattern may have.
OF_PATTERNS = {"!", "X", "F", "G", "&&", "||", "->", "<->", "U", "R", "W"}
# Names that are compared with one that is not declared, and their length.
MOST_COMPARED, LONGEST_COMPARED = 1_000, 64
# Expressions within each other; and operands of one chain of operators in a pattern.
MOST_DEEP, MOST_OPERANDS = 1_000, 256


class Names:
    """The declared names: functions with their arguments, enumerations, and names that stand for values."""

    def __init__(self, read: Specification):
        self.functions = {made.name: made.arguments for made in read.definitions if made.arguments is not None}
        self.enumerations = {made.name for made in read.enumerations}
        self.values = {
            made.name
            for made in (*read.parameters, *read.definitions, *read.inputs, *read.outputs)
            if made.name not in self.functions
        }
        self.values |= {value.name for made in read.enumerations for value in made.values}
        self.deep = 0

    def check_all(self, read: Specification):
        """Checks the names in all expressions of a specification."""
        for made in (*read.parameters, *read.definitions):
            for clause in made.clauses:
                self.check_clause(clause, frozenset(made.arguments or ()))
        for made in (*read.inputs, *read.outputs):
            if made.width is not None:
                self.check(made.width, frozenset())
        for section in read.sections:
            for _, _, formula in section.formulas:
                self.check(formula, frozenset())

    def check_clause(self, clause, scope: frozenset):
        if isinstance(clause.guard, Match):
            self.check(clause.guard.subject, scope)
            found = set()
            self.check_pattern(clause.guard.pattern, scope, found)
            scope |= found
        elif clause.guard is not None:
            self.check(clause.guard, scope)
        self.check(clause.value, scope)

    def check(self, it, scope: frozenset):
        """Checks the names in an expression; `scope` has those that are arguments and variables there."""
        self.enter(it)
        if isinstance(it, (Name, Member)):
            self.check_value(it.at, it.text if isinstance(it, Name) else it.name, scope)
        elif isinstance(it, Call):
            self.check_call(it)
        elif isinstance(it, Big):
            for choice in it.choices:
                for one in parts_of(choice):
                    self.check(one, scope)
                scope |= {choice.name}
        for one in [it.body] if isinstance(it, Big) else parts_of(it):
            self.check(one, scope)
        self.deep -= 1

    def enter(self, it):
        """Counts one more expression around those that are checked next."""
        self.deep += 1
        if self.deep > MOST_DEEP:
            raise Wrong(it.at, f"expressions nest more than {MOST_DEEP:,} deep here")

    def check_value(self, at: int, name: str, scope: frozenset):
        """Checks a name that is used without parentheses."""
        if name in scope or name in self.values:
            return
        if name == WILD:
            raise Wrong(at, "`_` stands in patterns alone")
        if name in self.functions:
            raise Wrong(at, f"`{name}` is a function: it wants its arguments in parentheses")
        if name in self.enumerations:
            raise Wrong(at, f"`{name}` is an enumeration, and an expression names one of its values")
        raise Wrong(at, f"there is no `{name}`{hint(name, sorted(scope | self.values))}")

    def check_call(self, it: Call):
        if it.name in self.functions:
            count = len(self.functions[it.name])
            if len(it.arguments) != count:
                raise Wrong(
                    it.at, f"`{it.name}` has {count} argument{'s' * (count != 1)}, and gets {len(it.arguments)} here"
                )
        elif it.name in self.values or it.name in self.enumerations:
            raise Wrong(it.at, f"`{it.name}` is no function")
        elif it.name not in CALLED:
            raise Wrong(
                it.at,
                "there is no function "
                f"`{it.name}`{hint(it.name, [*self.functions, *CALLED]) or elsewhere.hint(it.name)}",
            )

    def check_pattern(self, it, scope: frozenset, found: set):
        """Checks a pattern, and adds its names to `found`."""
        self.enter(it)
        if isinstance(it, Name):
            if (
                it.text in scope
                or it.text in found
                or it.text in self.values
                or it.text in self.functions
                or it.text in self.enumerations
            ):
                raise Wrong(
                    it.at, f"a name in a pattern is a new one, and `{it.text}` is there before; `_` fits everything"
                )
            found |= {it.text} - {WILD}
        elif (
            isinstance(it, Prefix)
            and it.sign in OF_PATTERNS
            or isinstance(it, Chain)
            and OF_PATTERNS.issuperset(it.signs)
        ):
            if isinstance(it, Chain) and len(it.operands) > MOST_OPERANDS:
                raise Wrong(it.at, f"a pattern has at most {MOST_OPERANDS} operands side by side")
            for one in parts_of(it):
                self.check_pattern(one, scope, found)
        elif not isinstance(it, Truth):
            raise Wrong(
                it.at,
                "a pattern consists of names, `_`, `true`, `false` and operators of formulas, "
                "and this is something else",
            )
        self.deep -= 1


def parts_of(it):
    """The expressions that an expression consists of."""
    for value in vars(it).values():
        yield from (one for one in (value if isinstance(value, tuple) else (value,)) if hasattr(one, "at"))


def hint(name: str, known) -> str:
    """A hint at the declared name that is most similar to one that is not declared."""
    compared = [one for one in known if len(one) <= LONGEST_COMPARED][:MOST_COMPARED]
    return nearest(name, compared) if len(name) <= LONGEST_COMPARED else ""
