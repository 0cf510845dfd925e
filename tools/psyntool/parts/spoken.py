"""Sentences in temporal logic as parts of a specification.

A sentence becomes a part if no `R` stands below `U` in it, once only names are negated (`G`, `W` count as `R`, and `F`
as `U`). A state is what is left of the sentence, and what is left of the obligations that were there when all earlier
ones had last been met; the edge on which these are met is accepting.
"""
from psyntool.ends import Refused
from psyntool.parts import part
from psyntool.parts.diagrams import Diagrams
from psyntool.tlsf import expanding, spoken
from psyntool.tlsf.formulas import Formulas
from psyntool.tlsf.keeping import ASSUMED, AT_EACH_STEP, GUARANTEED
from psyntool.tlsf.obligations import Obligation, Obligations, Remains, TooLong, limited
from psyntool.tlsf.tokens import Wrong

# A part has at most so many propositions and states.
MOST_NAMES, MOST_STATES = 10, 400
# The end of a message on sentences that are no parts.
AS_A_WHOLE = ": give the specification to `synth` as a whole"
SIDES = {**dict.fromkeys(ASSUMED, True), **dict.fromkeys(GUARANTEED, False)}


class Automaton:
    """The automaton of an obligation, whose states are found as they are reached."""

    def __init__(self, one: Obligation, obligations: Obligations, names: list):
        self.names = names
        self.remains = Remains(obligations)
        self.is_safe = not has_until(one, {})
        self.first = self.remains.of(one)
        self.numbers = {}
        self.waiting = []
        self.number_of((self.first, self.remains.always if self.is_safe else self.open(self.first)))

    def open(self, left: int) -> int:
        """What is left if each obligation that begins with `R` is met, so that only those of `U` and `X` remain."""
        return self.remains.diagrams.fixed(
            left, {number: True for number, one in self.remains.parts.items() if one.sign == "R"}, {}
        )

    def number_of(self, state: tuple) -> int:
        if state not in self.numbers:
            if len(self.numbers) == MOST_STATES:
                raise Refused(f"as a part it has more than {MOST_STATES} states")
            self.numbers[state] = len(self.numbers)
            self.waiting.append(state)
        return self.numbers[state]

    def move(self, state: tuple, letter: frozenset):
        """The number of the next state and whether the edge is accepting, or None if the letter breaks the sentence."""
        left = self.remains.after(state[0], letter)
        if left == self.remains.never:
            return None
        if self.is_safe:
            return self.number_of((left, self.remains.always)), True
        due = self.open(self.remains.after(state[1], letter))
        is_met = due == self.remains.always
        return self.number_of((left, self.open(left) if is_met else due)), is_met

    def text(self) -> str:
        """The automaton's text."""
        diagrams = Diagrams()
        words = [
            "HOA: v1",
            "Start: 0",
            f"AP: {len(self.names)}",
            *map(part.quoted, self.names),
            "Acceptance: " + ("0 t" if self.is_safe else "1 Inf(0)"),
            "--BODY--",
        ]
        while self.waiting:
            state = self.waiting.pop(0)
            moves = self.of_letters(diagrams, state, 0, ())
            words += [f"State: {self.numbers[state]}", part.quoted(self.title(state))]
            for move, label in diagrams.labels(moves).items():
                words += [f"[{label}] {move[0]}" + (" {0}" if move[1] and not self.is_safe else "")] if move else []
        return " ".join([*words, "--END--"])

    def of_letters(self, diagrams: Diagrams, state: tuple, place: int, true: tuple) -> int:
        """The moves of a state, as a diagram over the names from one on, where the truth of those before it is
        given."""
        if place == len(self.names):
            return diagrams.leaf(self.move(state, frozenset(true)))
        sides = [self.of_letters(diagrams, state, place + 1, those) for those in (true, (*true, self.names[place]))]
        return diagrams.node(place, *sides)

    def title(self, state: tuple) -> str:
        owed = self.remains.owed(state[0], self.first)
        return f"owed: {', '.join(owed)}" if owed else part.NOTHING_OWED


def has_until(one: Obligation, known: dict) -> bool:
    if one not in known:
        known[one] = one.sign == "U" or any(has_until(it, known) for it in one.operands if isinstance(it, Obligation))
    return known[one]


def has_release_below(one: Obligation, is_below: bool, known: dict) -> bool:
    """Whether `R` stands below `U` in an obligation, or anywhere if the obligation stands there itself."""
    if (one, is_below) not in known:
        is_wrong = one.sign == "R" and is_below
        known[one, is_below] = (
            is_wrong
            or any(
                has_release_below(it, is_below or one.sign == "U", known)
                for it in one.operands
                if isinstance(it, Obligation)
            )
        )
    return known[one, is_below]


def part_of(title: str, sentence: str, formula, names: list):
    """The part of a formula with these names."""
    obligations = Obligations()
    try:
        with limited():
            one = obligations.of(formula)
            if has_release_below(one, False, {}):
                raise Refused(
                    f"as a part it would have to say what holds for ever at last, and a part can't{AS_A_WHOLE}"
                )
            if len(names) > MOST_NAMES:
                raise Refused(f"it mentions {len(names)} propositions, and as a part at most {MOST_NAMES}")
            return part.part_of(title, sentence, {}, Automaton(one, obligations, names).text())
    except TooLong:
        raise Refused("as a part it is too large") from None


def read(text: str) -> tuple:
    """The formula of a sentence as a list or a command line has it, and its names."""
    try:
        made, whole = spoken.read([("GUARANTEE", text)], None, [], False, False)
        basic = expanding.of_specification(made, whole, {})
    except Wrong as error:
        raise Refused(f"column {error.offset + 1}: {error}") from None
    formulas = Formulas()
    return formulas.joined(0, "&&", [one.formula for one in basic.sentences]), list(basic.inputs)


def parts_of(basic: expanding.Basic) -> list:
    """The parts of a specification's sentences, each with whether it is assumed."""
    if basic.is_strict:
        raise Refused(f"semantics are strict, and those of parts are not{AS_A_WHOLE}")
    if basic.of("PRESET") and any(SIDES[one.word] and one.word != "INITIALLY" for one in basic.sentences):
        raise Refused(f"PRESET binds even where an assumption fails, and a part does not{AS_A_WHOLE}")
    found, formulas = {}, Formulas()
    for one in basic.sentences:
        title, formula = told(one, formulas)
        try:
            made = part_of(title, "", formula, list(one.names))
        except Refused as error:
            raise Refused(f"line {one.row}: {error}" if one.row else str(error)) from None
        # a sentence that stands twice is one part
        found.setdefault((SIDES[one.word], title), made)
    return [(is_assumed, made) for (is_assumed, _), made in found.items()]


def told(one, formulas: Formulas) -> tuple:
    """A sentence of a specification, as it is said at the first step, and its formula."""
    if one.word in AT_EACH_STEP:
        return f"G ({one.said})", formulas.before(0, "G", one.formula)
    return one.said, one.formula


def parts_among(basic: expanding.Basic) -> tuple:
    """The parts among a specification's sentences, and the titles of the other sentences; each with whether it is
    assumed."""
    found, others, formulas = {}, [], Formulas()
    for one in basic.sentences:
        title, formula = told(one, formulas)
        try:
            found.setdefault((SIDES[one.word], title), part_of(title, "", formula, list(one.names)))
        except Refused:
            others.append((SIDES[one.word], title))
    return [(is_assumed, made) for (is_assumed, _), made in found.items()], others
