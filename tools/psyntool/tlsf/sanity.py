"""Whether a specification says what was meant: assumptions that fail by themselves or by the controller's doing,
guarantees that contradict each other or follow from the others, and names that look like slips."""
from dataclasses import replace

from psyntool import progress
from psyntool.command import TLSF
from psyntool.cores import answer_to, shrunk
from psyntool.ends import Unwritten
from psyntool.parts.slips import is_slip
from psyntool.plays.play import Play
from psyntool.texts import circuit, report
from psyntool.tlsf.expanding import Basic, Sentence, deep_calls
from psyntool.tlsf.formulas import Formulas
from psyntool.tlsf.keeping import AT_EACH_STEP, titled
from psyntool.tlsf.obligations import TooLong
from psyntool.tlsf.plays import Sentences
from psyntool.tlsf.sides import sides_of
from psyntool.tlsf.tokens import ENCODING, Wrong

# A longer play is not shown.
MOST_STEPS = 30


class Sanity:
    """What is found out about a specification, by questions to the program."""

    def __init__(self, basic: Basic):
        self.basic = basic
        self.sides = sides_of(basic)
        self.formulas = Formulas()
        self.unknown = []

    # ---- questions

    def demand(self, sentences):
        """The formula that some sentences demand."""
        return self.formulas.joined(
            0,
            "&&",
            [
                self.formulas.before(0, "G", one.formula) if one.word in AT_EACH_STEP else one.formula
                for one in sentences
            ],
        )

    def has_controller(self, basic: Basic, formula):
        """The program's answer to the specification that guarantees a formula; None if it does not decide."""
        made = basic.having([Sentence("GUARANTEE", formula, 0)])
        try:
            return answer_to(made.text().encode(ENCODING), [TLSF.name], 1, "sentences")
        except Unwritten:
            return None

    def is_possible(self, formula, what: str) -> bool:
        """Whether some lasso satisfies a formula: whether a controller of all signals does. If the program does not
        decide that, it is noted, and taken to be possible."""
        if isinstance(formula, bool):
            return formula
        free = replace(self.basic, inputs=(), outputs=(*self.basic.inputs, *self.basic.outputs))
        answer = self.has_controller(free, formula)
        self.unknown += [what] if answer is None else []
        return answer is None or answer.status == 10

    # ---- findings

    def lines(self) -> list:
        try:
            with deep_calls():
                found = self.of_impossible() or [*self.of_breakable(), *self.of_guarantees()]
                return [*found, *self.of_names(), *(f"not found out: {what}" for what in dict.fromkeys(self.unknown))]
        except Wrong as error:
            return [f"not found out: {error}"]

    def of_impossible(self) -> list:
        """Assumptions that nothing keeps together."""
        those = self.sides.assumptions
        if self.is_possible(self.demand(those), "whether the assumptions can be kept"):
            return []
        few = shrunk(
            those, lambda some: not self.is_possible(self.demand(some), "whether fewer assumptions can be kept")
        )
        return [f"nothing keeps {of_those(few, 'assumption')}, so each circuit wins:", *said(few)]

    def of_breakable(self) -> list:
        """Assumptions that a controller can break, with a play."""
        those = self.sides.assumptions
        if not those or not self.is_breakable(those):
            return []
        few = shrunk(those, self.is_breakable)
        head = (
            f"a controller can break {of_those(few, 'assumption')}, so the one that psyn finds may do that and no more:"
        )
        return [head, *said(few), *self.play(few)]

    def breaking(self, those):
        """The program's answer to whether a controller can make some assumptions fail."""
        demand = self.demand(those)
        answer = (
            None if isinstance(demand, bool) else self.has_controller(self.basic, self.formulas.negation(0, demand))
        )
        if answer is None:
            self.unknown.append(f"whether a controller can break {of_those(those, 'assumption')}")
        return answer

    def is_breakable(self, those) -> bool:
        answer = self.breaking(those) if those else None
        return answer is not None and answer.status == 10

    def play(self, those) -> list:
        """A play in which an environment keeps the assumptions as long as it can, and a controller breaks them."""
        made = circuit.read(report.read(self.breaking(those).text).parts[0])
        try:
            play = Play(Sentences(self.basic, made, those))
            play.hold_out(MOST_STEPS)
        except TooLong:
            return []
        ends = [f"step {len(play.steps) - 1} breaks the {titled(one)}" for one in play.board.broken_at(play.steps[-1])]
        if play.loop is not None:
            ends = [f"{play.looping}, which does not keep {of_those(those, 'assumption')}"]
        return ["so it can play:", *(f"  {line}" for line in [*play.board.table(play), *ends])]

    def of_guarantees(self) -> list:
        return self.of_contradicting() or self.of_following()

    def of_contradicting(self) -> list:
        """Guarantees that nothing keeps together, or that nothing keeps while the assumptions are kept."""
        those, what = self.sides.guarantees, "whether the guarantees can be kept"
        if self.is_possible(self.demand([*self.sides.assumptions, *those]), f"{what} beside the assumptions"):
            return []
        kept = self.sides.assumptions if self.is_possible(self.demand(those), what) else ()
        few = shrunk(those, lambda some: not self.is_possible(self.demand([*kept, *some]), f"{what} by fewer"))
        return [f"{contradiction(few, bool(kept))}:", *said(few)]

    def of_following(self) -> list:
        """Guarantees that follow from the others and from the assumptions."""
        found, those = [], self.sides.guarantees
        for one in progress.counted("guarantees", those if len(those) > 1 or self.sides.assumptions else ()):
            others = [other for other in those if other is not one]
            left = self.formulas.joined(
                0,
                "&&",
                [self.demand([*self.sides.assumptions, *others]), self.formulas.negation(0, self.demand([one]))],
            )
            if not self.is_possible(left, f"whether the {titled(one)} follows from the others"):
                found += [f"the {titled(one)} follows from the others:", f"  {one.said}"]
        return found

    def of_names(self) -> list:
        """Names that no sentence has, and those of one sentence that are nearly names of others."""
        having = {
            name: [one for one in self.basic.sentences if name in one.names]
            for name in (*self.basic.inputs, *self.basic.outputs)
        }
        found, pairs = [f"no sentence mentions {name}" for name, those in having.items() if not those], set()
        for name, those in having.items():
            near = next((other for other in having if is_slip(name, other) and len(having[other]) >= len(those)), None)
            if len(those) == 1 and near is not None and (near, name) not in pairs:
                pairs.add((name, near))
                found.append(f"only the {titled(those[0])} mentions {name} ({near}?)")
        return found


def of_those(sentences, what: str) -> str:
    """How sentences are called together."""
    if len(sentences) == 1:
        return f"the {titled(sentences[0])}"
    return f"these {len(sentences)} {what}s together"


def contradiction(guarantees, is_of_assumptions: bool) -> str:
    """What guarantees contradict: each other, or the assumptions."""
    if len(guarantees) == 1:
        return f"the {titled(guarantees[0])} contradicts {'the assumptions' if is_of_assumptions else 'itself'}"
    beside = " where the assumptions are kept" if is_of_assumptions else ""
    return f"these {len(guarantees)} guarantees contradict each other{beside}"


def said(sentences) -> list:
    return [f"  {one.said}" for one in sentences]
