"""Sentences of a specification as assertions of SystemVerilog, and its assumptions as what is assumed.

A sentence about a bounded number of steps is an assertion at the last of them, of what was true so many steps before
(`$past`); yosys reads these too. What has no bound wants concurrent assertions, which stand apart. Another sentence is
a comment that says why.
"""
from __future__ import annotations

from dataclasses import dataclass

from psyntool.tlsf.formulas import Formula
from psyntool.tlsf.keeping import ASSUMED, AT_EACH_STEP, titled

# The most steps that a sentence may look ahead.
MOST = 64
OPERATORS = {"&&": "&&", "||": "||", "<->": "=="}
COUNT = "step"


@dataclass(frozen=True)
class Form:
    """What a sentence demands: of each step or of the first one, that `one` holds, or is answered by `other` in some
    later step, or holds again and again; and how many steps it looks ahead."""

    is_at_each: bool
    one: object
    other: object = None
    is_again: bool = False
    depth: int = 0

    @property
    def is_bounded(self):
        return self.other is None and not self.is_again


class NoForm(Exception):
    """A sentence has no assertion; the message says why."""


def form_of(sentence) -> Form:
    """The form of a sentence."""
    formula, is_at_each = sentence.formula, sentence.word in AT_EACH_STEP
    while isinstance(formula, Formula) and formula.sign == "G":
        formula, is_at_each = formula.operands[0], True
    if is_at_each and isinstance(formula, Formula):
        if formula.sign == "F":
            return Form(True, formula.operands[0], None, True, depth_of(formula.operands[0]))
        if formula.sign == "->" and getattr(formula.operands[1], "sign", "") == "F":
            asked, answer = formula.operands[0], formula.operands[1].operands[0]
            if depth_of(asked) or depth_of(answer):
                raise NoForm("its two sides of `-> F` look ahead")
            return Form(True, asked, answer)
    return Form(is_at_each, formula, depth=depth_of(formula))


def depth_of(formula) -> int:
    """How many steps a formula looks ahead. Chains of operators are gone through without recursion."""
    deepest, waiting, seen = 0, [(formula, 0)], set()
    while waiting:
        part, depth = waiting.pop()
        if (part, depth) in seen or isinstance(part, bool) or not part.sign:
            deepest = max(deepest, depth)
            continue
        seen.add((part, depth))
        if part.sign not in ("!", "X", "->", *OPERATORS):
            raise NoForm(f"`{part.sign}` stands where no assertion has it")
        if depth + (part.sign == "X") > MOST:
            raise NoForm(f"it looks ahead more than {MOST} steps")
        waiting += [(one, depth + (part.sign == "X")) for one in part.operands]
    return deepest


def block(basic, name_of, clock, reset, new) -> list:
    """The lines of a module with the assertions, for functions that give the identifier of a signal, and a new name."""
    forms = []
    for sentence in basic.sentences:
        try:
            forms.append((sentence, form_of(sentence), ""))
        except NoForm as error:
            forms.append((sentence, None, str(error)))
    count = new(COUNT)
    most = 1 + max((form.depth for _, form, _ in forms if form), default=0)
    write = Writer(name_of, f"@(posedge {clock})", reset, count)
    bounded = [one for one in forms if one[1] and one[1].is_bounded]
    others = [one for one in forms if one[1] and not one[1].is_bounded]
    left = [f"// No assertion, since {why}: the {titled(it)}, {it.said}" for it, form, why in forms if not form]
    return [
        "",
        "`ifdef FORMAL",
        *counting(count, most, clock, reset),
        *(line for sentence, form, _ in bounded for line in write.immediate(sentence, form)),
        *([] if not others else ["`ifndef YOSYS"]),
        *(line for sentence, form, _ in others for line in write.concurrent(sentence, form)),
        *([] if not others else ["`endif"]),
        *left,
        "`endif",
    ]


def counting(count, most, clock, reset):
    """The number of steps since the first one, up to a bound."""
    width = most.bit_length()
    return [
        f"// The steps before this one, up to {most}.",
        f"reg [{width - 1}:0] {count} = {width}'d0;",
        f"always @(posedge {clock})",
        f"  if ({reset}) {count} <= {width}'d0;",
        f"  else if ({count} != {width}'d{most}) {count} <= {count} + {width}'d1;",
    ]


class Writer:
    """Writes assertions of one module."""

    def __init__(self, name_of, clocked, reset, count):
        self.name_of = name_of
        self.clocked = clocked
        self.reset = reset
        self.count = count

    def text(self, formula, ago):
        """A formula in the terms of the step that is so many steps later."""
        if isinstance(formula, bool) or formula.operands[0] in ("true", "false") and not formula.sign:
            return "1'b1" if formula is True or formula is not False and formula.operands[0] == "true" else "1'b0"
        if not formula.sign:
            name = self.name_of(formula.operands[0])
            return f"$past({name}, {ago})" if ago else name
        if formula.sign == "X":
            return self.text(formula.operands[0], ago - 1)
        sides = [self.text(one, ago) for one in formula.operands]
        if formula.sign == "!":
            return f"!{sides[0]}"
        if formula.sign == "->":
            return f"(!{sides[0]} || {sides[1]})"
        return f"({f' {OPERATORS[formula.sign]} '.join(sides)})"

    def begun(self, form):
        """The condition that the steps of a bounded sentence are there."""
        if not form.is_at_each:
            return f"!{self.reset} && {self.count} == {form.depth}"
        return f"!{self.reset} && {self.count} >= {form.depth}" if form.depth else f"!{self.reset}"

    def immediate(self, sentence, form):
        word = "assume" if sentence.word in ASSUMED else "assert"
        yield f"// The {titled(sentence)}: {sentence.said}"
        yield f"always {self.clocked} if ({self.begun(form)}) {word} ({self.text(form.one, form.depth)});"

    def concurrent(self, sentence, form):
        word = "assume" if sentence.word in ASSUMED else "assert"
        said = self.text(form.one, form.depth)
        if form.is_again and form.depth:
            said = f"({self.count} >= {form.depth} && {said})"
        wanted = f"s_eventually {said}" if form.is_again else f"{said} |-> s_eventually {self.text(form.other, 0)}"
        yield f"// The {titled(sentence)}: {sentence.said}"
        yield f"{word} property ({self.clocked} disable iff ({self.reset}) {wanted});"
