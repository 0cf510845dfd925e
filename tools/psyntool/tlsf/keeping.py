"""Which sentences of a specification a lasso violates, and the steps that break them."""
from __future__ import annotations

from dataclasses import dataclass

from psyntool.tlsf.expanding import Basic, Sentence
from psyntool.tlsf.obligations import Obligations, Remains, limited, truths

# The names of sentences by their sections, for messages.
TITLES = {
    "INITIALLY": "initial assumption",
    "PRESET": "initial guarantee",
    "REQUIRE": "assumption",
    "ASSERT": "guarantee",
    "ASSUME": "assumption",
    "GUARANTEE": "guarantee",
}
# Formulas of these sections are meant at each step.
AT_EACH_STEP = ("REQUIRE", "ASSERT")
ASSUMED, GUARANTEED = ("INITIALLY", "REQUIRE", "ASSUME"), ("PRESET", "ASSERT", "GUARANTEE")


@dataclass(frozen=True)
class Violation:
    """A sentence that a lasso violates, and the first step behind which it can no longer be kept, if there is one."""

    sentence: Sentence
    step: int | None

    def told(self) -> list:
        """Lines about the violation."""
        said = "the run violates" if self.step is None else f"step {self.step} breaks"
        return [f"{said} the {titled(self.sentence)}", f"  {self.sentence.said}"]


def titled(sentence: Sentence) -> str:
    """What a sentence is called in messages; one of a command line has no line."""
    return TITLES[sentence.word] + (f" of line {sentence.row}" if sentence.row else "")


class Word:
    """A lasso by its letters, those of the stem and of one lap, each the set of the names that are true."""

    def __init__(self, letters: list, stem: int):
        self.letters = letters
        self.stem = stem
        self.known = {}
        self.obligations = Obligations()
        self.remains = Remains(self.obligations)

    def truths(self, formula) -> list:
        """The truth of a formula at each place."""
        return truths(self.obligations.of(formula), self.letters, self.stem, self.known)

    def meant(self, sentence: Sentence):
        """What a sentence demands of the whole lasso."""
        made = self.obligations.of(sentence.formula)
        return self.obligations.always(made) if sentence.word in AT_EACH_STEP else made

    def keeps(self, sentence: Sentence) -> bool:
        return truths(self.meant(sentence), self.letters, self.stem, self.known)[0]

    def violation(self, sentence: Sentence) -> Violation:
        return Violation(sentence, self.remains.breaks(self.meant(sentence), self.letters, self.stem))


def violated(basic: Basic, letters: list, stem: int) -> list:
    """The guarantees that a lasso violates and that bind it: those that no violated assumption lifts."""
    with limited():
        word = Word(letters, stem)
        return [word.violation(one) for one in binding(basic, word) if not word.keeps(one)]


def lifted(basic: Basic, letters: list, stem: int) -> list:
    """The assumptions that a lasso violates."""
    with limited():
        word = Word(letters, stem)
        return [word.violation(one) for one in basic.sentences if one.word in ASSUMED and not word.keeps(one)]


def binding(basic: Basic, word: Word) -> list:
    """The guarantees that the assumptions, as the lasso keeps them, leave in force."""
    if not all(word.keeps(one) for one in basic.of("INITIALLY")):
        return []
    found = basic.of("PRESET")
    is_kept = all(word.keeps(one) for word_of in ("REQUIRE", "ASSUME") for one in basic.of(word_of))
    if basic.is_strict:
        found += [one for one in basic.of("ASSERT") if is_broken_first(one, basic, word)]
    elif is_kept:
        found += basic.of("ASSERT")
    return found + (basic.of("GUARANTEE") if is_kept else [])


def is_broken_first(sentence: Sentence, basic: Basic, word: Word) -> bool:
    """Whether at some place the formula of a sentence does not hold, while up to there those of REQUIRE hold."""
    required = [word.truths(one.formula) for one in basic.of("REQUIRE")]
    for place, holds in enumerate(word.truths(sentence.formula)):
        if not all(one[place] for one in required):
            return False
        if not holds:
            return True
    return False


def alone(basic: Basic, sentence: Sentence) -> str:
    """The text of the specification whose only sentence is the given one, which is guaranteed."""
    return (
        basic.having([sentence]).text() if sentence.word in GUARANTEED else basic.having([guaranteed(sentence)]).text()
    )


def guaranteed(sentence: Sentence) -> Sentence:
    word = {"INITIALLY": "PRESET", "REQUIRE": "ASSERT", "ASSUME": "GUARANTEE"}[sentence.word]
    return Sentence(word, sentence.formula, sentence.row, sentence.source)
