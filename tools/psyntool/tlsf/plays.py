"""Plays against a circuit, judged by sentences: after each step, which sentences are broken, and what the others still
demand.

The user types the circuit's inputs. The circuit is a controller's or an environment's, by the names of its inputs.
"""
import itertools
from dataclasses import dataclass

from psyntool.texts.circuit import at
from psyntool.tlsf.expanding import Basic
from psyntool.tlsf.keeping import AT_EACH_STEP, Word
from psyntool.tlsf.obligations import Obligations, Remains, limited

# Of more inputs than this, not every letter is tried.
MOST_INPUTS = 6
# A play that holds out is looked ahead so many steps, in which the circuit computes so many gates and latches.
LOOKAHEAD, MOST_GATES = 12, 60_000
LONGEST = 1_000


class Machine:
    """A circuit, which is run step by step. A letter is the set of the names that are true."""

    def __init__(self, made):
        self.made = made.ordered
        self.inputs = made.names("i")
        self.outputs = made.names("o")
        self.size = len(made.gates) + len(made.latches) + 10
        self.start = tuple(latch.reset if latch.reset < 2 else 0 for latch in made.latches)

    def step(self, latches: tuple, letter) -> tuple:
        """The outputs that are true at a step, and the latches behind it."""
        values = {literal // 2: int(name in letter) for literal, name in zip(self.made.inputs, self.inputs)}
        values |= {latch.literal // 2: bit for latch, bit in zip(self.made.latches, latches)}
        values = self.made.known_values(values)
        outputs = frozenset(name for literal, name in zip(self.made.outputs, self.outputs) if at(values, literal))
        return outputs, tuple(at(values, latch.next) for latch in self.made.latches)


@dataclass(frozen=True)
class Position:
    """What a play depends on: the latches of the circuit, and what is left of each sentence."""

    latches: tuple
    left: tuple


@dataclass(frozen=True)
class Step:
    """A step: the position before it, the letter, and the position behind it."""

    before: Position
    letter: frozenset
    after: Position
    digits: str


class Sentences:
    """The board of a play against the circuit of a player (`plays.play`). `sentences` are those that are judged."""

    def __init__(self, basic: Basic, made, sentences):
        self.basic = basic
        self.machine = Machine(made)
        self.sentences = tuple(sentences)
        self.is_controller = set(self.machine.inputs) == set(basic.inputs)
        self.obligations = Obligations()
        self.remains = Remains(self.obligations)
        with limited():
            self.begin = tuple(self.remains.of(self.meant(one)) for one in self.sentences)
        self.first = Position(self.machine.start, self.begin)
        self.idle = "0" * len(self.machine.inputs)
        # the places of the sentences that the user keeps where a play holds out
        self.watched = range(len(self.sentences))

    def meant(self, sentence):
        made = self.obligations.of(sentence.formula)
        return self.obligations.always(made) if sentence.word in AT_EACH_STEP else made

    @property
    def circuit_is_first(self) -> bool:
        """Whether the circuit moves before it knows the user's letter."""
        return self.is_controller == self.basic.is_moore

    @property
    def players(self) -> tuple:
        """The user and the circuit's player."""
        return ("environment", "controller") if self.is_controller else ("controller", "environment")

    # ---- moves

    def moved(self, position: Position, mine) -> Step:
        """The step that the user's letter makes at a position."""
        outputs, latches = self.machine.step(position.latches, mine)
        letter = frozenset(mine) | outputs
        with limited():
            left = tuple(self.remains.after(one, letter) for one in position.left)
        digits = "".join("01"[name in letter] for name in self.machine.inputs)
        return Step(position, letter, Position(latches, left), digits)

    def is_over(self, _position: Position) -> bool:
        return False

    def said_first(self, position: Position) -> frozenset:
        """The letter of a circuit that moves first."""
        return self.machine.step(position.latches, ())[0]

    def letters(self) -> list:
        """The user's letters; of many inputs only those with at most one that is true, and the one with all."""
        names = self.machine.inputs
        if len(names) <= MOST_INPUTS:
            return [
                frozenset(those) for count in range(len(names) + 1) for those in itertools.combinations(names, count)
            ]
        return [frozenset(), *(frozenset((name,)) for name in names), frozenset(names)]

    # ---- sentences

    def is_lost(self, position: Position) -> bool:
        """Whether a sentence that is watched is broken."""
        return any(position.left[place] == self.remains.never for place in self.watched)

    def broken_at(self, step: Step) -> list:
        """The sentences that a step breaks."""
        ends = zip(self.sentences, step.before.left, step.after.left)
        return [one for one, before, after in ends if after == self.remains.never != before]

    def owed(self, position: Position) -> list:
        """Pairs of a sentence and what it demands besides what it demanded at first."""
        found = []
        for one, left, first in zip(self.sentences, position.left, self.begin):
            texts = self.remains.owed(left, first) if left not in (self.remains.never, self.remains.always) else []
            found += [(one, text) for text in texts]
        return found

    def unmet(self, play) -> list:
        """The sentences that no step of a play breaks, and that its loop violates."""
        with limited():
            word = Word([step.letter for step in play.steps], play.loop)
            ends = zip(self.sentences, play.now.left)
            return [one for one, left in ends if left != self.remains.never and not word.keeps(one)]

    # ---- holding out

    def longest(self, play) -> frozenset:
        """The letter with which no watched sentence is broken for most steps, as far as it looks ahead. Of equal
        letters, an environment chooses one behind which most is owed, and a controller one behind which least is."""
        self.known, self.gates_left, best, letter = {}, MOST_GATES, None, frozenset()
        for mine in self.letters():
            after = self.moved(play.now, mine).after
            owed = len(self.owed(after))
            value = self.lasts(after, LOOKAHEAD), owed if self.is_controller else -owed
            if best is None or value > best:
                best, letter = value, mine
        return letter

    def lasts(self, position: Position, most: int) -> int:
        """For how many further steps, up to a bound, no sentence need be broken."""
        if self.is_lost(position):
            return -1
        if most == 0 or self.gates_left < 0:
            return 0
        if (position, most) not in self.known:
            self.known[position, most] = 0
            best = -1
            for mine in self.letters():
                self.gates_left -= self.machine.size
                best = max(best, self.lasts(self.moved(position, mine).after, most - 1))
                if best == most - 1:
                    break
            self.known[position, most] = best + 1
        return self.known[position, most]

    # ---- what is told

    def table(self, play) -> list:
        """The steps of a play as the lines of a table."""
        rows = []
        for place, step in enumerate(play.steps):
            said = [
                " ".join(name for name in names if name in step.letter) or "-"
                for names in (self.basic.inputs, self.basic.outputs)
            ]
            rows.append((str(place), *said, "; ".join(dict.fromkeys(text for _, text in self.owed(step.after)))))
        return play.table(("step", "environment", "controller", "owed after it"), rows)
