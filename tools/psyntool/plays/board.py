"""What stays the same during a play against a circuit (its board): a specification with its game, certificate and
circuit, and the user's choices at each vertex.

The circuit moves for the winning player, and the user for the losing player. The user's letters are the circuit's
inputs.
"""
from __future__ import annotations

from dataclasses import dataclass, replace
from functools import cached_property
from typing import NamedTuple

from psyntool.parts import running
from psyntool.parts.diagrams import Diagrams
from psyntool.parts.part import Moves
from psyntool.pictures.games import OTHER_GAME, Names
from psyntool.texts import Unreadable
from psyntool.texts.circuit import at

PLAYERS = ("environment", "controller")
OTHER_CIRCUIT = "the circuit is not the one that was printed with this game and this certificate"
OTHER_NAMES = (
    "the {} wins, but the circuit's inputs and outputs don't have the names of its propositions: "
    "`verify` tells which are missing"
)
LONGEST_SET = 60
# Where a letter without an edge leads: to no state, with priority 1.
NO_END = (None, 1)
# The most steps of a play that the tool plays for the user.
LONGEST = 10_000
# Of equal choices so many are compared, each by so many steps.
MOST_TIED, LOOKAHEAD = 16, 40


@dataclass(frozen=True)
class Choice:
    """A choice of the user: a successor in the game, the truth of the user's propositions, the letters in words, where
    they lead and, if they have no edge, the guarantees that they violate."""

    vertex: int
    letter: dict
    said: str
    target: int | None
    priority: int
    counts: tuple
    broken: tuple = ()


class Position(NamedTuple):
    """What a play depends on: the automaton's state (None where it had no edge), and the circuit's latches."""

    state: int | None
    latches: str


@dataclass(frozen=True)
class Step:
    """A played step: the positions before and after it, the letters of both players, the user's letter as a line of a
    stimulus, and the priority of the edge."""

    before: Position
    after: Position
    letter: dict
    digits: str
    priority: int


class Board:
    """The data that stay the same during a play: the automaton, the game, the certificate and the circuit; and the
    program's command by which the circuit is known to win. By `synth`, it was printed with the game and the
    certificate."""

    def __init__(self, read, game, certificate, circuit, specification=None, known_by="synth"):
        self.automaton = read
        self.game = game
        self.certificate = certificate
        self.circuit = circuit
        self.known_by = known_by
        if set(certificate.entries) != set(game.by_identity):
            raise Unreadable(OTHER_GAME)
        begin = game.vertices[0]
        self.begin = begin.identity
        self.winner = certificate.entries[begin.identity].winner
        self.names = Names(read, game)
        owned = read.owners()
        self.mine = owned[self.winner]
        self.theirs = owned[1 - self.winner]
        self.am_first = begin.owner != self.winner
        if (
            sorted(circuit.names("i")) != sorted(name for _, name in self.mine)
            or sorted(circuit.names("o")) != sorted(name for _, name in self.theirs)
        ):
            raise Unreadable(OTHER_CIRCUIT if self.is_printed else OTHER_NAMES.format(PLAYERS[1 - self.winner]))
        self.places = {
            (key.state, key.priority): identity for identity, key in self.names.keys.items() if key.letter is None
        }
        self.diagrams = Diagrams(read.names)
        self.known_sets = {}
        self.known_ends = {}
        self.known_choices_at = {}
        numbers = {name: number for number, name in enumerate(read.names)}
        self.specification = specification
        sides = (specification.assumptions, specification.guarantees) if specification else ((), ())
        self.assumed, self.guaranteed = ([Moves(part, numbers, self.diagrams) for part in parts] for parts in sides)

    @property
    def is_printed(self):
        """Whether the circuit was printed with the game and the certificate."""
        return self.known_by == "synth"

    @property
    def me(self):
        return PLAYERS[self.winner]

    @property
    def other(self):
        return PLAYERS[1 - self.winner]

    @cached_property
    def aliases(self):
        found = {}
        for name, label in self.automaton.aliases.items():
            found[name] = self.diagrams.of_label(label, found)
        return found

    def letter_text(self, letter):
        """The names of the true propositions, as the user can type them; `-` if none is true."""
        return " ".join(name for number, name in enumerate(self.automaton.names) if letter.get(number)) or "-"

    def title(self, state):
        """A state's name, its number if it has no name, or `no edge` for the sink."""
        return "no edge" if state is None else self.automaton.state_names.get(state) or str(state)

    def counts(self, vertex):
        """The counts that the certificate has for a vertex, from the greatest priority down."""
        entry = self.certificate.entries[vertex]
        return tuple(
            entry.counts.get(priority, 0) for priority in sorted(self.certificate.opposing(entry.winner), reverse=True)
        )

    def choices(self, vertex, theirs, states):
        """The letters that the user can choose at a vertex. Letters for which the automaton has no edge come last.
        `states` are the present states of the guarantees."""
        found = self.classes(vertex) if self.am_first else self.answers(vertex, theirs, states)
        return sorted(found, key=lambda choice: choice.target is None)

    def classes(self, vertex):
        for one in self.game.by_identity[vertex].successors:
            letter, after = self.names.keys[one].letter, self.names.keys[self.certificate.entries[one].move]
            yield Choice(one, letter, self.letter_text(letter), after.state, after.priority, self.counts(one))

    def answers(self, vertex, theirs, states):
        state = self.names.keys[vertex].state
        ends, breaking = (self.diagrams.fixed(one, theirs, {}) for one in (self.ends(state), self.breaking(states)))
        for one in self.behind(vertex, theirs, ends):
            after = self.names.keys[one]
            there = self.diagrams.mapped(ends, lambda it, after=after: it == (after.state, after.priority), {})
            parted = self.diagrams.joined(there, breaking, broken_there if after.state is None else one_there, {})
            for broken, said in self.diagrams.labels(parted).items():
                if broken is not None:
                    found = self.diagrams.letter(parted, lambda value, broken=broken: value == broken)
                    letter = {number: found.get(number, False) for number, _ in self.mine}
                    yield Choice(
                        one, letter, self.set_text(said, letter), after.state, after.priority, self.counts(one), broken
                    )

    def behind(self, vertex, theirs, ends):
        """The vertices to which the user's letters lead behind a letter of the circuit; `ends` are the ends of these
        letters. A circuit that was printed with the game says what the certificate says."""
        between = self.certificate.entries[vertex].move
        if between is not None and self.names.keys[between].letter == theirs:
            return self.game.by_identity[between].successors
        if self.is_printed:
            raise Unreadable(OTHER_CIRCUIT)
        return [self.places[end] for end in self.diagrams.values(ends)]

    def ends(self, state):
        """A decision diagram that gives, for each letter, the state and the priority to which the letter leads from the
        given state. For a letter without an edge, the diagram gives the state and the priority of the game's sink."""
        if state not in self.known_ends:
            edges = self.automaton.edges.get(state, ())
            sets = [
                (self.set_of(edge.label), (edge.target, self.automaton.chain.priority(edge.marks))) for edge in edges
            ]
            self.known_ends[state] = self.diagrams.parting(sets, NO_END)
        return self.known_ends[state]

    def set_of(self, label):
        """The letters of a label, as a decision diagram."""
        # equal labels of an automaton's text are one object
        if id(label) not in self.known_sets:
            self.known_sets[id(label)] = self.diagrams.of_label(label, self.aliases)
        return self.known_sets[id(label)]

    def set_text(self, said, letter):
        """The text that shows the user a set of letters: `anything` for all letters, otherwise the set's label or, if
        the label is too long, one letter and the words `or others`."""
        if said == "t":
            return "anything"
        return said if len(said) <= LONGEST_SET else f"{self.letter_text(letter)}, or others"

    def breaking(self, states):
        """A decision diagram with, for each letter, the titles of the guarantees that it violates in the given
        states."""
        whole = self.diagrams.leaf(())
        for moves, state in zip(self.guaranteed, states):
            if state is not None:
                title = (moves.part.title,)
                here = self.diagrams.mapped(
                    moves.of[state], lambda move, title=title: title if move is None else (), {}
                )
                whole = self.diagrams.joined(whole, here, added, {})
        return whole

    def longest(self, choices, theirs, states):
        """The choice that should delay the user's loss longest. This is the choice whose vertex has the greatest counts
        in the certificate, compared from the greatest priority down. Among equals, a controller takes the choice behind
        which most guarantees are kept longest (`kept`); among equals again, the vertex with the smallest id is
        taken."""
        most = max(choice.counts for choice in choices)
        tied = sorted((choice for choice in choices if choice.counts == most), key=lambda choice: choice.vertex)[
            :MOST_TIED
        ]
        if len(tied) == 1 or self.winner == 0 or not self.guaranteed or None in states:
            return tied[0]
        return max(tied, key=lambda choice: self.kept(choice, theirs, states))

    def kept(self, choice, theirs, states):
        """How many guarantees are kept if the user makes a choice and then always the first that should delay the loss
        longest, and the sum of the steps at which the others fail. `theirs` is the other player's letter if it is
        known, and `states` are the present states of the guarantees."""
        states, broke, met, seen = list(states), {}, {}, {}
        for step in range(LOOKAHEAD):
            true = {number for number, truth in self.letter_of(choice, theirs).items() if truth}
            for place, moves in enumerate(self.guaranteed):
                move = None if states[place] is None else self.diagrams.at(moves.of[states[place]], true)
                states[place] = move and move.target
                if move is None:
                    broke.setdefault(place, step)
                elif move.is_met or not moves.part.is_buchi:
                    met[place] = step
            vertex = None if choice.target is None else self.places[choice.target, choice.priority]
            if vertex is None or vertex in seen:
                break
            seen[vertex] = step
            theirs = self.their_letter(vertex)
            choice = max(
                self.known_choices(vertex, theirs, tuple(states)),
                key=lambda it: (it.counts, -len(it.broken), -it.vertex),
            )
        if vertex in seen:
            # what the loop does not meet fails too
            for place in range(len(states)):
                if met.get(place, -1) <= seen[vertex]:
                    broke.setdefault(place, step)
        return len(states) - len(broke), sum(broke.values())

    def their_letter(self, vertex):
        """The letter of the winner at a vertex where the winner moves first, else None."""
        return None if self.am_first else self.names.keys[self.certificate.entries[vertex].move].letter

    def letter_of(self, choice, theirs):
        """The letter of both players at a choice; of the winner, who moves second, one that leads where the
        certificate's move leads."""
        if theirs is not None:
            return {**theirs, **choice.letter}
        between = self.names.keys[choice.vertex]
        after = self.names.keys[self.certificate.entries[choice.vertex].move]
        return {**(self.names.leading(between, after) or {}), **choice.letter}

    def known_choices(self, vertex, theirs, states):
        if (vertex, states) not in self.known_choices_at:
            self.known_choices_at[vertex, states] = self.choices(vertex, theirs, states)
        return self.known_choices_at[vertex, states]


def broken_there(is_there, broken):
    return broken if is_there else None


def one_there(is_there, _broken):
    return () if is_there else None


def added(some, more):
    return some + more


class Circuit:
    """The circuit of a play."""

    def __init__(self, board, text):
        self.board = board
        self.text = text
        self.made = board.circuit.ordered
        numbers = {name: number for number, name in enumerate(board.automaton.names)}
        self.inputs, self.outputs = ([numbers[name] for name in board.circuit.names(kind)] for kind in "io")
        self.start = "".join(str(latch.reset if latch.reset < 2 else 0) for latch in self.made.latches)

    def values(self, latches, letter):
        """The values of the circuit's variables at given latches and at a letter of the user."""
        bits = {latch.literal // 2: int(bit) for latch, bit in zip(self.made.latches, latches)}
        bits.update((literal // 2, int(letter[number])) for literal, number in zip(self.made.inputs, self.inputs))
        return self.made.known_values(bits)

    def answer(self, latches, letter):
        """The circuit's output letter at given latches and at a letter of the user."""
        values = self.values(latches, letter)
        return {number: bool(at(values, literal)) for number, literal in zip(self.outputs, self.made.outputs)}

    def behind(self, latches, letter):
        """The latches after a step."""
        values = self.values(latches, letter)
        return "".join(str(at(values, latch.next)) for latch in self.made.latches)

    def digits(self, letter):
        """The user's letter as a line of a stimulus."""
        return "".join("01"[letter[number]] for number in self.inputs)


class Match:
    """A board with the circuit that a play is against."""

    # what follows a play without a loop is its last letter
    idle = None

    def __init__(self, board, text):
        self.board = board
        self.circuit = Circuit(board, text)
        self.players = board.me, board.other
        self.first = Position(board.automaton.start, self.circuit.start)

    def is_over(self, position):
        return position.state is None

    def is_lost(self, _position):
        return False

    def moved(self, position, mine):
        """A step: the user's letter, the circuit's letter, and the automaton's edge for both letters."""
        letter = {**mine, **self.circuit.answer(position.latches, mine)}
        edge = self.board.automaton.edge_at(position.state, {number for number, truth in letter.items() if truth})
        target = None if edge is None else edge.target
        priority = 1 if edge is None else self.board.automaton.chain.priority(edge.marks)
        after = Position(target, self.circuit.behind(position.latches, letter))
        return Step(position, after, letter, self.circuit.digits(mine), priority)

    def theirs(self, position):
        """The letter of a circuit that moves first; None if it moves second."""
        nothing = {number: False for number, _ in self.board.mine}
        return None if self.board.am_first else self.circuit.answer(position.latches, nothing)

    def vertex(self, play):
        if not play.steps:
            return self.board.begin
        return self.board.places[play.now.state, play.steps[-1].priority]

    def guarantees(self, play):
        """The present states of the guarantees."""
        return [running.run(moves, letters_of(play)).state for moves in self.board.guaranteed]

    def choices(self, play):
        return self.board.choices(self.vertex(play), self.theirs(play.now), self.guarantees(play))

    def aimed(self, position, choice):
        """The choice with the place to which it leads against this circuit, which need not be the one that was printed
        with the game."""
        if not self.board.am_first:
            return choice
        theirs = self.circuit.answer(position.latches, choice.letter)
        true = {number for number, truth in {**theirs, **choice.letter}.items() if truth}
        target, priority = self.board.diagrams.at(self.board.ends(position.state), true)
        return replace(choice, target=target, priority=priority)

    def best(self, play, choices):
        """The choice that should delay the user's loss longest (`Board.longest`)."""
        return self.board.longest(choices, self.theirs(play.now), self.guarantees(play))

    def longest(self, play):
        return self.best(play, self.choices(play)).letter


def letters_of(play):
    """The letters that were played, each as the set of the true propositions."""
    return [{number for number, truth in step.letter.items() if truth} for step in play.steps]
