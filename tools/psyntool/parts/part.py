"""A part of a specification: a small deterministic automaton over its own named propositions.

A part has safety acceptance (`t`) or Büchi acceptance (`Inf(0)`). A letter without an edge violates the part. A letter
also violates a Büchi part if it leads to a state from which no accepting edge can be reached.
"""
import re
from dataclasses import dataclass
from typing import NamedTuple

from psyntool.ends import Refused
from psyntool.parts.diagrams import Diagrams
from psyntool.texts import Unreadable, automaton, hoa, labels
from psyntool.texts.labels import Proposition

SAFETY, BUCHI = True, ("Inf", 0)
# The name of a state behind which a sentence demands no more than at first.
NOTHING_OWED = "nothing owed"
# Stands before the new name of a proposition that is negated.
NOT = "!"


class NotComposed(Unreadable):
    """An item `part:` of an automaton is none that `compose` writes."""


class Move(NamedTuple):
    """The step of a part at a letter: the state to which the letter leads, and whether the edge to it is accepting."""

    target: int
    is_met: bool


@dataclass(frozen=True, eq=False)
class Part:
    """A part of a specification: its title, the sentence that describes it (perhaps empty), its automaton, and its
    text."""

    title: str
    sentence: str
    automaton: automaton.Automaton
    text: str

    @property
    def names(self):
        return self.automaton.names

    @property
    def is_buchi(self):
        return self.automaton.condition == BUCHI

    @property
    def says_whose(self):
        """Whether the text of the part says which propositions the controller owns."""
        return "controllable-AP:" in self.automaton.headers

    def state_name(self, state):
        """A state's name or, if it has none, the part's title and the state's number. If a part has only one state, and
        this state has no name, the result is empty."""
        name = self.automaton.state_names.get(state)
        return name or (f"{self.title}:{state}" if len(self.automaton.states) > 1 else "")

    @property
    def item(self):
        """The strings by which the header item `part:` of a composed automaton stores the part."""
        return (self.title, self.sentence, self.text)


def part_of(stem, sentence, renamed, text):
    """The part in a text, with some propositions renamed. A text that is not a part is refused; the caller adds the
    file's name to the message."""
    read = automaton.read(text)
    if read.condition not in (SAFETY, BUCHI):
        raise Refused(f"its acceptance is {read.acceptance}; that of a part is `0 t` or `1 Inf(0)`")
    unknown = [old for old in renamed if old not in read.names]
    if unknown:
        raise Refused(
            f"it has no proposition {unknown[0]}, so --as can't rename it; it has {', '.join(read.names) or 'none'}"
        )
    shown = [renamed.get(name, name) for name in read.names]
    names = tuple(renamed.get(name, name).removeprefix(NOT) for name in read.names)
    twice = next((name for name in names if names.count(name) > 1), None)
    if twice is not None:
        raise Refused(f"two of its propositions would be {twice}")
    text = with_names(text, renamed)
    negated = {number for number, old in enumerate(read.names) if renamed.get(old, "").startswith(NOT)}
    read = automaton.read(text)
    if negated:
        text = with_negations(read, negated)
        read = automaton.read(text)
    said = hoa.unquoted(" ".join(read.headers.get("name:", ['""'])))
    part = Part(f"{stem}({','.join(shown)})" if renamed else stem, sentence or said, read, text)
    Moves(part, {name: number for number, name in enumerate(names)}, Diagrams())
    return part


def with_negations(read, negated):
    """The text of an automaton in whose labels the propositions with the given numbers are negated."""
    diagrams, aliases = Diagrams(), {}

    def of_label(label):
        parts = ((it, labels.NOT) if isinstance(it, Proposition) and it.number in negated else (it,) for it in label)
        return diagrams.of_label([it for some in parts for it in some], aliases)

    for name, label in read.aliases.items():
        aliases[name] = of_label(label)
    words = [
        "HOA: v1",
        *(f"name: {name}" for name in read.headers.get("name:", ())),
        f"Start: {read.start}",
        f"AP: {len(read.names)}",
        *map(quoted, read.names),
    ]
    if "controllable-AP:" in read.headers:
        words += ["controllable-AP:", *map(str, sorted(read.controllable))]
    words += ["Acceptance: " + ("1 Inf(0)" if read.condition == BUCHI else "0 t"), "--BODY--"]
    for state in read.states:
        words += [f"State: {state}", *(quoted(name) for name in [read.state_names.get(state)] if name)]
        for edge in read.edges.get(state, ()):
            marks = f"{{{' '.join(map(str, sorted(edge.marks)))}}}"
            words += [
                f"[{label}] {edge.target} {marks}"
                for value, label in diagrams.labels(of_label(edge.label)).items()
                if value
            ]
    return " ".join([*words, "--END--"])


def with_names(text, renamed):
    """The text on one line, without comments and with renamed propositions, also in the names of the automaton and of
    its states. The list of propositions has no negations."""
    words, is_listed = [], False
    for token in (it.text for it in hoa.tokens_of(text)):
        if token.startswith('"'):
            said = hoa.unquoted(token)
            new = (
                renamed.get(said, said).removeprefix(NOT)
                if is_listed
                else re.sub(r"\w+", lambda word: renamed.get(word[0], word[0]), said)
            )
            token = token if new == said else quoted(new)
        elif token.endswith(":"):
            is_listed = token == "AP:"
        words.append(token)
    return " ".join(words)


def quoted(text):
    """The string in quotes, as in HOA texts."""
    return '"' + text.replace("\\", "\\\\").replace('"', '\\"') + '"'


def from_item(title, sentence, text, names):
    """The part of a specification that a composed automaton stores in a header item `part:`. The part's propositions
    must be among `names`, the automaton's propositions."""
    try:
        read = automaton.read(text)
    except Unreadable:
        read = None
    if read is None or read.condition not in (SAFETY, BUCHI) or not set(names).issuperset(read.names):
        raise NotComposed(f"the item `part:` of {title!r} was not written by compose")
    return Part(title, sentence, read, text)


class Moves:
    """A part's moves from each state, as decision diagrams over the specification's propositions; None means that the
    letter violates the part."""

    def __init__(self, part, numbers, diagrams):
        self.part = part
        self.diagrams = diagrams
        self.places = {number: numbers[name] for number, name in enumerate(part.names)}
        aliases = {}
        for name, label in part.automaton.aliases.items():
            aliases[name] = diagrams.of_label(self.moved(label), aliases)
        self.of = {state: self.of_state(state, aliases) for state in part.automaton.states}
        hopeless = self.hopeless() if part.is_buchi else frozenset()
        if hopeless:
            self.of = {
                state: diagrams.mapped(one, lambda move: None if move is None or move.target in hopeless else move, {})
                for state, one in self.of.items()
            }
        self.start = None if part.automaton.start in hopeless else part.automaton.start

    def moved(self, label):
        """The label, where each number of a proposition in the part is replaced by the proposition's number in the
        specification."""
        return tuple(Proposition(self.places[it.number]) if isinstance(it, Proposition) else it for it in label)

    def of_state(self, state, aliases):
        """The moves from one state; a state with two edges for the same letter is refused."""
        diagrams = self.diagrams
        whole, known = diagrams.leaf(None), {}
        for edge in self.part.automaton.edges.get(state, ()):
            taken, move = diagrams.of_label(self.moved(edge.label), aliases), Move(edge.target, 0 in edge.marks)
            here = diagrams.mapped(taken, lambda is_taken, move=move: move if is_taken else None, {})
            shared = diagrams.joined(whole, here, lambda before, now: before is not None and now is not None, {})
            self.refuse_shared(state, shared)
            whole = diagrams.joined(whole, here, first_of, known)
        return whole

    def refuse_shared(self, state, shared):
        letter = self.diagrams.letter(shared, bool)
        if letter is not None:
            numbers = {there: here for here, there in self.places.items()}
            said = labels.letter_text({numbers[number]: truth for number, truth in letter.items()}, self.part.names)
            raise Refused(
                f"two edges of state {self.part.automaton.title_of(state)} take "
                f"{f'the letter {said}' if said else 'each letter'}; a part is deterministic"
            )

    def hopeless(self):
        """The states from which no accepting edge can be reached."""
        before, hopeful = {}, set()
        for state, one in self.of.items():
            for move in filter(None, self.diagrams.values(one)):
                before.setdefault(move.target, set()).add(state)
                if move.is_met:
                    hopeful.add(state)
        waiting = list(hopeful)
        while waiting:
            for state in before.get(waiting.pop(), ()):
                if state not in hopeful:
                    hopeful.add(state)
                    waiting.append(state)
        return frozenset(self.of) - hopeful


def first_of(before, now):
    return now if before is None else before
