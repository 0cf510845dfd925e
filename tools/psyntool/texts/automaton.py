"""Automata, parsed from texts in the Hanoi Omega-Automata format."""
from dataclasses import dataclass, field
from functools import cached_property

from psyntool.texts import hoa, labels
from psyntool.texts.acceptance import chain_of


@dataclass(frozen=True)
class Automaton:
    """An automaton: its start, the propositions' names, those that the controller owns, the acceptance condition,
    aliases, the states' names, and the edges of each state."""

    start: int
    names: tuple
    controllable: frozenset
    acceptance: str
    condition: object
    aliases: dict
    state_names: dict
    edges: dict
    headers: dict = field(default_factory=dict)

    @cached_property
    def states(self):
        targets = {edge.target for edges in self.edges.values() for edge in edges}
        return sorted({self.start, *self.edges, *targets})

    @cached_property
    def chain(self):
        """The acceptance condition as a chain, or None if it is not nested like a parity condition."""
        return None if self.condition is None else chain_of(self.condition)

    def owners(self):
        """The environment's propositions and the controller's, as two lists of numbers with names."""
        return [
            [(number, name) for number, name in enumerate(self.names) if (number in self.controllable) == is_mine]
            for is_mine in (False, True)
        ]

    def title_of(self, state):
        """A state's number, and its name if it has one."""
        return f"{state} {self.state_names.get(state, '')}".strip()

    @cached_property
    def alias_texts(self):
        return labels.texts_of_aliases(self.aliases, self.names)

    def written(self, label):
        """A label with the names of propositions; aliases are replaced by their definitions, if these are short."""
        return labels.written(label, self.names, self.alias_texts)[0]

    def edge_at(self, state, true):
        """The first edge of a state that can be taken if exactly the propositions in `true` are true, because its label
        holds then; None if there is none."""
        edges = self.edges.get(state, ())
        place = labels.first_met(
            [edge.label for edge in edges], {number: number in true for number in range(len(self.names))}, self.aliases
        )
        return None if place is None else edges[place]


def read(text):
    """Parses an automaton; some texts that the program refuses are accepted here."""
    reader = hoa.Reader(hoa.tokens_of(text))
    reader.take("HOA:")
    reader.take()
    head = hoa.header_of(reader, text)
    reader.take("--BODY--")
    edges, names = {}, {}
    while reader.now == "State:":
        state, name, these = hoa.state_of(reader, head)
        edges[state], names[state] = these, name
    reader.take(hoa.STOP)
    return Automaton(
        head.start,
        head.names,
        head.controllable,
        head.acceptance,
        head.condition,
        head.aliases,
        names,
        edges,
        head.others,
    )


def place_without_owners(text):
    """The offset of `--BODY--` if no item `controllable-AP:` precedes it, else None."""
    for token in hoa.tokens_of(text):
        if token.text == "controllable-AP:":
            return None
        if token.text == "--BODY--":
            return token.offset
    return None
