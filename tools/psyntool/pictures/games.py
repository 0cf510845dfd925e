"""Pictures of parity games, with winning regions and, for the game of an automaton, the automaton's names."""
from __future__ import annotations

import html
from dataclasses import dataclass

from psyntool.pictures.dot import FONT, legend, quoted, within, wrapped
from psyntool.texts import Unreadable, labels

REGION = {0: "palegreen", 1: "lightsalmon"}
MOVE = {0: "darkgreen", 1: "firebrick"}
CYCLE = "blue"
# In a picture with more edges than this, the letters of edges are put into tables at the vertices.
FEW_EDGES = 60
OTHER_GAME = "the certificate, or the solution, is one of another game: its ids are not those of the game"
OTHER_AUTOMATON = "the game is not that of this automaton: its vertices have other names"


@dataclass(frozen=True)
class Key:
    """What a vertex of an automaton's game stands for: a state (None for the sink), with the priority of the last edge
    or with the letter that the first player has chosen."""

    state: int | None
    priority: int | None
    letter: dict | None

    @property
    def is_choice(self):
        """Whether the vertex stands for a state and a letter that the first player has chosen there."""
        return self.state is not None and self.letter is not None


class Names:
    """The names that an automaton gives to the vertices and the edges of its game."""

    def __init__(self, automaton, game):
        self.automaton = automaton
        owners = automaton.owners()
        # the environment moves first, or with --moore the controller
        first = owners[0 if game.vertices[0].owner else 1]
        self.first = [number for number, _ in first]
        self.states = set(automaton.states)
        self.keys = {vertex.identity: self.key_of(vertex) for vertex in game.vertices}

    def key_of(self, vertex):
        state, sign, behind = (
            (vertex.name or "").partition("/") if "/" in (vertex.name or "") else (vertex.name or "").partition(":")
        )
        number = None if state == "sink" else int(state) if state.isdecimal() else -1
        if sign == "/" and behind.isdecimal() and (number is None or number in self.states):
            return Key(number, int(behind), None)
        is_letter = sign == ":" and len(behind) == len(self.first) and not set(behind) - {"0", "1"}
        if not is_letter or not (number is None or number in self.states):
            raise Unreadable(OTHER_AUTOMATON)
        return Key(number, None, {place: digit == "1" for place, digit in zip(self.first, behind)})

    def of_vertex(self, vertex):
        """A vertex's text: the state's name and priority or, after the first player's choice, the state's number."""
        key = self.keys[vertex.identity]
        if key.letter is not None:
            return "no edge" if key.state is None else str(key.state)
        name = "no edge" if key.state is None else self.automaton.title_of(key.state)
        return f"{wrapped(name, ',;')}\n{vertex.priority}"

    def of_choice(self, vertex):
        """The number of a state, and the letter that was chosen in that state."""
        key = self.keys[vertex.identity]
        return f"{key.state}: {labels.letter_text(key.letter, self.automaton.names)}"

    def short(self, identity):
        """The number of a vertex's state, or `no edge` for the sink."""
        state = self.keys[identity].state
        return "no edge" if state is None else str(state)

    def of_edge(self, source, target):
        """The letter of an edge: the first player's choice, or a letter of the second player that leads to the edge's
        target."""
        before, after = self.keys[source.identity], self.keys[target.identity]
        if before.state is None:
            return ""
        if after.letter is not None:
            return labels.letter_text(after.letter, self.automaton.names)
        letter = self.leading(before, after)
        mine = {number: truth for number, truth in (letter or {}).items() if number not in self.first}
        return labels.letter_text(mine, self.automaton.names)

    def leading(self, before, after):
        """A letter of both players that has the first player's choice at `before` and leads to `after`; if `after` is
        the sink, a letter without an edge."""
        edges, aliases, chain = self.automaton.edges.get(before.state, ()), self.automaton.aliases, self.automaton.chain
        if after.state is None:
            return labels.meeting([(*edge.label, labels.NOT) for edge in edges], aliases, before.letter)
        fitting = [
            edge
            for edge in edges
            if edge.target == after.state and (chain is None or chain.priority(edge.marks) == after.priority)
        ]
        found = (labels.meeting([edge.label], aliases, before.letter) for edge in fitting)
        return next((letter for letter in found if letter is not None), None)


class Drawing:
    """The drawn vertices of a game, with their colours and names. If there are many edges, their letters are listed in
    tables, so that no letter is drawn over another."""

    def __init__(self, game, certificate, automaton, reach, cycle=()):
        self.game = game
        self.entries = certificate.entries if certificate else {}
        self.cycle = set(zip(cycle, [*cycle[1:], *cycle[:1]]))
        if certificate and set(self.entries) != set(game.by_identity):
            raise Unreadable(OTHER_GAME)
        begins, begin = (cycle, "the cycle") if cycle else ([game.vertices[0].identity], "its first vertex")
        self.drawn = within(
            "game", len(game.vertices), begins, lambda one: game.by_identity[one].successors, reach, begin
        )
        self.vertices = [vertex for vertex in game.vertices if self.drawn is None or vertex.identity in self.drawn]
        self.names = Names(automaton, game) if automaton else None
        self.has_tables = bool(self.names) and sum(len(vertex.successors) for vertex in self.vertices) > FEW_EDGES

    def is_table(self, vertex):
        return self.has_tables and self.names.keys[vertex.identity].is_choice

    def is_move(self, vertex, target):
        """Whether the winner of the vertex moves along this edge. Moves that a solution gives to losers are ignored."""
        entry = self.entries.get(vertex.identity)
        return bool(entry) and entry.winner == vertex.owner and entry.move == target

    def lines(self):
        yield from ("digraph game {", FONT, legend(self.legend_rows()))
        for vertex in self.vertices:
            yield self.table_line(vertex) if self.is_table(vertex) else self.vertex_line(vertex)
        for vertex in self.vertices:
            yield from self.edge_lines(vertex)
        yield "}"

    def vertex_line(self, vertex):
        said = self.names.of_vertex(vertex) if self.names else f"{vertex.title}: {vertex.priority}"
        entry = self.entries.get(vertex.identity)
        colour = f", style=filled, fillcolor={REGION[entry.winner]}" if entry else ""
        return f"  v{vertex.identity} [shape={'box' if vertex.owner else 'diamond'}, label={quoted(said)}{colour}];"

    def table_line(self, vertex):
        """A vertex after the first player's choice, as a table with a row for each letter of the second player.

        A row whose letters lead to the sink says so, and no edge is drawn from it.
        """
        entry = self.entries.get(vertex.identity)
        shade = f' bgcolor="{REGION[entry.winner]}"' if entry else ""
        rows = [f"<tr><td{shade}>{html.escape(self.names.of_choice(vertex))}</td></tr>"]
        for target in vertex.successors:
            said = html.escape(
                f"{self.names.of_edge(vertex, self.game.by_identity[target])}   to {self.names.short(target)}"
            )
            said = f"<b>{said}</b>" if self.is_move(vertex, target) else said
            rows.append(f'<tr><td port="t{target}" align="left">{said}</td></tr>')
        return (
            f'  v{vertex.identity} [shape=plain, '
            f'label=<<table border="1" cellborder="0" cellspacing="0">{"".join(rows)}</table>>];'
        )

    def edge_lines(self, vertex):
        entry = self.entries.get(vertex.identity)
        for target in vertex.successors:
            if self.is_table(vertex) and self.names.keys[target].state is None:
                continue
            if self.drawn is not None and target not in self.drawn:
                yield f'  more{vertex.identity} [shape=plaintext, label=".."];'
                yield f"  v{vertex.identity} -> more{vertex.identity};"
                return
            port = f":t{target}" if self.is_table(vertex) else ""
            parts = [self.label_of(vertex, target)] if self.names and not self.has_tables else []
            if (vertex.identity, target) in self.cycle:
                parts.append(f"style=bold, penwidth=4, color={CYCLE}")
            elif self.is_move(vertex, target):
                parts.append(f"style=bold, penwidth=3, color={MOVE[entry.winner]}")
            said = ", ".join(filter(None, parts))
            yield f"  v{vertex.identity}{port} -> v{target}{f' [{said}]' if said else ''};"

    def label_of(self, vertex, target):
        said = self.names.of_edge(vertex, self.game.by_identity[target])
        # blanks around the letter keep it off the line of the edge
        return f"label={quoted(f' {said} ')}" if said else ""

    def legend_rows(self):
        rows = [
            ("diamond", "player 0 moves there (in the game of an automaton the controller)", ""),
            ("box", "player 1 moves there", ""),
        ]
        if self.names:
            rows.append(("name, priority", "the state, and the priority of the edge by which it was entered", ""))
            rows += self.letter_rows()
            rows.append(("no edge", "the automaton has no edge for what was chosen: the controller has lost", ""))
        else:
            rows.append(("name: priority", "of each vertex", ""))
        rows.append(("priority", "player 0 wins a play whose greatest priority seen for ever is even", ""))
        if self.entries:
            bold = "rows and edges" if self.has_tables else "edges"
            rows += [
                ("green", f"player 0 wins from there, by the bold {bold}", REGION[0]),
                ("red", f"player 1 wins from there, by the bold {bold}", REGION[1]),
            ]
        if self.cycle:
            rows.append((
                "blue",
                f"a cycle that player {self.entries[next(iter(self.cycle))[0]].winner} loses, and was to win",
                "skyblue",
            ))
        return [*rows, *([("..", "what lies further on is not drawn", "")] if self.drawn is not None else [])]

    def letter_rows(self):
        if self.has_tables:
            who = "controller" if self.vertices[0].owner else "environment"
            return [
                (
                    "table",
                    f"the state's number and what was chosen in it; the {who} moves there, a row for each choice",
                    "",
                ),
                ("a letter", "one of those that lead alike", ""),
            ]
        return [
            ("number", "the same state, when one of the players has chosen", ""),
            ("a letter at an edge", "what the player chooses there: one letter of those that lead alike", ""),
        ]


def picture(game, certificate=None, automaton=None, reach=None, cycle=()):
    """Vertices of player 0 are diamonds, those of player 1 boxes. With a certificate or a solution, regions are
    coloured and winning moves are bold. If a cycle is given, its edges are blue, and the picture shows the surroundings
    of the cycle."""
    return "\n".join([*Drawing(game, certificate, automaton, reach, cycle).lines(), ""])
