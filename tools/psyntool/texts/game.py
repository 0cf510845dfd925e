"""Parity games, parsed from texts in PGSolver's format."""
from __future__ import annotations

import re
from dataclasses import dataclass
from functools import cached_property

from psyntool.texts import NUMBER, Unreadable

HEAD = re.compile(r"\s*(?:parity\s+\d+\s*;)?\s*(?:start\s+\d+\s*;)?")
NODE = re.compile(rf'\s*({NUMBER})\s+({NUMBER})\s+0*([01])\s+({NUMBER}(?:\s*,\s*{NUMBER})*)\s*("[^"]*")?\s*;')
BLANK = re.compile(r"\s*\Z")


@dataclass(frozen=True)
class Vertex:
    """A vertex: its id, its priority, its owner, the ids of its distinct successors, and its name or None."""

    identity: int
    priority: int
    owner: int
    successors: tuple
    name: str | None

    @property
    def title(self):
        return str(self.identity) if self.name is None else self.name


@dataclass(frozen=True)
class Game:
    """A game: its vertices, in the order of the text. In the game of an automaton, plays begin at the first vertex."""

    vertices: tuple

    @cached_property
    def by_identity(self):
        return {vertex.identity: vertex for vertex in self.vertices}

    @property
    def priorities(self):
        return sorted({vertex.priority for vertex in self.vertices})

    def text(self):
        """The game's text in the form that psyn writes."""
        lines = [f"parity {max(vertex.identity for vertex in self.vertices)};"]
        for vertex in self.vertices:
            name = "" if vertex.name is None else f' "{vertex.name}"'
            lines.append(
                f"{vertex.identity} {vertex.priority} {vertex.owner} {','.join(map(str, vertex.successors))}{name};"
            )
        return "\n".join([*lines, ""])


def read(text):
    """Parses a game."""
    vertices, at = [], HEAD.match(text).end()
    while not BLANK.match(text, at):
        found = NODE.match(text, at)
        if not found:
            raise Unreadable("this is no game text: run `solve` to see where it goes wrong")
        successors = tuple(dict.fromkeys(int(word) for word in found[4].split(",")))
        name = found[5][1:-1] if found[5] else None
        vertices.append(Vertex(int(found[1]), int(found[2]), int(found[3]), successors, name))
        at = found.end()
    game = Game(tuple(vertices))
    if not vertices or len(game.by_identity) < len(vertices):
        raise Unreadable("this is no game text: run `solve` to see where it goes wrong")
    if any(target not in game.by_identity for vertex in vertices for target in vertex.successors):
        raise Unreadable("a successor is no vertex of this game: run `solve` to see which")
    return game
