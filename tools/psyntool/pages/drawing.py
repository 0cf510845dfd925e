"""The pictures of a page: as `show` draws them or, if there are many vertices or edges, the graph itself, of which the
page draws what is around a vertex. Each part of a specification has a small picture of its own."""
from __future__ import annotations

import re
import subprocess
from dataclasses import dataclass

from psyntool.pictures import automata, games
from psyntool.plays.board import PLAYERS
from psyntool.texts import labels

# A graph with more vertices or edges than this is not drawn whole: nobody could read it, and dot might take minutes.
FEW_VERTICES, FEW_EDGES = 40, 100
# A part with more states or edges than this has no picture, and a page has no more small pictures than this.
SMALL_STATES, SMALL_EDGES, MOST_SMALL = 12, 40, 40
SECONDS = 30


@dataclass(frozen=True)
class Picture:
    """A picture as SVG, or an empty string; and the graph, from which the page draws the surroundings of a vertex if
    there is no picture with labels."""

    svg: str
    graph: dict | None


def of_automaton(board):
    read = board.automaton
    graph = {}
    for state in read.states:
        targets = dict.fromkeys(edge.target for edge in read.edges.get(state, ()))
        graph[state] = {"lines": (f"state {state}", read.state_names.get(state, "")), "to": list(targets)}
    return drawn(graph, lambda: automata.picture(read))


def of_game(board):
    graph = {
        vertex.identity: {"lines": lines_of(board, vertex), "to": vertex.successors} for vertex in board.game.vertices
    }
    return drawn(graph, lambda: games.picture(board.game, board.certificate, board.automaton))


def is_small(graph):
    return len(graph) <= FEW_VERTICES and sum(len(vertex["to"]) for vertex in graph.values()) <= FEW_EDGES


def of_parts(parts):
    """A small picture as SVG for each part of a specification, or an empty string for a part that is too large."""
    edges = [sum(map(len, part.automaton.edges.values())) for part in parts]
    small = [
        part for part, count in zip(parts, edges) if len(part.automaton.states) <= SMALL_STATES and count <= SMALL_EDGES
    ][:MOST_SMALL]
    made = dict(
        zip(small, svgs_of("\n".join(automata.picture(part.automaton, has_legend=False) for part in small), len(small)))
    )
    return [made.get(part, "") for part in parts]


def lines_of(board, vertex):
    """A vertex of the game in words: the automaton's state and the priority, or the letter that was chosen; and the
    player who moves there."""
    key, number = board.names.keys[vertex.identity], f"vertex {vertex.identity}"
    mover = f"the {PLAYERS[1 - vertex.owner]} moves"
    if key.letter is None:
        return f"{number}, priority {key.priority}; {mover}", board.title(key.state)
    said = "no edge" if key.state is None else labels.letter_text(key.letter, board.automaton.names) or "no letter"
    return f"{number}; {mover}", said


def drawn(graph, draw):
    """The picture of a graph, if it is small."""
    svg = svgs_of(draw(), 1)[0] if is_small(graph) else ""
    return Picture(svg, None if svg else graph)


def svgs_of(dot, count):
    """The SVG pictures of a number of DOT texts, without ids, which must be unique in a page; empty if Graphviz is
    missing or too slow."""
    if not count:
        return []
    try:
        done = subprocess.run(
            ["dot", "-Tsvg"], input=dot.encode("utf-8", "replace"), capture_output=True, timeout=SECONDS, check=False
        )
    except (OSError, subprocess.TimeoutExpired):
        return [""] * count
    found = re.findall(r"(?s)<svg.*?</svg>", done.stdout.decode("utf-8", "replace"))
    if done.returncode or len(found) != count:
        return [""] * count
    bare = (re.sub(r"(?s)<!--.*?-->\n?", "", svg) for svg in found)
    return [re.sub(r' (?:id|xmlns(?::xlink)?)="[^"]*"', "", svg) for svg in bare]
