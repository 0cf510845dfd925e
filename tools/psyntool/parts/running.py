"""Runs of a specification's parts on the letters of a play or of a trace, and what became of each part."""
from __future__ import annotations

from dataclasses import dataclass


@dataclass(frozen=True)
class Run:
    """A part after some steps: its state, or the step that violated it, and the steps that took an accepting edge."""

    state: int | None
    broke: int | None
    met: tuple


def run(moves, letters):
    """Runs the automaton of a part on letters, each given as the set of the true propositions."""
    state, met = moves.start, []
    for place, letter in enumerate(letters):
        move = None if state is None else moves.diagrams.at(moves.of[state], letter)
        if move is None:
            return Run(None, place, tuple(met))
        met += [place] if move.is_met or not moves.part.is_buchi else []
        state = move.target
    return Run(state, None, tuple(met))


def told(side, moves, letters, loop, what="loop"):
    """A line which says that a part was violated, or that what is repeated from step `loop` on never takes the part's
    accepting edges. The next line is the sentence that describes the part."""
    found, part = run(moves, letters), moves.part
    if found.broke is not None:
        said = f"step {found.broke} breaks the {side} {part.title}"
    elif loop is not None and not any(place >= loop for place in found.met):
        said = f"the {what} never meets the {side} {part.title}"
    else:
        return []
    return [said, f"  {part.sentence}"] if part.sentence else [said]
