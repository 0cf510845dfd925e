"""Certificates of parity games: the winner of each vertex, the winners' moves, and counts that prove them right
(docs/CERTIFICATES.md)."""
from __future__ import annotations

import re
from dataclasses import dataclass

from psyntool.texts import Unreadable

CAUSE = "this is no certificate: run `closed` to see where it goes wrong"


@dataclass(frozen=True)
class Entry:
    """The entry of a vertex: its winner, the winner's move or None, and the nonzero counts by priority."""

    winner: int
    move: int | None
    counts: dict


@dataclass(frozen=True)
class Certificate:
    """A certificate: the odd and the even priorities of the game, and the entry of each vertex id, in the order of the
    game."""

    odd: tuple
    even: tuple
    entries: dict

    def opposing(self, winner):
        """The priorities of the game that have the opponent's parity, by which the player loses."""
        return self.even if winner else self.odd

    def text(self):
        """The certificate's text in the form that lists all counts."""
        lines = ["psyncert 1", f"vertices {len(self.entries)}"]
        lines += [" ".join([word, *map(str, these)]) for word, these in (("odd", self.odd), ("even", self.even))]
        for identity, entry in self.entries.items():
            counts = [entry.counts.get(priority, 0) for priority in self.opposing(entry.winner)]
            lines.append(
                " ".join(map(str, [identity, entry.winner, "-" if entry.move is None else entry.move, *counts]))
            )
        return "\n".join([*lines, ""])


def entry_of(words, opposing, is_compact):
    """A vertex's entry, from the words after the vertex's id."""
    winner, move = int(words[0]), None if words[1] == "-" else int(words[1])
    losing = opposing[winner]
    if not is_compact and len(words) - 2 != len(losing):
        raise ValueError
    if is_compact:
        counts = dict(tuple(map(int, word.split(":"))) for word in words[2:])
    else:
        counts = {priority: count for priority, count in zip(losing, map(int, words[2:])) if count}
    return Entry(winner, move, counts)


def read(text):
    """Parses a certificate."""
    lines = text.split("\n")
    if not re.match(r"psyncert [12]$", lines[0]):
        raise Unreadable("this is no certificate")
    try:
        odd, even = (tuple(map(int, line.split(" ")[1:])) for line in lines[2:4])
        rows = [line.split(" ") for line in lines[4:] if line]
        entries = {int(row[0]): entry_of(row[1:], (odd, even), lines[0] == "psyncert 2") for row in rows}
    except (ValueError, IndexError):
        raise Unreadable(CAUSE) from None
    return Certificate(odd, even, entries)
