"""Solutions of games in the format `paritysol`, which PGSolver and Oink write."""
from __future__ import annotations

import re
from dataclasses import dataclass

from psyntool.texts import NUMBER, Unreadable

HEAD = re.compile(rf"\s*(?:paritysol\s+0*{NUMBER}\s*;\s*)?")
ENTRY = re.compile(rf"0*({NUMBER})\s+0*([01])(?:\s+0*({NUMBER}))?\s*;\s*")


@dataclass(frozen=True)
class Entry:
    """The entry of a vertex: its winner, the given move or None, and the offset of the entry."""

    winner: int
    move: int | None
    offset: int


@dataclass(frozen=True)
class Solution:
    """A solution: the entry of each vertex id, in the order of the text."""

    entries: dict

    def text(self):
        """The solution's text in the form that PGSolver writes."""
        lines = [f"paritysol {max(self.entries)};"]
        for identity, entry in self.entries.items():
            lines.append(f"{identity} {entry.winner}{'' if entry.move is None else f' {entry.move}'};")
        return "\n".join([*lines, ""])


def begin(text):
    """The entries at the start of a text, up to the first that can't be parsed or repeats an id; and the offset where
    they end."""
    entries, at = {}, HEAD.match(text).end()
    while found := ENTRY.match(text, at):
        identity = int(found[1])
        if identity in entries:
            break
        entries[identity] = Entry(int(found[2]), int(found[3]) if found[3] else None, at)
        at = found.end()
    return entries, at


def read(text):
    """Parses a solution."""
    entries, at = begin(text)
    if not entries or at < len(text):
        raise Unreadable("this is no solution: run `judge` to see where it goes wrong")
    return Solution(entries)
