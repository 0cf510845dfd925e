"""Stimuli: a text with a line for each letter and, for a lasso, a line `-` between the stem and the lap."""
from __future__ import annotations

from dataclasses import dataclass

from psyntool.texts import Unreadable


@dataclass(frozen=True)
class Stimulus:
    """A stimulus: the letters of the stem, and those of the lap, which repeats for ever. A plain stimulus, which is no
    lasso, has only a stem, and its lap is None."""

    stem: tuple
    lap: tuple | None

    def letters(self, count):
        """The first `count` letters of a lasso."""
        behind = max(0, count - len(self.stem))
        return [*self.stem[:count], *(self.lap[place % len(self.lap)] for place in range(behind))]


def read(text):
    lines = text.split("\n")[:-1]
    marks = [place for place, line in enumerate(lines) if line == "-"]
    if len(marks) > 1 or any(set(line) - set("01") for line in lines if line != "-"):
        raise Unreadable("this is no stimulus: run `lasso` or `sim` to see where it goes wrong")
    if not marks:
        return Stimulus(tuple(lines), None)
    return Stimulus(tuple(lines[: marks[0]]), tuple(lines[marks[0] + 1 :]))
