"""A play against a circuit, whatever it is judged by; and what a user types in it.

A board says what a letter of the user does. It has the first position, `first`; the names of the `players`, the user
and the circuit's; `moved(position, letter)`, which is a step with the positions `before` and `after` it and with its
`digits`, the line of a stimulus; `longest(play)`, the letter that holds out longest; `is_over(position)`, whether no
step can follow; `is_lost(position)`, whether holding out has come to its end; and `idle`, the line that is repeated
behind a play without a loop, or None for that of its last step.
"""
from psyntool import console


class Play:
    """The steps that were played, and the present position."""

    def __init__(self, board):
        self.board = board
        self.steps = []
        self.now = board.first
        self.is_cut = False

    def take(self, mine):
        self.steps.append(self.board.moved(self.now, mine))
        self.now = self.steps[-1].after

    def back(self):
        """Undoes the last step."""
        if self.steps:
            self.now = self.steps.pop().before

    def end_behind(self, last):
        """Leaves out what was played behind a step, and the loop."""
        self.steps = self.steps[: last + 1]
        self.now = self.steps[-1].after
        self.is_cut = True

    @property
    def is_over(self):
        """Whether no step can follow. A play with a loop may end, or go on."""
        return self.board.is_over(self.now)

    @property
    def loop(self):
        """The step whose position before it is the present one, or None."""
        places = enumerate(() if self.is_cut else self.steps)
        return next((place for place, step in places if step.before == self.now), None)

    @property
    def looping(self):
        """Which steps come again and again."""
        last = len(self.steps) - 1
        one = self.loop == last
        return f"{f'step {last} comes' if one else f'steps {self.loop} to {last} come'} again and again"

    def hold_out(self, most):
        """Plays for the user until there is a loop or nothing more to hold, at most so many steps. Returns whether the
        play came to its end."""
        while not (self.board.is_over(self.now) or self.board.is_lost(self.now)) and self.loop is None:
            if len(self.steps) == most:
                return False
            self.take(self.board.longest(self))
        return True

    def stimulus(self):
        """The user's letters as a lasso stimulus, whose lap (repeated part) is the loop of the play, if it has one."""
        lines = [step.digits for step in self.steps]
        if self.loop is None and self.board.idle is not None:
            lines.append(self.board.idle)
        lap = len(lines) - 1 if self.loop is None else self.loop
        return "".join(f"{line}\n" for line in [*lines[:lap], "-", *lines[lap:]])

    def table(self, head, rows):
        """The lines of a table of the steps."""
        rows = [head, *rows]
        widths = [max(len(row[column]) for row in rows) for column in range(len(head))]
        lines = ["  ".join(word.ljust(width) for word, width in zip(row, widths)).rstrip() for row in rows]
        if self.loop is not None:
            lines.insert(self.loop + 1, "the loop begins")
        return lines


def asked(play, ways):
    """Plays the letters that the user types; returns whether the play came to its end, where nothing more is typed too.
    The module `ways` says what is told: HELP, `standing(play)` before a step and `behind(play)` after it; what `typed`
    words mean; whether the play `can_end`; and NO_END, which is told where it can't."""
    me, other = play.board.players
    console.write_text(f"You are the {me}, and the {other} has a circuit that wins.\n{ways.HELP}\n")
    lines = console.lines()
    while not play.is_over:
        console.write_text("\n".join(["", *ways.standing(play), "> "]))
        line = next(lines, None)
        if line in ("q", "quit") or line is None and not ways.can_end(play):
            return False
        if line is None or line in ("e", "end") and ways.can_end(play):
            break
        console.write_text(taken(play, ways, line))
    console.write_text("\n")
    return True


def taken(play, ways, line):
    """Executes a line that the user typed; returns what is told of it."""
    if line in ("b", "back"):
        play.back()
        return ""
    if line in ("e", "end"):
        return ways.NO_END
    letter = play.board.longest(play) if line in ("a", "auto") else ways.typed(play, line)
    if letter is None:
        return f"{line!r} is no choice. {ways.HELP}\n"
    play.take(letter)
    return "".join(f"{told}\n" for told in ways.behind(play))
