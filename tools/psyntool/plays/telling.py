"""What the user is told about an interactive play: its present state, the choices, and how it ended; and what the
user types."""
from psyntool.parts import running
from psyntool.plays.board import letters_of

HELP = (
    "Type the number of a choice, or the names of your propositions that are to be true, `-` for none;\na for the "
    "choice with `*`, which holds out longest; b for one step back; e to end where a state has come again; q to leave."
)
NO_END = "no state has come again with the same latches, so the play has no end yet\n"


def can_end(play):
    return play.loop is not None


def behind(_play):
    return ()


def standing(play):
    """The present state of the play, and the user's choices, in lines; `*` marks the choice that should delay the
    user's loss longest."""
    match, board = play.board, play.board.board
    entered = f" (priority {play.steps[-1].priority})" if play.steps else ""
    told = [] if play.loop is None else [f"if the play ends here (e), {looping(play)}"]
    told.append(f"step {len(play.steps)}: {board.title(play.now.state)}{entered}")
    theirs, choices = match.theirs(play.now), match.choices(play)
    told += [] if theirs is None else [f"the {board.other} says {board.letter_text(theirs)}"]
    best, width = match.best(play, choices), max(len(choice.said) for choice in choices)
    return told + [
        f"{'*' if choice is best else ' '}{number:>3}  {choice.said:<{width}}  "
        f"-> {where(board, match.aimed(play.now, choice))}"
        for number, choice in enumerate(choices, 1)
    ]


def typed(play, line):
    """The user's letter that a typed line denotes, or None if the line does not denote one."""
    choices = play.board.choices(play)
    if line.isdecimal() and 0 < int(line[:9]) <= len(choices):
        return choices[int(line) - 1].letter
    mine = {name: number for number, name in play.board.board.mine}
    words = [word for word in line.split() if word != "-"]
    if not line.strip() or not mine.keys() >= {word.removeprefix("!") for word in words}:
        return None
    true = {mine[word] for word in words if not word.startswith("!")}
    return {number: number in true for number in mine.values()}


def where(board, choice):
    """Where a choice leads: to a state, with a priority, or to no edge, with the guarantees that the choice
    violates."""
    if choice.target is not None:
        return f"{board.title(choice.target)} (priority {choice.priority})"
    return f"no edge{', since it breaks ' if choice.broken else ''}{' and '.join(choice.broken)}"


def ended(play):
    """How the play ended: in a loop, with its greatest priority, or in a step for which the automaton has no edge; and
    the parts that were violated."""
    last = len(play.steps) - 1
    if play.loop is None:
        told = [f"at step {last} there is no edge: the automaton rejects, whatever follows"]
    else:
        told = [looping(play)]
    for side, parts in (("assumption", play.board.board.assumed), ("guarantee", play.board.board.guaranteed)):
        told += [line for moves in parts for line in of_part(play, side, moves)]
    return told


def looping(play):
    """The steps that are repeated, and what the automaton says to that."""
    greatest = max(step.priority for step in play.steps[play.loop :])
    parity = "even: the automaton accepts" if greatest % 2 == 0 else "odd: the automaton rejects"
    return f"{play.looping}; the greatest priority there is {greatest}, {parity}"


def of_part(play, side, moves):
    """Lines on a part that was violated, or that the loop does not meet."""
    return running.told(side, moves, letters_of(play), play.loop)


def table(play):
    """The steps of a play as a table: state, letters of both players, priority."""
    board = play.board.board
    owned = [[number for number, _ in these] for these in board.automaton.owners()]
    rows = []
    for place, step in enumerate(play.steps):
        said = [board.letter_text({number: step.letter[number] for number in these}) for these in owned]
        end = "no edge" if step.after.state is None else str(step.priority)
        rows.append((str(place), board.title(step.before.state), *said, end))
    return play.table(("step", "state", "environment", "controller", "priority"), rows)
