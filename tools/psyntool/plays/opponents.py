"""The circuit against which a user plays. Where the environment wins, it is one that `shrink` has made smaller, since
its moves are easier to see through."""
from dataclasses import replace

from psyntool import asking, files, limits, outputs, program, shrinking
from psyntool.command import ENV, MOORE
from psyntool.ends import Refused
from psyntool.kinds import Kind
from psyntool.plays import reading

# If it takes more processor time to make the circuit smaller, it stays as it is.
MOST_SECONDS = 20


def flags_of(board):
    """The flags by which `verify` and `shrink` judge the circuit of a board."""
    return [*([ENV.name] if board.winner else []), *([] if board.game.vertices[0].owner else [MOORE.name])]


def specified(given):
    return files.Text(Kind.AUTOMATON, given.specification.name, given.automaton.encode("utf-8", "surrogateescape"))


def smaller(given):
    """The same with a smaller circuit of the environment, if the environment wins and `shrink` finds one in time."""
    if given.board.winner == 0:
        return given
    asked = files.joined("shrink", flags_of(given.board), [specified(given), given.printed[0]])
    answer = limits.briefly(MOST_SECONDS, program.ask, asked)
    if not asking.is_had(answer):
        return given
    refuse_losing(given, answer)
    if not shrinking.is_circuit(answer):
        return given
    return with_circuit(
        given, files.Text(Kind.CIRCUIT, given.printed[0].name, answer.bytes + outputs.CIRCUIT_ENDING.encode()), "shrink"
    )


def with_circuit(given, text, known_by):
    """The same with another circuit, which is known to win by a command of the program."""
    printed = (text, *given.printed[1:])
    board = reading.board_of(
        given.automaton, *(it.string for it in printed), name=given.specification.name, known_by=known_by
    )
    return replace(given, printed=printed, board=board)


def refuse_losing(given, answer):
    if answer.bytes.startswith(asking.LOSES):
        raise Refused(f"{given.printed[0].name} loses, so there is no play against it: `verify` tells a counterexample")


def known(given):
    """What is played against: a smaller environment, if there is one. Another circuit that moves first need not be the
    one that was printed with the game, if `verify` finds that it wins."""
    found = smaller(given)
    if found is not given or given.board.am_first:
        return found
    answer = program.ask(files.joined("verify", flags_of(given.board), [specified(given), given.printed[0]]))
    refuse_losing(given, answer)
    return with_circuit(given, given.printed[0], "verify") if asking.is_had(answer) else given
