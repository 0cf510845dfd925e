"""`play` of a specification in temporal logic: the user plays against the circuit in PREFIX.aag, and sees at each step
what each sentence demands, and which one a step breaks."""
from psyntool import asking, console, files, outputs, program, specifying
from psyntool.command import AUTO, ENV, TLSF
from psyntool.ends import Refused, Unwritten
from psyntool.files import Reader
from psyntool.kinds import Kind
from psyntool.plays.play import Play, asked
from psyntool.texts import circuit
from psyntool.tlsf import playing
from psyntool.tlsf.keeping import ASSUMED, GUARANTEED, titled
from psyntool.tlsf.obligations import TooLong
from psyntool.tlsf.plays import LONGEST, Sentences

HELP = (
    "Type the number of a choice, or the names of your propositions that are to be true, `-` for none;\n"
    "a for the choice that holds out longest; b for one step back; e to end; q to leave."
)
NO_END = "nothing is played, so the play has no end yet\n"
# Of more inputs of the circuit than this, the user's choices are not listed.
MOST_LISTED = 3


def run(request, text):
    """Plays against the circuit of a specification, whose text is given."""
    prefix = request.words[0]
    paths = outputs.own(request, [f"{prefix}.stim"], "play", prefix)
    made = Reader(request).text(Kind.CIRCUIT, f"{prefix}.aag")
    outputs.refuse_read(request, paths)
    basic = specifying.read(text)
    flags = refuse_losing(basic, text, made)
    try:
        board = Sentences(basic, circuit.read(made.string), basic.sentences)
        return played(request, (text, made), Play(board), flags, paths)
    except TooLong:
        raise Refused(f"{text.name}: what is left of these sentences takes too much memory to be told") from None


def played(request, texts, play, flags, paths):
    """Plays, and writes and tells the play; the texts are the specification and the circuit."""
    play.board.watched = mine(play.board)
    if request.has(AUTO):
        play.hold_out(LONGEST)
    elif not asked(play, playing):
        console.write_text("the play is left; no stimulus is written\n")
        return 0
    stimulus = play.stimulus()
    outputs.write_all({paths[0]: outputs.STIMULUS_BEGINNING + stimulus})
    given = files.joined("lasso", flags, [*texts, files.Text(Kind.STIMULUS, paths[0], stimulus.encode())])
    verdict = program.ask(given)
    if not asking.is_had(verdict):
        raise Unwritten(f"lasso of this play: {verdict.died or verdict.text.rstrip()}")
    console.write_text("\n".join(
        [
            *play.board.table(play),
            *ended(play),
            f"{paths[0]} has these letters of the {play.board.players[0]}; lasso: {verdict.text.rstrip()}",
            "",
        ]
    ))
    return 0


def refuse_losing(basic, text, made):
    """Refuses a circuit of neither player, and one that loses; returns the flags by which the circuit is judged."""
    names = set(circuit.read(made.string).names("i"))
    flags = [TLSF.name] if names == set(basic.inputs) else [TLSF.name, ENV.name]
    answer = program.ask(files.joined("verify", flags, [text, made]))
    if answer.died:
        raise Unwritten(f"verify of this circuit: {answer.died}")
    if answer.is_fault:
        raise Refused(f"{made.name}: verify by {text.name} answers to it: {answer.text.rstrip()}")
    if answer.bytes != b"wins\n":
        raise Refused(f"{made.name} loses, so there is no play against it: `verify` tells a counterexample")
    return flags


def mine(board):
    """The places of the sentences that the user has to keep."""
    words = ASSUMED if board.is_controller else GUARANTEED
    return [place for place, one in enumerate(board.sentences) if one.word in words]


# ---- what is typed


def can_end(play):
    return bool(play.steps)


def behind(play):
    """Lines on the sentences that the last step breaks."""
    return broken(play, len(play.steps) - 1)


def typed(play, line):
    """The letter that a typed line denotes, or None."""
    names, choices = play.board.machine.inputs, play.board.letters()
    if line.isdecimal() and len(names) <= MOST_LISTED:
        return choices[int(line[:9]) - 1] if 0 < int(line[:9]) <= len(choices) else None
    words = [word for word in line.split() if word != "-"]
    if not line or not set(names) >= {word.removeprefix("!") for word in words}:
        return None
    return frozenset(word for word in words if not word.startswith("!"))


def standing(play):
    """The present state of the play: what sentences demand, and the user's choices with what each breaks."""
    board = play.board
    told = [f"step {len(play.steps)}{tally(play)}"]
    told += [f"  the {titled(one)} demands {text}" for one, text in board.owed(play.now)]
    if board.circuit_is_first:
        told.append(f"the {board.players[1]} says {' '.join(sorted(board.said_first(play.now))) or '-'}")
    if len(board.machine.inputs) <= MOST_LISTED:
        told += [f" {number:>3}  {choice(play, letter)}" for number, letter in enumerate(board.letters(), 1)]
    return told


def tally(play):
    """Which sentences are kept so far, which demand something, and which are broken."""
    owed = {id(one) for one, _ in play.board.owed(play.now)}
    sides = {"kept so far": [], "owed": [], "broken": []}
    for one, left in zip(play.board.sentences, play.now.left):
        side = "broken" if left == play.board.remains.never else "owed" if id(one) in owed else "kept so far"
        sides[side].append(str(one.row))
    told = [
        f"{side}: line{'s' * (len(set(rows)) > 1)} {', '.join(dict.fromkeys(rows))}"
        for side, rows in sides.items()
        if rows
    ]
    return f" ({'; '.join(told)})" if play.steps and all(one.row for one in play.board.sentences) else ""


def choice(play, letter):
    """A choice of the user: the letter, what the circuit answers to it, and what the step breaks."""
    board = play.board
    step = board.moved(play.now, letter)
    said = " ".join(sorted(letter)) or "-"
    answer = "" if board.circuit_is_first else f"  -> {' '.join(sorted(step.letter - letter)) or '-'}"
    those = " and ".join(f"the {titled(one)}" for one in board.broken_at(step))
    return said + answer + (f", which breaks {those}" if those else "")


def broken(play, place):
    """Lines on the sentences that a step breaks."""
    return [
        line
        for one in play.board.broken_at(play.steps[place])
        for line in (f"step {place} breaks the {titled(one)}", f"  {one.said}")
    ]


def ended(play):
    """How the play ended: the sentences that it broke, and what comes again and again, with those that the loop
    violates."""
    told = [line for place in range(len(play.steps)) for line in broken(play, place)]
    if play.loop is None:
        return told
    return [
        *told,
        play.looping,
        *(
            line
            for one in play.board.unmet(play) for line in (f"the loop does not keep the {titled(one)}", f"  {one.said}")
        ),
    ]
