"""`play`: the user plays against the circuit that psyn printed, and sees why it wins, with the names of states and
propositions."""
from psyntool import console, outputs, program, remarks
from psyntool.command import AUTO, ENV, JSON
from psyntool.ends import Refused, Unwritten
from psyntool.plays import opponents, reading, telling
from psyntool.plays.board import LONGEST, Match
from psyntool.plays.play import Play, asked

def run(request):
    if request.has(JSON) and not request.has(AUTO):
        raise Refused(
            f"{request.command.name} {JSON.name} wants {AUTO.shown}, since nobody would see what can be chosen"
        )
    prefix = request.words[0]
    text = reading.specification(request)
    if text is not None:
        from psyntool.tlsf import playing

        return playing.run(request, text)
    given = opponents.known(reading.given(request))
    play = Play(Match(given.board, given.printed[0].bytes))
    paths = outputs.own(request, [f"{prefix}.stim"], "play", prefix)
    outputs.refuse_read(request, paths)
    if given.board.winner and not request.quiet:
        console.tell(*remarks.words_of(given.board.circuit))
    is_whole = played(play) if request.has(AUTO) else asked(play, telling)
    if not is_whole:
        console.write_text("the play is left; no stimulus is written\n")
        return 0
    outputs.write_all({paths[0]: outputs.STIMULUS_BEGINNING + play.stimulus()})
    verdict = judged(play, given.automaton)
    console.write_text("\n".join(
        [
            *telling.table(play),
            *telling.ended(play),
            f"{paths[0]} has these letters of the {given.board.me}; lasso: {verdict}",
            "",
        ]
    ))
    return 0


def played(play):
    if not play.hold_out(LONGEST):
        raise Refused(f"the play has {LONGEST:,} steps and no end")
    return True


def judged(play, text):
    """The program's answer to the question whether the automaton accepts the word of the play. An error is raised
    unless the program's answer means that the circuit's player wins."""
    flags = [ENV.name] if play.board.board.winner == 1 else []
    given = " ".join(["lasso", *flags]) + f"\n{text}%%\n"
    answer = program.ask(
        given.encode("utf-8", "surrogateescape") + play.board.circuit.text + b"%%\n" + play.stimulus().encode()
    )
    wanted = ("accepted", "rejected")[play.board.board.winner]
    if answer.died or not answer.text.startswith(wanted):
        raise Unwritten(f"lasso of this play: {answer.died or answer.text.rstrip()}, where {wanted} was to be expected")
    return answer.text.rstrip("\n")
