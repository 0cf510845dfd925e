"""Remarks on an answer of `synth`: outputs of a controller that never change, inputs that it does not need, and
assumptions that a controller can make fail, so that it may not be the one that was wanted; and a small environment,
told in words."""
from psyntool import program
from psyntool.command import MOORE

# Of a longer text, constant outputs are not looked for.
LONGEST = 1 << 19
# A larger environment is not told in words, and neither is one that takes longer to be made small.
MOST_LATCHES, MOST_GATES, MOST_SECONDS = 4, 12, 20
DEFEATED = "whatever the controller does, this defeats it:"
# A play with more steps than this is not shown.
MOST_STEPS = 40


def constants(answer):
    """A line that names the outputs of an answer's circuit that never change, if the answer is a controller and has
    such outputs."""
    made = controller_of(answer)
    said = [f"{name} is {value}" for name, value in made.constants().items()] if made else []
    return [f"in this controller some outputs never change: {', '.join(said)}"] if said else []


def breaking(basic, made):
    """Lines on the assumptions of sentences that a controller's circuit breaks."""
    from psyntool.tlsf import breaking as of_sentences

    return of_sentences.lines(basic, made) if basic and made else []


def unread(answer):
    """A line that names the inputs on which no output depends, if the answer is a controller and has such inputs."""
    made = controller_of(answer)
    needed = made.needed_variables if made else ()
    said = [name for literal, name in zip(made.inputs, made.names("i")) if literal // 2 not in needed] if made else []
    return [f"no output of this controller depends on {', '.join(said)}"] if said else []


def controller_of(answer):
    """The circuit of an answer that has a controller; None for another answer or a long one."""
    from psyntool.texts import Unreadable, circuit, report

    if answer.status != 10 or len(answer.bytes) > LONGEST:
        return None
    try:
        return circuit.read(report.read(answer.text).parts[0])
    except Unreadable:
        return None


def defeat(automaton, answer, passed):
    """What an environment does that defeats every controller, if the answer is one and `shrink` makes it small enough
    for words."""
    from psyntool import limits, shrinking
    from psyntool.texts import circuit

    if answer.status != 20 or len(answer.bytes) > LONGEST:
        return []
    found = limits.briefly(MOST_SECONDS, shrinking.of_answer, automaton, answer, passed)
    return words_of(circuit.read(found.text)) if shrinking.is_circuit(found) else []


def words_of(made):
    """What the circuit of an environment does, if it is small enough for words."""
    from psyntool.equations import telling

    if len(made.latches) > MOST_LATCHES or len(made.gates) > MOST_GATES:
        return []
    return telling.lines(made, DEFEATED)


def failing(composer, passed):
    """If a controller can make the assumptions of a specification fail: lines with the assumptions that it can make
    fail, as few as possible, and with a play in which the environment keeps them as long as it can."""
    from psyntool import cores

    of, flags = composer.specification, [name for name in passed if name == MOORE.name]

    def can_fail(assumptions):
        return asked("synth", flags, composer, assumptions).status == 10

    if not of.assumptions or not can_fail(of.assumptions):
        return []
    parts = cores.shrunk(of.assumptions, can_fail)
    titles = " and ".join(it.title for it in parts)
    what = f"the assumption {titles} fail" if len(parts) == 1 else f"the assumptions {titles} fail together"
    return [
        f"a controller can make {what}, so this one may win without keeping the guarantees",
        *example(composer, flags, parts),
    ]


def example(composer, flags, parts):
    """A play against a controller that makes the assumptions fail."""
    from psyntool.parts import running
    from psyntool.plays import board, reading, telling
    from psyntool.plays.play import Play
    from psyntool.texts import report

    answer = asked("synth --full", flags, composer, parts)
    printed = report.read(answer.bytes.decode("utf-8", "surrogateescape")).parts
    made = reading.board_of(text_of(composer, parts), *printed)
    play = Play(board.Match(made, printed[0].encode("utf-8", "surrogateescape")))
    play.hold_out(board.LONGEST)
    runs = [running.run(moves, board.letters_of(play)) for moves in made.assumed]
    broken = [found.broke for found in runs if found.broke is not None]
    if broken:
        play.end_behind(min(broken))
    rows = telling.table(play) if len(play.steps) <= MOST_STEPS else [f"after {len(play.steps)} steps:"]
    return [
        "so it can play:",
        *rows,
        *(line for moves in made.assumed for line in telling.of_part(play, "assumption", moves)),
    ]


def text_of(composer, assumptions):
    """The automaton of the words in which one of the assumptions fails; with `--strict`, not behind a guarantee that
    broke before."""
    from psyntool.parts.composing import ASSUMPTIONS_FAIL

    guarantees = composer.specification.guarantees if composer.specification.is_strict else ()
    return composer.composed(assumptions, guarantees).text(ASSUMPTIONS_FAIL)


def asked(command, flags, composer, assumptions):
    head = " ".join([command, *flags]) + "\n"
    return program.ask((head + text_of(composer, assumptions)).encode("utf-8", "surrogateescape"))
