"""`page`: an HTML page on which a user plays against the circuit that psyn printed, with pictures, what is proved, and
links that save the texts."""
import os

from psyntool import asking, console, files, outputs, program, remarks
from psyntool.command import CIRCUIT, ENV, FULL, MOORE, PARTS, STRICT
from psyntool.ends import Refused, Unwritten
from psyntool.files import Reader
from psyntool.kinds import Kind, kind_of_file
from psyntool.pages import writing
from psyntool.parts import specification, translated
from psyntool.parts.composing import Composer
from psyntool.plays import opponents, reading
from psyntool.texts import report

# Of an automaton with more states than this, standard error says at once that it is not drawn. A smaller one may be too
# large for a picture too, as the page then says.
MANY = 200


def run(request):
    if request.has(PARTS):
        return of_parts(request)
    request.refuse_without(STRICT, PARTS)
    if request.has(CIRCUIT):
        return of_circuit(request, request.value(CIRCUIT), request.words[0] if request.words else "-")
    prefix, spec = request.words
    beside = None
    if kind_of_file(spec) is Kind.SPECIFICATION:
        beside = reading.automaton_beside(request)
        if beside is None:
            return of_circuit(request, f"{prefix}.aag", spec)
    request.refuse_without(MOORE, PARTS)
    given = reading.given(request, beside)
    tell_what_is_not_drawn(request, len(given.board.automaton.states))
    given = opponents.smaller(judged(given))
    prefix = os.path.basename(prefix)
    texts = texts_of(given, prefix)
    kind = given.specification.looks_like
    name = f"{prefix}.{kind.endings[0]}" if request.words[1] == "-" else os.path.basename(request.words[1])
    texts.append(("specification", name, given.specification.bytes))
    if kind in (Kind.LIST, Kind.SPECIFICATION):
        title = "automaton of its parts" if kind is Kind.LIST else "automaton"
        texts.append((title, f"{prefix}.hoa", given.automaton.encode("utf-8", "surrogateescape")))
    console.write_text(writing.page(prefix, given.board, texts))
    return 0


def texts_of(given, prefix):
    """The circuit, the game and the certificate, as the page has links to them."""
    return [
        (kind.title, prefix + ending, text.bytes)
        for kind, ending, text in zip(reading.KINDS, reading.ENDINGS, given.printed)
    ]


def tell_what_is_not_drawn(request, count):
    if count > MANY and not request.quiet:
        console.tell(
            f"the automaton has {count:,} states, too many for a picture: "
            "the page draws what is around the present state"
        )


def of_parts(request):
    """Composes the parts of a list, runs the program on the composed automaton, and prints a page that is made from the
    program's answer. If the answer is a fault or was cut off, prints and explains the answer instead."""
    text, composer = wanted(request)
    tell_what_is_not_drawn(request, text.count("\nState: "))
    whole = files.Text(Kind.AUTOMATON, "the automaton of these parts", text.encode("utf-8", "surrogateescape"))
    answer = program.ask(files.joined("synth", [*request.passed, FULL.name], [whole]))
    if not asking.is_had(answer):
        console.write(answer.bytes)
        return asking.told(request, [whole], answer)
    printed = report.read(answer.bytes.decode("utf-8", "surrogateescape")).parts
    name = "parts" if request.words[0] == "-" else os.path.splitext(os.path.basename(request.words[0]))[0]
    stored = (printed[0] + outputs.CIRCUIT_ENDING, *printed[1:])
    texts = tuple(
        files.Text(kind, kind.title, part.encode("utf-8", "surrogateescape"))
        for kind, part in zip(reading.KINDS, stored)
    )
    given = opponents.smaller(reading.Given(text, texts, whole, reading.board_of(text, *printed)))
    console.write_text(
        writing.page(name, given.board, [*texts_of(given, name), ("specification", f"{name}.hoa", whole.bytes)])
    )
    if answer.status == 10 and not request.quiet:
        console.tell(*(remarks.failing(composer, request.passed) if composer else ()), *remarks.constants(answer))
    return 0


def wanted(request):
    """The automaton of a list of parts, with its composer; that of a specification in temporal logic, with a composer
    if all sentences are parts."""
    if len(request.words) == 1 and not request.has(STRICT) and kind_of_file(request.words[0]) is Kind.SPECIFICATION:
        reader = Reader(request)
        return translated.automaton_of(reader, reader.text(Kind.LIST, request.words[0]), request)
    composer = Composer(specification.asked(request))
    return composer.composed().text(), composer


def of_circuit(request, path, of):
    """The page of a circuit, in a file, without the game that psyn may have printed with it. The program makes the game
    of the automaton and its certificate, and judges the circuit."""
    reader = Reader(request)
    spec, made = reader.texts((Kind.FILE, Kind.CIRCUIT), (of, path))
    text = reading.automaton_of(reader, spec, request.command.name, request)
    whole = files.Text(Kind.AUTOMATON, spec.name, text.encode("utf-8", "surrogateescape"))
    tell_what_is_not_drawn(request, text.count("\nState: "))
    printed = [made]
    for command, kind in zip(("game", "cert"), reading.KINDS[1:]):
        answer = program.ask(files.joined(command, request.passed, [whole]))
        if not asking.is_had(answer):
            return asking.hand_on(request, [whole], answer)
        printed.append(files.Text(kind, kind.title, answer.bytes))
    board = reading.board_of(text, *(it.string for it in printed), name=spec.name, known_by="verify")
    refuse_losing(board, whole, made)
    given = reading.Given(text, tuple(printed), spec, board)
    given = given if request.has(CIRCUIT) else opponents.smaller(given)
    name = os.path.splitext(os.path.basename(path))[0]
    texts = [*texts_of(given, name), ("specification", f"{name}.hoa", whole.bytes)]
    console.write_text(writing.page(name, given.board, texts))
    return 0


def refuse_losing(board, whole, made):
    """Refuses a circuit that `verify` does not find to win."""
    flags = [*([ENV.name] if board.winner else []), *([] if board.game.vertices[0].owner else [MOORE.name])]
    answer = program.ask(files.joined("verify", flags, [whole, made]))
    if answer.died:
        raise Unwritten(f"verify of this circuit: {answer.died}")
    if answer.is_fault:
        raise Refused(f"{made.name}: verify answers to it: {answer.text.rstrip()}")
    if answer.bytes != b"wins\n":
        raise Refused(f"{made.name} loses, so there is no page of it: `verify` tells a counterexample")


def judged(given):
    """Given files, as a page shows them. A game that the program does not print for the given certificate is refused,
    since nothing is proved of it; another circuit is judged by `verify`."""
    flags = ["--cert", "--full", *([] if given.board.game.vertices[0].owner else ["--moore"])]
    specified = files.Text(Kind.AUTOMATON, given.specification.name, given.automaton.encode("utf-8", "surrogateescape"))
    answer = program.ask(files.joined("synth", flags, [specified, given.printed[2]]))
    if answer.died:
        raise Unwritten(f"synth by this certificate: {answer.died}")
    if answer.is_fault:
        raise Refused(f"{given.printed[2].name}: synth answers to it: {answer.text.rstrip()}")
    said = report.read(answer.bytes.decode("utf-8", "surrogateescape")).parts
    if given.printed[1].string != said[1]:
        raise Refused(
            f"{given.printed[1].name} is not what psyn prints for this certificate, so nothing is proved of it"
        )
    if given.printed[0].string.removesuffix(outputs.CIRCUIT_ENDING) == said[0]:
        return given
    given = opponents.with_circuit(given, given.printed[0], "verify")
    refuse_losing(given.board, specified, given.printed[0])
    return given
