"""`show`: a picture of a game, of an automaton or of a circuit, as Graphviz DOT; or the table of a circuit."""
from psyntool import console
from psyntool.command import REACH, TABLE
from psyntool.ends import Refused
from psyntool.kinds import Kind
from psyntool.pictures import automata, circuits, games
from psyntool.texts import automaton, certificate, circuit, game, in_unicode, report, solution

READERS = {
    Kind.GAME: game.read,
    Kind.CERTIFICATE: certificate.read,
    Kind.AUTOMATON: automaton.read,
    Kind.CIRCUIT: circuit.read,
    Kind.SOLUTION: solution.read,
}
WANTED = (
    "show draws a game, a game and its certificate or solution, with both the automaton behind them, an automaton, "
    "or a circuit"
)


def parts_of(text):
    """The texts in a file, each with its kind. Of the texts in an answer of `synth`, only the last two are taken: the
    game and its certificate."""
    if text.kind is not Kind.ANSWER:
        return [(text.kind, text.string)]
    parts = report.read(text.string).parts
    kinds = (Kind.CIRCUIT, Kind.GAME, Kind.CERTIFICATE)
    return list(zip(kinds, parts))[-2:]


def composed(request, text):
    """The automaton of a list of parts or of a specification in temporal logic; another text stays as it is."""
    if text.kind not in (Kind.LIST, Kind.SPECIFICATION):
        return text
    from psyntool.files import Reader, Text
    from psyntool.plays import reading

    made = reading.automaton_of(Reader(request), text, request.command.name)
    return Text(Kind.AUTOMATON, text.name, made.encode("utf-8", "surrogateescape"))


def run(request):
    texts = [composed(request, text) for text in request.texts()]
    parts = [part for text in texts for part in parts_of(text)]
    strange = next(
        (text for text in texts if text.kind is Kind.FILE or text.kind not in READERS and text.kind is not Kind.ANSWER),
        None,
    )
    if strange:
        what = "no text of a kind that psyn knows" if strange.kind is Kind.FILE else strange.kind.with_article
        raise Refused(f"{strange.name} is {what}; {WANTED}")
    kinds = [kind for kind, _ in parts]
    twice = next((kind for place, kind in enumerate(kinds) if kind in kinds[:place]), None)
    if twice:
        raise Refused(f"there is {twice.with_article} twice; {WANTED}")
    found = {kind: READERS[kind](text) for kind, text in parts}
    if request.has(TABLE):
        console.write_text(in_unicode(tabled(request, found)))
        return 0
    console.write_text(in_unicode(drawn(found, request.number(REACH))))
    return 0


def tabled(request, found):
    """The table of a circuit."""
    from psyntool import machines

    form = machines.FORMS.get(request.value(TABLE))
    if not form:
        raise Refused(f"{TABLE.shown}: {request.value(TABLE)!r} is none of {', '.join(machines.FORMS)}")
    if set(found) != {Kind.CIRCUIT} or request.has(REACH):
        raise Refused(f"show {TABLE.name} is for a circuit" + f", without {REACH.name}" * request.has(REACH))
    return form(machines.machine_of(found[Kind.CIRCUIT]))


def drawn(found, reach):
    """The picture of the parsed texts; `found` maps each kind to its text, and the kinds decide what is drawn."""
    if Kind.GAME in found and Kind.CIRCUIT not in found and not {Kind.CERTIFICATE, Kind.SOLUTION} <= set(found):
        return games.picture(
            found[Kind.GAME], found.get(Kind.CERTIFICATE) or found.get(Kind.SOLUTION), found.get(Kind.AUTOMATON), reach
        )
    if set(found) == {Kind.AUTOMATON}:
        return automata.picture(found[Kind.AUTOMATON], reach)
    if set(found) == {Kind.CIRCUIT}:
        return circuits.picture(found[Kind.CIRCUIT], reach)
    raise Refused(f"there is no picture of {' and '.join(kind.with_article for kind in found)}; {WANTED}")
