"""One automaton for all sentences of a specification in temporal logic. It is composed of the sentences as parts. If
some sentence can't be a part, it is the program's translation of all, with items for those that can, and for the
others."""
from psyntool import asking, console, files, program, specifying
from psyntool.ends import Refused
from psyntool.parts import specification, spoken
from psyntool.parts.composing import Composer
from psyntool.parts.part import quoted

BEGIN = "HOA: v1\n"
SIDES = {True: "assume", False: "guarantee"}


def automaton_of(reader, text, request=None):
    """The automaton's text, and the composer if all sentences are parts, else None. If the controller moves first, a
    given request has the flag that says so."""
    wishes, basic = specification.Wishes(), specifying.read(reader.specification(text))
    reader.tell(text)
    wishes.is_moore = basic.is_moore
    try:
        specification.take_sentences(basic, wishes)
        composer = Composer(specification.made(wishes, reader))
        made = composer.composed().text()
    except Refused as error:
        composer, made = None, translation(text, basic, error)
        if not reader.settings.quiet:
            console.tell(
                f"{text.name}: {str(error).removesuffix(spoken.AS_A_WHOLE)}: one automaton of all sentences is shown"
            )
    if request:
        specification.pass_on_order(wishes, request)
    return made, composer


def translation(text, basic, error):
    """The text of the program's automaton for a specification, with its sentences."""
    answer = program.ask(files.joined("translate", [], [text]))
    if not asking.is_had(answer) or not answer.text.startswith(BEGIN):
        raise Refused(f"{text.name}: {error}; `translate` answers: {answer.died or answer.text.rstrip()}") from None
    return with_sentences(answer.text, basic)


def with_sentences(made, basic):
    """The text of a specification's automaton with items `part:` and `sentence:`."""
    parts, others = spoken.parts_among(basic)
    items = [("part:", SIDES[is_assumed], *it.item) for is_assumed, it in parts]
    items += [("sentence:", SIDES[is_assumed], title) for is_assumed, title in others]
    lines = [" ".join([item, *map(quoted, words)]) for item, *words in items]
    return BEGIN + "".join(f"{line}\n" for line in lines) + made.removeprefix(BEGIN)
