"""Specifications in temporal logic among the texts of a command: one in TLSF's full form is written out in the basic
form, which the program reads."""
import dataclasses
import re

from psyntool import asking, files, marking, program
from psyntool.command import ASSUME, FORMULA, GUARANTEE, INS, MOORE, OUTS, SET, STRICT, TLSF
from psyntool.ends import Refused
from psyntool.kinds import Kind
from psyntool.tlsf import expanding, spoken
from psyntool.tlsf.reading import NAME, is_in_full_form
from psyntool.tlsf.tokens import ENCODING, Wrong

# Stands behind the name of a file whose text was written out.
WRITTEN_OUT = " (written out)"


def settings_of(request):
    """The parameters that the command line sets, with their values."""
    settings = {}
    for _, said in request.value(SET) or ():
        found = re.fullmatch(r"([A-Za-z_][A-Za-z0-9_'@]*)=(\d{1,18})", said, re.A)
        if not found:
            raise Refused(f"{SET.shown}: {said!r} is no NAME=VALUE, where VALUE is a number of at most 18 digits")
        if found[1] in settings:
            raise Refused(f"{SET.shown}: {found[1]} is set twice")
        settings[found[1]] = int(found[2])
    return settings


def basic(text, settings):
    """The specification that a text describes, in the basic form; what is wrong with the text is told with its line and
    column. The text is to tell how its mixes of operators were read."""
    try:
        made = expanding.basic(text.bytes.decode(ENCODING), settings)
        text.told += [f"{text.name}: {made.rewritten}"] if made.rewritten else []
        for offset, said in made.grouped:
            row, _ = marking.line_and_column(text.original, text.place_in_file(offset))
            text.told.append(f"{text.name}:{row}: read as TLSF groups it: {said}")
        return made
    except Wrong as error:
        row, column = marking.line_and_column(text.original, text.place_in_file(error.offset))
        raise Refused(f"{text.name}:{row}:{column}: {error}") from None
    except expanding.Unset as error:
        raise Refused(f"{text.name}: {SET.shown}: {error}") from None


def write_out(text, request):
    """Writes a text in the full form out in the basic form, once. A text in the basic form, and one in neither form,
    stays as it is, so that the program finds what is wrong with it."""
    if text.basic is not None:
        return
    settings = settings_of(request)
    if not settings and (text.looks_like is not Kind.SPECIFICATION or not is_in_full_form(text.bytes.decode(ENCODING))):
        return
    text.basic = basic(text, settings)
    text.become(text.basic.text().encode(ENCODING), text.name + WRITTEN_OUT)


def first_answer(request, text):
    """The program's answer of `synth` to a specification, which the tool is about to ask about further ones that it
    makes of its sentences; None if it is no verdict, which is then handed on, with the exit status."""
    answer = program.ask(files.joined("synth", [TLSF.name], [text]))
    if asking.is_had(answer):
        read(text)
        return answer, answer.status
    return None, asking.hand_on(request, [text], answer)


def read(text):
    """The specification of a text; what is wrong with the text is told with its line and column."""
    text.basic = text.basic or basic(text, {})
    return text.basic


def basic_of(text):
    """The specification of a text that the program has read, or None if the tool can't read it."""
    if text.basic is None:
        try:
            text.basic = expanding.basic(text.bytes.decode(ENCODING), {})
        except Wrong:
            return None
    return text.basic


def of_sentences(request):
    """The text of the specification whose sentences the command line has."""
    said = sorted(
        (place, SECTION_OF[flag.name], text)
        for flag in (ASSUME, GUARANTEE, FORMULA)
        for place, text in request.value(flag) or ()
    )
    inputs, outputs = (
        None if request.value(flag) is None else [name for _, name in request.value(flag)] for flag in (INS, OUTS)
    )
    refuse_names(inputs or [], outputs or [])
    if outputs is None:
        raise Refused(f"{request.command.name} of sentences wants {OUTS.shown}, the controller's propositions")
    sections = [(word, text) for _, word, text in said]
    try:
        read, text = spoken.read(sections, inputs, outputs, request.has(MOORE), request.has(STRICT))
        made = expanding.of_specification(read, text, {})
    except Wrong as error:
        raise Refused(placed([text for _, text in sections], error)) from None
    made = dataclasses.replace(made, sentences=tuple(dataclasses.replace(one, row=0) for one in made.sentences))
    found = files.Text(Kind.SPECIFICATION, "the specification of these sentences", made.text().encode(ENCODING))
    found.basic = made
    return found


SECTION_OF = {ASSUME.name: "ASSUME", GUARANTEE.name: "GUARANTEE", FORMULA.name: "GUARANTEE"}


def refuse_names(inputs, outputs):
    """Refuses words that can't be names of propositions, and a name that stands twice."""
    for flag, names in ((INS, inputs), (OUTS, outputs)):
        for name in names:
            if not NAME.fullmatch(name):
                raise Refused(
                    f"{flag.shown}: {name!r} is no name of a proposition; names stand with blanks between them"
                )
            if [*inputs, *outputs].count(name) > 1:
                raise Refused(f"{flag.shown}: {name} stands twice in {INS.name} and {OUTS.name}")


def placed(texts, error):
    """What is wrong with one of several sentences, with this sentence and the column."""
    begin = 0
    for text in texts[:-1]:
        if error.offset <= begin + len(text):
            return f"{text!r}: column {error.offset - begin + 1}: {error}"
        begin += len(text) + 1
    return f"{texts[-1]!r}: column {error.offset - begin + 1}: {error}"
