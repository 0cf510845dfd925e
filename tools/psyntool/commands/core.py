"""`core`: if a specification in parts, or in sentences, has no controller, the guarantees that conflict; otherwise the
assumptions that a controller needs."""
from psyntool import console, cores, files, outputs, program, remarks
from psyntool.command import TLSF, TO_FILE
from psyntool.kinds import Kind
from psyntool.parts import specification
from psyntool.parts.composing import Composer
from psyntool.texts import circuit, report

STATUS = {True: 10, False: 20}
WORD = {True: "REALIZABLE", False: "UNREALIZABLE"}


def run(request):
    if request.has(TLSF):
        return run_on_sentences(request)
    paths, prefix = [], request.value(TO_FILE)
    if prefix is not None:
        paths = outputs.own(request, [f"{prefix}.hoa"], TO_FILE.shown, prefix)
    asked = specification.asked(request)
    outputs.refuse_read(request, paths)
    composer = Composer(asked)
    found = cores.core_of(cores.of_parts(composer, request.passed))
    if paths:
        outputs.write_all({paths[0]: Composer(found.specification).composed().text()})
    console.write_text("\n".join([WORD[found.has_controller], head(found), *rows(found.parts), ""]))
    if not request.quiet:
        console.tell(
            *(
                remarks.failing(composer, request.passed)
                if found.has_controller
                else defeat(found.specification, request.passed)
            )
        )
    return STATUS[found.has_controller]


def run_on_sentences(request):
    """Runs `core` on a specification in temporal logic. With -o, the sentences that are listed go to PREFIX.tlsf."""
    from psyntool import specifying
    from psyntool.tlsf.sides import sides_of
    from psyntool.tlsf.tokens import ENCODING

    paths, prefix = [], request.value(TO_FILE)
    if prefix is not None:
        paths = outputs.own(request, [f"{prefix}.tlsf"], TO_FILE.shown, prefix)
    [text] = request.texts()
    outputs.refuse_read(request, paths)
    answer, status = specifying.first_answer(request, text)
    if answer is None:
        return status
    asking = cores.of_sentences(sides_of(text.basic))
    found = cores.core_of(asking)
    if paths:
        outputs.write_all({paths[0]: found.specification.text().encode(ENCODING)})
    console.write_text("\n".join([WORD[found.has_controller], head(found), *sentences(found.parts), ""]))
    if not request.quiet:
        answer = asking.answer(found.specification.assumptions, found.specification.guarantees)
        made = circuit.read(report.read(answer.text).parts[0])
        whole = found.specification.whole
        console.tell(*(remarks.breaking(whole, made) if found.has_controller else remarks.words_of(made)))
    return STATUS[found.has_controller]


def sentences(those):
    """A line for each sentence, with the line of the file on which it begins."""
    places = [f"line {one.row}" if one.row else one.word.lower() for one in those]
    width = max(map(len, places), default=0)
    return [f"  {place:<{width}}  {one.said}" for place, one in zip(places, those)]


def defeat(specification, passed):
    """What defeats every controller of a specification that has none, if words can tell it."""
    whole = files.Text(
        Kind.AUTOMATON,
        "the automaton of these parts",
        Composer(specification).composed().text().encode("utf-8", "surrogateescape"),
    )
    return remarks.defeat(whole, program.ask(files.joined("synth", passed, [whole])), passed)


def head(found):
    """The line above the list of parts, which says what the listed parts are."""
    many = len(found.parts) > 1
    if not found.has_controller:
        said = "these guarantees conflict, and none of them can be left out" if many else "this guarantee can't be kept"
        return f"{'under all assumptions ' if found.specification.assumptions else ''}{said}:"
    if not found.parts:
        return "there is a controller without any assumption"
    return (
        "these assumptions suffice, and none of them can be left out:"
        if many
        else "this assumption suffices, and can't be left out:"
    )


def rows(parts):
    """A line for each part, with its name and with the sentence that describes it."""
    width = max((len(part.title) for part in parts), default=0)
    return [f"  {part.title:<{width}}  {part.sentence}".rstrip() for part in parts]
