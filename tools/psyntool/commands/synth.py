"""`synth`: a circuit for an automaton, for a specification in parts, or for one in temporal logic. With -o, the
circuit, the game and the certificate go to separate files, of temporal logic the circuit alone or, with --automaton,
all; with --small, the circuit is made smaller; with --by, another solver solves the game."""
from psyntool import asking, console, files, outputs, program, signals
from psyntool.command import (
    AIG, AUTOMATON, BY, CERT, CHECK, FULL, KEEP, MOORE, OF_PARTS, PARTS, PICTURE, SMALL, TLSF, TO_FILES
)  # fmt: skip
from psyntool.ends import FAULT, Refused, TimeUp
from psyntool.kinds import Kind
from psyntool.texts import Unreadable, binary, circuit, report

ENDINGS = (".aag", ".pg", ".cert")
NOT_TRANSLATED = b"fault 75 "
# Stands in place of the first newline of an automaton that `translate` printed, when it goes to a file.
TRANSLATED = b'\ntool: "psyn translate"\n'


# The exit statuses with --check, for `make`.
CHECKED = {10: 0, 20: 1}


def run(request):
    status = answered(request)
    return CHECKED.get(status, status) if request.has(CHECK) else status


def answered(request):
    """Runs the command, and returns the exit status without --check."""
    request.refuse_without(PICTURE, BY)
    request.refuse_without(KEEP, BY)
    request.refuse_without(AUTOMATON, TO_FILES)
    request.refuse_without(AUTOMATON, TLSF)
    if any(request.has(flag) for flag in (PARTS, *OF_PARTS)) and not request.has_sentences:
        return run_on_parts(request)
    if request.has(TLSF):
        return run_on_specification(request)
    paths = paths_of(request, ENDINGS) if request.has(TO_FILES) else []
    if not paths and not request.has(BY):
        return hand_on(request, request.texts())
    solving, texts = Solving(request) if request.has(BY) else None, request.texts()
    outputs.refuse_read(request, paths)
    return solving.run(texts, paths, {}) if solving else to_files(request, texts, paths, {})


def run_on_specification(request):
    """Runs `synth` on a specification in temporal logic, of which the circuit alone is printed. With -o it goes to a
    file, as sentences of the command line do, and with --automaton so do the automaton that `translate` prints, its
    game and its certificate."""
    if not request.has(TO_FILES):
        return hand_on(request, request.texts())
    endings = [".aag", *[".pg", ".cert", ".hoa"] * request.has(AUTOMATON), *[".tlsf"] * request.has_sentences]
    paths = paths_of(request, endings)
    texts = request.texts()
    outputs.refuse_read(request, paths)
    others = {path: texts[0].bytes for path in paths[-1:] if request.has_sentences}
    if request.has(AUTOMATON):
        return with_automaton(request, texts, paths[:4], others)
    return to_files(request, texts, paths[:1], others)


def with_automaton(request, texts, paths, others):
    """Writes the circuit, the game and the certificate of the automaton of a specification, and this automaton. Where
    none is found, only a circuit is written."""
    from psyntool.texts import specification

    answer = program.ask(files.joined("translate", [], texts))
    if answer.bytes.startswith(NOT_TRANSLATED):
        status = to_files(request, texts, paths[:1], others)
        if status != FAULT:
            console.tell(
                f"no automaton is printed (fault 75 of translate), so of the circuit's files only {paths[0]} is written"
            )
        return status
    if not asking.is_had(answer):
        return asking.hand_on(request, texts, answer)
    made = answer.bytes.replace(b"\n", TRANSLATED, 1)
    whole = files.Text(Kind.AUTOMATON, "the automaton of this specification", made)
    flags = [MOORE.name] if specification.is_moore(texts[0].string) else []
    return to_files(request, [whole], paths[:3], {paths[3]: made, **others}, flags, texts[0])


def run_on_parts(request):
    """Runs `synth` on a specification in parts."""
    from psyntool.parts import specification
    from psyntool.parts.composing import Composer

    if request.has(CERT):
        raise Refused(f"{CERT.name} is for an automaton: compose makes one of parts")
    paths = paths_of(request, (*ENDINGS, ".hoa")) if request.has(TO_FILES) else []
    solving = Solving(request) if request.has(BY) else None
    asked = specification.asked(request)
    outputs.refuse_read(request, paths)
    composer = Composer(asked)
    whole = composer.composed()
    texts = [
        files.Text(Kind.AUTOMATON, "the automaton of these parts", whole.text().encode("utf-8", "surrogateescape"))
    ]
    others = {path: whole.text() for path in paths[-1:]}
    if solving:
        return solving.run(texts, paths[:-1], others, composer)
    if paths:
        return to_files(request, texts, paths[:-1], others, composer=composer)
    return hand_on(request, texts, composer=composer)


def hand_on(request, texts, flags=None, composer=None):
    """Prints the program's answer, and remarks on it; of parts, with their composer."""
    given = files.joined("synth", request.passed if flags is None else flags, texts)
    answer = smaller(request, texts[0], program.ask(given), request.passed)
    if not answer.died:
        console.write(in_binary(answer.bytes) if request.has(AIG) and not answer.is_fault else answer.bytes)
    status = asking.told(request, texts, answer)
    remark(request, texts[0], answer, composer)
    return status


def in_binary(answer):
    """An answer with its circuit in binary AIGER."""
    word, newline, text = answer.partition(b"\n")
    return word + newline + binary.binary_form(circuit.read(text.decode("utf-8", "surrogateescape")))


def smaller(request, text, answer, passed):
    """The answer with a smaller circuit if the request asks for it."""
    if not request.has(SMALL):
        return answer
    from psyntool import shrinking

    return shrinking.in_answer(request, text, answer, passed)


def remark(request, text, answer, composer=None):
    """Remarks on an answer. Where no time is left for one, the answer is without it."""
    if request.quiet or signals.pending or not asking.is_had(answer):
        return
    try:
        tell_remarks(request, text, answer, composer)
    except TimeUp:
        pass


def tell_remarks(request, text, answer, composer):
    """Tells first whether a controller can make assumptions fail; then names outputs of a controller that never change,
    and inputs that a smaller one does not need; of parts, tells what an environment does, and of sentences, which names
    look like slips."""
    from psyntool import remarks

    basic = None
    if request.has(TLSF):
        from psyntool import specifying

        basic = specifying.basic_of(text)
        console.tell(*remarks.breaking(basic, remarks.controller_of(answer)))
    if composer and answer.status == 10:
        console.tell(*remarks.failing(composer, request.passed))
    console.tell(*remarks.constants(answer), *(remarks.unread(answer) if request.has(SMALL) else []))
    console.tell(*(remarks.defeat(text, answer, request.passed) if composer else []))
    if basic:
        from psyntool.tlsf import sanity

        console.tell(*sanity.Sanity(basic).of_names())


class Solving:
    """A run of `synth` in which another solver solves the game."""

    def __init__(self, request):
        from psyntool import judging, solvers

        if request.has(CERT):
            raise Refused(
                f"{CERT.name} and {BY.name} can't stand together: "
                "the certificate is that of the other solver's solution"
            )
        self.request = request
        self.picture = judging.path_of(request)
        self.solver = solvers.Solver(request)

    def run(self, texts, paths, others, composer=None):
        """Prints the answer of `synth` for the certificate that is made from the other solver's solution; explains the
        error of a wrong solution."""
        request = self.request
        outputs.refuse_read(request, filter(None, [self.picture]))
        game = program.ask(files.joined("game", [name for name in request.passed if name == MOORE.name], texts))
        if not asking.is_had(game):
            return asking.hand_on(request, texts, game)
        solved, certificate = self.solver.judged(files.Text(Kind.GAME, "the game of this automaton", game.bytes))
        if not asking.is_had(certificate):
            from psyntool.texts import automaton

            return self.solver.hand_on(
                solved, certificate, self.picture, automaton.read(texts[0].string) if self.picture else None
            )
        given = [*texts, files.Text(Kind.CERTIFICATE, f"the certificate of {self.solver.name}", certificate.bytes)]
        flags = [CERT.name, *request.passed]
        if paths:
            return to_files(request, given, paths, others, flags, composer=composer)
        return hand_on(request, given, flags, composer)


def paths_of(request, endings):
    prefix = request.value(TO_FILES)
    endings = [".aig" if ending == ".aag" and request.has(AIG) else ending for ending in endings]
    return outputs.own(request, [prefix + ending for ending in endings], TO_FILES.shown, prefix)


def to_files(request, texts, paths, others, passed=None, spec=None, composer=None):
    """Writes the circuit, the game, the certificate and other given texts to files, and then prints the first line of
    the answer. The automaton may be that of a specification, which is then given too."""
    passed = request.passed if passed is None else passed
    full = [FULL.name] if len(paths) == len(ENDINGS) else []
    answer = program.ask(files.joined("synth", list(dict.fromkeys([*passed, *full])), texts))
    answer = smaller(request, texts[0], answer, passed)
    if answer.is_fault:
        return asking.hand_on(request, texts, answer)
    if answer.died:
        return asking.told(request, texts, answer)
    status = stored(answer, paths, others)
    remark(request, spec or texts[0], answer, composer)
    return status


def stored(answer, paths, others):
    try:
        said = report.read(answer.bytes.decode("utf-8", "surrogateescape"))
    except Unreadable:
        said = None
    if not said or len(said.parts) != len(paths):
        console.tell("psyn: the answer is none of `synth --full`, so no file is written")
        return FAULT
    made = said.parts[0]
    if paths[0].endswith(".aig"):
        made = binary.binary_form(circuit.read(made)).decode("utf-8", "surrogateescape")
    outputs.write_all({**dict(zip(paths, (made + outputs.CIRCUIT_ENDING, *said.parts[1:]))), **others})
    console.write_text(said.word + "\n")
    return answer.status
