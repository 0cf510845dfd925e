"""What `verilog` and `c` share: a circuit that is written in another language, and only if it wins, where there is a
specification; each output then has the sentences that mention it."""
import os

from psyntool import asking, console, files, program, remarks, unmentioned
from psyntool.command import ENV, MOORE, SVA, TLSF, wrong_kinds
from psyntool.ends import FAULT, Refused
from psyntool.files import Reader, Text
from psyntool.kinds import Kind
from psyntool.parts import specification
from psyntool.parts.composing import Composer
from psyntool.specifying import WRITTEN_OUT
from psyntool.texts import automaton, circuit

WINS = b"wins\n"


def run(request, what, text_of):
    """Prints what a function makes of the circuit, its title, the lines of a comment, and the sentences about each
    output; with --sva of the specification too."""
    given = Given(request)
    answer = program.ask(given.question)
    if not asking.is_had(answer):
        # only the text may go to standard output, so a fault goes to standard error
        console.tell(*([answer.text.rstrip("\n")] if answer.is_fault else []))
        return asking.told(request, given.texts, answer)
    if given.automaton and answer.bytes != WINS:
        console.tell(f"psyn: {given.circuit.name} loses, so there is no {what}: `verify` tells a counterexample")
        return FAULT
    name = os.path.basename(given.circuit.name)
    title = "circuit" if request.words[0] == "-" else os.path.splitext(name)[0]
    about = [f"Written by psyn {request.command.name} from {name}.", *given.judgement()]
    made = circuit.read(given.circuit.string)
    more = {"asserted": given.asserted()} if request.has(SVA) else {}
    console.write_text(text_of(made, title, about, given.sentences(), **more))
    if not request.quiet and not request.has(ENV):
        console.tell(*given.breaking(made))
    return 0


class Given:
    """The texts of a command line: a circuit, and perhaps a specification with its automaton."""

    def __init__(self, request):
        self.request = request
        self.automaton = self.composer = None
        if request.words.count("-") > 1:
            raise Refused("standard input can be one of the files only")
        if not request.words[1:] and request.passed:
            raise Refused(f"{request.command.name} {request.passed[0]} wants a specification, which says who wins")
        if request.has(SVA) and (request.has(ENV) or not request.words[1:]):
            raise Refused(f"{request.command.name} {SVA.name} is for a controller, and wants its specification")
        reader = Reader(request)
        self.circuit = reader.text(Kind.CIRCUIT, request.words[0])
        wrong = wrong_kinds(request.command, [self.circuit])
        if wrong:
            raise Refused(wrong)
        for path in request.words[1:]:
            self.specification = reader.text(Kind.FILE, path)
            self.automaton, self.composer = specification_of(self.specification, reader, request)
            if request.has(SVA) and self.automaton.kind is not Kind.SPECIFICATION:
                raise Refused(f"{request.command.name} {SVA.name} wants a specification in temporal logic")
            unmentioned.drop([self.automaton, self.circuit])
            reader.tell(self.circuit)

    @property
    def texts(self):
        return [self.automaton, self.circuit] if self.automaton else [self.circuit]

    @property
    def question(self):
        """What the program is asked: whether the circuit wins or, without a specification, only whether it is one."""
        if self.automaton:
            flags = [TLSF.name] if self.automaton.kind is Kind.SPECIFICATION else []
            return files.joined("verify", [*flags, *self.request.passed], self.texts)
        return files.joined("sim", [], [self.circuit, Text(Kind.STIMULUS, "no stimulus", b"")])

    def asserted(self):
        """The specification whose sentences become assertions."""
        from psyntool import specifying

        return specifying.read(self.automaton)

    def judgement(self):
        if not self.automaton:
            return []
        return [
            "psyn verify says that this circuit wins, "
            f"by {os.path.basename(self.specification.name).removesuffix(WRITTEN_OUT)}."
        ]

    def breaking(self, made):
        """Lines on the assumptions that the controller breaks, or of a list of parts, that a controller can break."""
        if self.composer:
            return remarks.failing(self.composer, self.request.passed)
        if not self.automaton or self.automaton.kind is not Kind.SPECIFICATION:
            return []
        from psyntool import specifying

        return remarks.breaking(specifying.basic_of(self.automaton), made)

    def sentences(self):
        """For each proposition that a sentence mentions, these sentences, as lines: of a controller the guarantees, and
        of an environment the assumptions."""
        found = {}
        for said, names in self.said():
            for name in names:
                lines = found.setdefault(name, [])
                lines += [line for line in [f"- {said}"] if line not in lines]
        return found

    def said(self):
        """The sentences of the circuit's player, each with the propositions that it mentions."""
        if not self.automaton:
            return []
        if self.automaton.kind is Kind.SPECIFICATION:
            from psyntool import specifying
            from psyntool.tlsf import keeping

            basic = specifying.basic_of(self.automaton)
            words = keeping.ASSUMED if self.request.has(ENV) else keeping.GUARANTEED
            return [(one.said, one.names) for one in (basic.sentences if basic else ()) if one.word in words]
        kept = specification.kept(automaton.read(self.automaton.string))
        parts = () if kept is None else kept.assumptions if self.request.has(ENV) else kept.guarantees
        return [(part.sentence or part.title, part.names) for part in parts]


def specification_of(text, reader, request):
    """The text by which the circuit is judged: an automaton, that of a list of parts, or a specification in temporal
    logic; and of a list its composer."""
    if text.looks_like is Kind.SPECIFICATION:
        if request.has(MOORE):
            raise Refused(f"{text.name} says itself who moves first, without {MOORE.name}")
        return reader.specification(text), None
    if text.looks_like is Kind.LIST:
        composer = Composer(specification.of_list(text, reader, request))
        made = composer.composed().text()
        return Text(Kind.AUTOMATON, text.name, made.encode("utf-8", "surrogateescape")), composer
    if text.looks_like is not Kind.AUTOMATON:
        what = text.looks_like.with_article if text.looks_like else "no automaton" if text.bytes.strip() else "empty"
        raise Refused(
            f"{text.name} is {what}; SPEC is an automaton, a list of parts or a specification in temporal logic"
        )
    return text, None
