"""Finds a minimal set of parts, or of sentences, that decides whether there is a controller, by many runs of the
program."""
from dataclasses import dataclass

from psyntool import program
from psyntool.command import TLSF
from psyntool.ends import Unwritten
from psyntool.texts import report
from psyntool.tlsf.tokens import ENCODING


class Asking:
    """Whether a specification has a controller if only some of its parts, or sentences, are used. The program's answers
    are kept, so that it is asked only once about the same ones."""

    def __init__(self, specification, text, flags, what):
        """The function `text` gives the specification with some assumptions and guarantees, in bytes; `what` says what
        these are."""
        self.specification = specification
        self.text = text
        self.flags = flags
        self.what = what
        self.said = {}

    def has_controller(self, assumptions, guarantees):
        """Whether there is a controller for these assumptions and guarantees, as the program answers."""
        return self.answer(assumptions, guarantees).status == 10

    def answer(self, assumptions, guarantees):
        """The program's answer for these assumptions and guarantees."""
        asked = frozenset(map(id, assumptions)), frozenset(map(id, guarantees))
        if asked not in self.said:
            count = len(assumptions) + len(guarantees)
            self.said[asked] = answer_to(self.text(assumptions, guarantees), self.flags, count, self.what)
        return self.said[asked]


def answer_to(text, flags, count, what):
    """The program's answer to a specification of so many parts or sentences; it must be a verdict."""
    answer = program.ask(" ".join(["synth", *flags]).encode() + b"\n" + text)
    word = answer.text.partition("\n")[0]
    if answer.died or word not in report.WORDS:
        raise Unwritten(f"of {count} of the {what} together: {answer.died or word}")
    return answer


def of_parts(composer, flags=()):
    """Asks about the parts of a composer."""

    def text(*sides):
        return composer.composed(*sides).text().encode("utf-8", "surrogateescape")

    return Asking(composer.specification, text, flags, "parts")


def of_sentences(sides):
    """Asks about the sentences of a specification, which is given by its sides."""
    return Asking(sides, lambda *those: sides.having(*those).text().encode(ENCODING), [TLSF.name], "sentences")


@dataclass(frozen=True)
class Core:
    """Whether there is a controller, and a minimal set of parts that decides this. All parts of this set are
    assumptions if there is a controller, and guarantees otherwise."""

    has_controller: bool
    parts: tuple
    specification: object


def core_of(asking):
    """The core of a specification, a minimal set of parts that decides whether there is a controller. The function
    checks that the answer is the same with only the parts of the core, and changes if any one of them is left out."""
    of = asking.specification
    has_controller = asking.has_controller(of.assumptions, of.guarantees)

    def stays(parts):
        sides = (parts, of.guarantees) if has_controller else (of.assumptions, parts)
        return asking.has_controller(*sides) == has_controller

    parts = shrunk(of.assumptions if has_controller else of.guarantees, stays)
    if not stays(parts) or any(stays(without(parts, place, 1)) for place in range(len(parts))):
        raise Unwritten(
            "the answers of the program do not fit: with fewer parts of a side an answer came back that was gone"
        )
    return Core(has_controller, parts, of.having(parts, None) if has_controller else of.having(None, parts))


def shrunk(parts, stays):
    """Parts with which the answer is the same as with all parts, and none of which can be left out. Tries to leave out
    many successive parts at once, and then fewer and fewer; parts are left out if the answer stays the same without
    them."""
    parts, size = tuple(parts), max(1, len(parts) // 2)
    while size:
        place = 0
        while place < len(parts):
            fewer = without(parts, place, size)
            if stays(fewer):
                parts = fewer
            else:
                place += size
        size //= 2
    return parts


def without(parts, place, count):
    return parts[:place] + parts[place + count :]
