"""Reads the files of an interactive play (`tools/psyn play`): PREFIX.aag, PREFIX.pg and PREFIX.cert, which psyn
printed, and the specification."""
import os
from dataclasses import dataclass, replace

from psyntool import program
from psyntool.command import QUIET
from psyntool.ends import Refused
from psyntool.files import Reader, Text, joined
from psyntool.kinds import Kind, kind_of_file
from psyntool.parts import specification as specifications
from psyntool.parts.composing import Composer
from psyntool.plays.board import Board
from psyntool.texts import Unreadable, automaton, certificate, circuit, game

ENDINGS = (".aag", ".pg", ".cert")
KINDS = (Kind.CIRCUIT, Kind.GAME, Kind.CERTIFICATE)


@dataclass(frozen=True)
class Given:
    """The automaton's text; the texts of circuit, game and certificate; the specification's text as it was given; and
    the `Board` that is made of them."""

    automaton: str
    printed: tuple
    specification: Text
    board: Board


def given(request, text=None):
    """The files that the words PREFIX and SPEC of a command line name. The automaton's text may be known."""
    prefix, path = request.words
    reader = Reader(request)
    *printed, spec = reader.texts((*KINDS, Kind.FILE), (*(prefix + ending for ending in ENDINGS), path))
    text = text or automaton_of(reader, spec, request.command.name)
    return Given(text, tuple(printed), spec, board_of(text, *(it.string for it in printed), name=spec.name))


def specification(request):
    """The text of SPEC if it is a specification in temporal logic, else None."""
    path = request.words[1]
    return Reader(request).text(Kind.SPECIFICATION, path) if kind_of_file(path) is Kind.SPECIFICATION else None


def board_of(text, *printed, name="", known_by="synth"):
    """The `Board` of an interactive play, made of the texts of an automaton, a circuit, a game and a certificate. The
    automaton's name is put before the message of a specification that can't be parsed. The circuit is known to win by a
    command of the program."""
    read = automaton.read(text)
    these = game.read(printed[1]), certificate.read(printed[2]), circuit.read(printed[0])
    try:
        return Board(read, *these, specifications.kept(read), known_by)
    except specifications.NotComposed as error:
        raise Unreadable(f"{name}: {error}") from None


def automaton_beside(request):
    """The text of the automaton in PREFIX.hoa, with the sentences of SPEC, if its game and its certificate are there
    too, and `agree` finds that it accepts exactly the words that satisfy SPEC, a specification in temporal logic; else
    None."""
    prefix, path = request.words
    if not all(os.path.exists(prefix + ending) for ending in (".hoa", *ENDINGS[1:])):
        return None
    from psyntool import specifying
    from psyntool.parts import translated

    # the files are read again, and what is changed in them is told then
    quiet = replace(request, given={**request.given, QUIET.name: True})
    texts = Reader(quiet).texts((Kind.SPECIFICATION, Kind.AUTOMATON), (path, f"{prefix}.hoa"))
    if program.ask(joined("agree", [], texts)).bytes != b"agrees\n":
        return None
    return translated.with_sentences(texts[1].string, specifying.read(texts[0]))


def automaton_of(reader, text, command, request=None):
    """The automaton's text; for a list of parts or sentences, the text of the automaton that is composed of them, or of
    psyn's own automaton for sentences that can't all be parts. If these say that the controller moves first, a given
    request has the flag that says so."""
    if text.looks_like is Kind.SPECIFICATION:
        from psyntool.parts import translated

        return translated.automaton_of(reader, text, request)[0]
    if text.looks_like is Kind.LIST:
        return Composer(specifications.of_list(text, reader, request)).composed().text()
    if text.looks_like is not Kind.AUTOMATON:
        what = text.looks_like.with_article if text.looks_like else "no automaton" if text.bytes.strip() else "empty"
        raise Refused(f"{text.name} is {what}; {command} wants PREFIX and a specification")
    return text.string
