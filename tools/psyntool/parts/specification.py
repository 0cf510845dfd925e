"""Specifications in parts, read from a command line, from a list, or from a composed automaton."""
from __future__ import annotations

import dataclasses
import os
import re
import shlex
from dataclasses import dataclass, field

from psyntool import console, faults, marking, program, words
from psyntool.command import AS, ASSUME, GUARANTEE, MOORE, OF_PARTS, OF_SENTENCES, OUTS, STRICT, is_sentence
from psyntool.ends import Refused
from psyntool.files import Reader, Text
from psyntool.kinds import Kind
from psyntool.parts import part, slips
from psyntool.parts.part import NotComposed
from psyntool.texts import Unreadable, automaton, hoa

MOST_PROPOSITIONS = 64
# The number of strings in a header item `part:`: whether the part is assumed or guaranteed, its title, its sentence and
# its text.
WORDS_OF_AN_ITEM = 4
FLAGS = {flag.name: flag for flag in (*OF_PARTS, MOORE)}
# Signs of labels and of lists, which no new name of a proposition has, and words that are constants in labels.
NO_NAME = re.compile(r"(?:t|f|true|false|\d+)|.*[!&|()<>=,;\[\]{}\"].*", re.S)
# An empty circuit and an empty stimulus: the program reports a fault of the automaton before any fault of these two
# texts.
NO_CIRCUIT = b"aag 0 0 0 0 0\n%%\n-\n"
# The header item that is inserted into a part that does not say who controls its propositions.
OWNERS = b"controllable-AP: "
# The program's faults that the tool reports by messages of its own, which name the letter that two edges share, or the
# acceptance condition.
TOLD_BETTER = {"Nondeterministic", "NonParity"}


@dataclass(frozen=True)
class Specification:
    """A specification: its assumptions and guarantees, all propositions in order, and the controller's propositions;
    and, of a translated one, the sentences that are no parts, each with its side."""

    assumptions: tuple
    guarantees: tuple
    names: tuple
    mine: frozenset
    is_strict: bool
    others: tuple = ()

    def having(self, assumptions=None, guarantees=None):
        """The specification with only the given parts, but with all its propositions."""
        return dataclasses.replace(
            self,
            assumptions=self.assumptions if assumptions is None else tuple(assumptions),
            guarantees=self.guarantees if guarantees is None else tuple(guarantees),
        )


@dataclass
class Wish:
    """A part that the user asks for: whether it is assumed, its file, its sentence, the line of the list that names it
    (as the beginning of a message), and the new names of its propositions. A part that is a sentence in temporal logic
    has the sentence in the place of a file."""

    is_assumed: bool
    path: str
    sentence: str = ""
    place: str = ""
    renamed: dict = field(default_factory=dict)
    is_spoken: bool = False
    # the part, if it is known already
    made: part.Part | None = None


class Wishes:
    """The parts and settings that a command line, and a list that it names, ask for."""

    def __init__(self):
        self.parts = []
        self.outs = None
        self.is_strict = False
        self.is_moore = False
        # of a specification in temporal logic all names that it declares
        self.names = ()

    def take(self, given, words_listed=()):
        """Adds the parts and settings that the flags of a command line ask for, or those of a list with these words."""
        self.is_strict, self.is_moore = self.is_strict or STRICT.name in given, self.is_moore or MOORE.name in given
        said = sorted((place, name, word) for name in FLAGS if FLAGS[name].many for place, word in given.get(name, ()))
        count = len(self.parts)
        for place, name, word in said:
            of = words_listed[place] if words_listed else Word(word)
            if name == OUTS.name:
                self.outs = [*(self.outs or []), word]
            elif name == AS.name:
                refused_behind(of.place, self.rename, word, count)
            else:
                path = word if word == "-" else os.path.join(of.folder, word)
                is_spoken = is_sentence(word, of.folder)
                if re.fullmatch(r"[A-Za-z_]\w*", word) and not os.path.exists(path):
                    refused_behind(of.place, refuse_name, word)
                self.parts.append(
                    Wish(name == ASSUME.name, word if is_spoken else path, of.sentence, of.place, is_spoken=is_spoken)
                )

    def rename(self, word, count):
        """Renames a proposition of the last part, which must come from the same command line or list."""
        old, equals, new = word.partition("=")
        if not (old and equals and new):
            raise Refused(f"{AS.shown}: {word!r} is no OLD=NEW")
        if NO_NAME.fullmatch(new.removeprefix(part.NOT)) or new == part.NOT:
            raise Refused(f"{AS.shown}: {new!r} in {word} is no name of a proposition, and no name behind {part.NOT!r}")
        if len(self.parts) == count:
            raise Refused(f"{AS.shown}: {word} stands behind no part")
        if old in self.parts[-1].renamed:
            raise Refused(f"{AS.shown}: {old} of {self.parts[-1].path} is renamed twice")
        self.parts[-1].renamed[old] = new


@dataclass(frozen=True)
class Word:
    """A word of a list: its line as the beginning of a message, the list's folder, and the sentence above it."""

    text: str
    place: str = ""
    folder: str = ""
    sentence: str = ""


def listed(text, wishes):
    """Reads a list, which consists of words of a command line on several lines. A comment is the sentence that
    describes each part below it, up to an empty line or to the next comment."""
    said, comment, was_comment = [], [], False
    folder = "" if text.name == "standard input" else os.path.dirname(text.name)
    for row, line in enumerate(text.string.split("\n"), 1):
        bare = line.strip()
        if bare.startswith("#"):
            comment = [*(comment if was_comment else []), bare.lstrip("# ")]
        was_comment = bare.startswith("#")
        if was_comment or not bare:
            comment = comment if was_comment else []
            continue
        try:
            found = shlex.split(line, comments=True)
        except ValueError:
            raise Refused(f"{text.name}:{row}: a quote is not closed") from None
        said += [Word(word, f"{text.name}:{row}", folder, " ".join(comment)) for word in found]
    refuse_other_words(text.name, said)
    given, others = refused_behind(text.name, words.split, [word.text for word in said], FLAGS)
    if others:
        place = next(word.place for word in said if word.text == others[0])
        raise Refused(f"{place}: {others[0]!r} stands behind no flag; a list has {', '.join(FLAGS)}")
    wishes.take(given, said)


def refuse_other_words(name, said):
    """Refuses a text that does not begin with a flag, and so is no list, and a flag that no list has."""
    if said and not said[0].text.startswith("-"):
        raise Refused(
            f"{said[0].place}: {said[0].text!r} begins no list of parts: a list has {', '.join(FLAGS)}, "
            "as in `--guarantee part.hoa`"
        )
    for word in said:
        flag = word.text.partition("=")[0]
        if flag.startswith("-") and flag != "-" and flag not in FLAGS:
            raise Refused(
                f"{word.place}: a list has no flag {flag}{words.nearest(flag, FLAGS)}; it has {', '.join(FLAGS)}"
            )


def refuse_name(word):
    raise Refused(f"there is no file {word}; a sentence that is one name stands in parentheses, '({word})'")


def refused_behind(name, function, *values):
    """The result of a function; if the function refuses something, the name, which says where, is put before the
    message."""
    try:
        return function(*values)
    except Refused as error:
        raise Refused(f"{name}: {error}" if name else str(error)) from None


def asked(request):
    """The specification that a command line asks for. If a list says that the controller moves first, the request has
    the flag that says so."""
    reader, wishes = Reader(request), Wishes()
    for flag in OF_SENTENCES:
        if request.has(flag):
            raise Refused(
                f"{request.command.name} {flag.name} stands beside no parts: {GUARANTEE.name} takes a sentence, too, "
                f"and {OUTS.name} says whose the names are"
            )
    paths = list(request.words)
    for text in reader.texts([Kind.LIST] * len(paths), paths):
        if text.looks_like is Kind.SPECIFICATION:
            take_specification(text, reader, wishes)
            continue
        if text.looks_like not in (None, Kind.LIST):
            raise Refused(
                f"{text.name} is {text.looks_like.with_article}; {request.command.name} reads a list of parts"
            )
        listed(text, wishes)
    wishes.take(request.given)
    if not wishes.parts:
        raise Refused(f"{request.command.name} wants parts: {GUARANTEE.shown}, {ASSUME.shown}, or a list of them")
    if [*paths, *(wish.path for wish in wishes.parts)].count("-") > 1:
        raise Refused("standard input can be one of the files only")
    pass_on_order(wishes, request)
    return made(wishes, reader)


def take_specification(text, reader, wishes):
    """Adds the parts that the sentences of a specification in temporal logic are."""
    from psyntool import specifying

    name, basic = text.name, specifying.read(reader.specification(text))
    reader.tell(text)
    refused_behind(name, take_sentences, basic, wishes)


def take_sentences(basic, wishes):
    from psyntool.parts import spoken

    for is_assumed, made in spoken.parts_of(basic):
        wishes.parts.append(Wish(is_assumed, made.title, made=made))
    wishes.outs, wishes.names = [*(wishes.outs or []), *basic.outputs], (*wishes.names, *basic.inputs, *basic.outputs)
    wishes.is_moore = wishes.is_moore or basic.is_moore


def automaton_of_sentences(basic):
    """The text of the automaton that is composed of the parts that the sentences of a specification are."""
    from psyntool.parts.composing import Composer

    wishes = Wishes()
    take_sentences(basic, wishes)
    composed = Composer(of_wishes(wishes, [it.made for it in wishes.parts])).composed().text()
    return Text(Kind.AUTOMATON, "the automaton of these sentences", composed.encode("utf-8", "surrogateescape"))


def of_list(text, reader, request=None):
    """The specification that a list defines, or one in temporal logic. If the list says that the controller moves
    first, a given request has the flag that says so."""
    wishes = Wishes()
    if text.looks_like is Kind.SPECIFICATION:
        take_specification(text, reader, wishes)
    else:
        listed(text, wishes)
    if request:
        pass_on_order(wishes, request)
    return made(wishes, reader)


def pass_on_order(wishes, request):
    if wishes.is_moore and MOORE in request.command.flags:
        request.given[MOORE.name] = True


def made(wishes, reader):
    """The specification with the parts and settings that were asked for."""
    read = {}
    parts = [part_of(wish, reader, read) for wish in wishes.parts]
    if not reader.settings.quiet:
        console.tell(*slips.told(parts, wishes.outs or ()))
    return of_wishes(wishes, parts)


def of_wishes(wishes, parts):
    """The specification with the given parts, and the settings that were asked for."""
    sides = [
        tuple(it for it, wish in zip(parts, wishes.parts) if wish.is_assumed == is_assumed)
        for is_assumed in (True, False)
    ]
    for side in sides:
        refuse_same_titles(side)
    names = tuple(dict.fromkeys([*wishes.names, *(name for it in parts for name in it.names)]))
    if len(names) > MOST_PROPOSITIONS:
        raise Refused(f"the parts have {len(names)} propositions, and psyn reads at most {MOST_PROPOSITIONS}")
    return Specification(*sides, names, owned(parts, names, wishes.outs), wishes.is_strict)


def refuse_same_titles(parts):
    titles = [it.title for it in parts]
    twice = next((title for title in titles if titles.count(title) > 1), None)
    if twice is not None:
        raise Refused(f"two parts have the name {twice}: leave one out, or give the files other names")


def part_of(wish, reader, read):
    """The part that was asked for; if its text is not a part, the error message names the file, or the sentence."""
    if wish.made:
        return wish.made
    if wish.is_spoken:
        return refused_behind(": ".join(filter(None, [wish.place, repr(wish.path)])), part_of_sentence, wish)
    if wish.path not in read:
        read[wish.path] = reader.text(Kind.AUTOMATON, wish.path)
        refuse_faults(read[wish.path])
    text = read[wish.path]
    stem = re.sub(r"\.hoa$", "", os.path.basename(text.name))
    place = ": ".join(filter(None, [wish.place, text.name]))
    return refused_behind(place, part.part_of, stem, wish.sentence, wish.renamed, text.string)


def part_of_sentence(wish):
    from psyntool.parts import spoken

    if wish.renamed:
        raise Refused(f"{AS.name} renames propositions of files; write the sentence with the names that are wanted")
    formula, names = spoken.read(wish.path)
    return spoken.part_of(wish.path, wish.sentence, formula, names)


def refuse_faults(text):
    """Refuses a file that the program does not accept as an automaton, and shows the program's fault with its
    position."""
    if text.looks_like not in (None, Kind.AUTOMATON):
        raise Refused(f"{text.name} is {text.looks_like.with_article}; a part is an automaton")
    # a part may leave open who controls its propositions
    data, at = text.bytes, None
    try:
        at = automaton.place_without_owners(text.string)
    except Unreadable:
        pass
    if at is not None:
        at = len(text.string[:at].encode("utf-8", "surrogateescape"))
        data = data[:at] + OWNERS + data[at:]
    answer = program.ask(b"lasso\n" + data + b"%%\n" + NO_CIRCUIT)
    found = re.fullmatch(r"fault (\d+) (\w+)(?: at (\d+))?.*\n", answer.text)
    fault = next((it for it in faults.read_document() if found and it.number == int(found[1])), None)
    if answer.died:
        raise Refused(f"{text.name}: {answer.died}")
    if fault and fault.kind is Kind.AUTOMATON and fault.name not in TOLD_BETTER:
        place = ""
        if found[3]:
            offset = int(found[3])
            offset -= len(OWNERS) if at is not None and offset > at else 0
            place = ":{}:{}".format(*marking.line_and_column(text.original, text.place_in_file(offset)))
        raise Refused(f"{text.name}{place}: fault {fault.number} {fault.name}: {fault.entries['Cause']}")


def owned(parts, names, outs):
    """The controller's propositions: those that a part, or the flag --outs, assigns to the controller."""
    mine, others = set(outs or ()), {}
    strange = next((name for name in outs or () if name not in names), None)
    if strange is not None:
        if strange.rstrip(",;") in names:
            raise Refused(
                f"{OUTS.shown}: no part has a proposition {strange!r}: write blanks between names, and no comma"
            )
        raise Refused(f"{OUTS.shown}: no part has a proposition {strange}{words.nearest(strange, names)}")
    by = dict.fromkeys(mine, OUTS.name)
    for it in parts:
        if it.says_whose:
            for number, name in enumerate(it.names):
                (by if number in it.automaton.controllable else others).setdefault(name, it.title)
    torn = next((name for name in names if name in by and name in others), None)
    if torn is not None:
        raise Refused(f"{torn} is the controller's by {by[torn]}, and the environment's by {others[torn]}")
    unsaid = [name for name in names if name not in by and name not in others]
    if unsaid and outs is None:
        raise Refused(f"no part says whose {unsaid[0]} is: {OUTS.shown} names the propositions of the controller")
    return frozenset(by)


def kept(read):
    """The specification that a composed automaton, or a translated one, stores, or None if it stores none."""
    tokens, others = (read.headers.get(item, []) for item in ("part:", "sentence:"))
    if not tokens and not others:
        return None
    said = [hoa.unquoted(token) for token in tokens]
    if len(said) % WORDS_OF_AN_ITEM or any(side not in ("assume", "guarantee") for side in said[::WORDS_OF_AN_ITEM]):
        raise NotComposed(
            "an item `part:` is not `assume` or `guarantee` with three strings behind it: it was not written by compose"
        )
    sides = {"assume": [], "guarantee": []}
    for at in range(0, len(said), WORDS_OF_AN_ITEM):
        side, title, sentence, text = said[at : at + WORDS_OF_AN_ITEM]
        sides[side].append(part.from_item(title, sentence, text, read.names))
    mine = frozenset(read.names[number] for number in read.controllable)
    is_strict = read.headers.get("reading:") == ["strict"]
    words = [hoa.unquoted(token) for token in others]
    return Specification(
        tuple(sides["assume"]),
        tuple(sides["guarantee"]),
        read.names,
        mine,
        is_strict,
        tuple(zip(words[::2], words[1::2])),
    )
