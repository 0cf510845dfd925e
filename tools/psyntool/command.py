"""The tool's commands, their flags, and parsed command lines.

For a command of the program, the program's own table (`usages`) states which flags and which texts the command takes.
The help, the manual and the completions are made from the commands in `table`.
"""
from __future__ import annotations

import importlib
import os
import re
from collections import Counter
from dataclasses import dataclass, field

from psyntool.ends import Refused
from psyntool.kinds import Kind, kind_of_file
from psyntool.usages import USAGES


@dataclass(frozen=True)
class Flag:
    """A flag: its name with the dashes, its description, and the name of its value if it has one. A flag with many
    values takes all words up to the next flag, and may be given more than once. A repeated flag takes one value each
    time that it is given."""

    name: str
    says: str
    value: str = ""
    many: bool = False
    repeated: bool = False

    @property
    def shown(self):
        return f"{self.name} {self.value}".strip()


FULL = Flag("--full", "print the game and the certificate too")
CERT = Flag("--cert", "by the certificate that is given, without a solver")
MOORE = Flag("--moore", "the controller moves first: outputs before inputs")
COMPACT = Flag("--compact", "the compact text of a certificate")
ENV = Flag("--env", "the circuit is an environment")
TLSF = Flag(
    "--tlsf",
    "a specification in temporal logic (TLSF) in the place of the automaton; "
    "a file that begins as one is taken for one without the flag",
)
OF_THE_PROGRAM = {flag.name: flag for flag in (FULL, CERT, MOORE, COMPACT, ENV, TLSF)}
TO_FILES = Flag(
    "-o",
    "circuit, game and certificate go to PREFIX.aag, PREFIX.pg and PREFIX.cert (then the first line alone is printed), "
    "the automaton of parts to PREFIX.hoa; of sentences the circuit alone, "
    "and those of the command line to PREFIX.tlsf",
    "PREFIX",
)
AUTOMATON = Flag("--automaton", "with -o, of sentences too: their automaton, its game and its certificate")
TO_FOLDER = Flag("-o", "the circuits of synth go to the folder PREFIX, each under the name of its file", "PREFIX")
TO_FILE = Flag(
    "-o", "the automaton of the parts that are listed goes to PREFIX.hoa, or the sentences to PREFIX.tlsf", "PREFIX"
)
FORCE = Flag("--force", "-o and play write over files that psyn has not written, too")
# Flags for games that another solver solves.
BY = Flag(
    "--by",
    "another solver solves the game: the words of a command, where {game} is the file that it reads (else its standard "
    "input), and {solution} the file that it writes (else its standard output)",
    "COMMAND",
)
KEEP = Flag("--keep", "a solution of --by that is wrong goes to FILE", "FILE")
PICTURE = Flag(
    "--picture", "where a player loses a cycle: the game, the solution and that cycle as Graphviz DOT", "FILE"
)
# Flags for specifications in parts.
ASSUME = Flag("--assume", "parts that are assumed, or sentences, as those of --formula", "PART..", many=True)
GUARANTEE = Flag("--guarantee", "parts that are guaranteed, or sentences", "PART..", many=True)
AS = Flag(
    "--as", "the part before it has other names for its propositions; OLD=!NEW negates one", "OLD=NEW..", many=True
)
OUTS = Flag(
    "--outs", "the controller's propositions, where parts or sentences do not say whose theirs are", "NAME..", many=True
)
STRICT = Flag("--strict", "a guarantee that breaks while no assumption has broken loses at once")
PARTS = Flag(
    "--parts", "a list of parts, or a specification whose sentences can be parts, in the place of the automaton"
)
OF_PARTS = (ASSUME, GUARANTEE, AS, OUTS, STRICT)
# Flags for sentences in temporal logic.
FORMULA = Flag(
    "--formula",
    "a guarantee in linear temporal logic, as Spot and other tools write it, in the place of a file",
    "SENTENCE",
    repeated=True,
)
INS = Flag("--ins", "the environment's propositions; without it all that --outs does not name", "NAME..", many=True)
OF_SENTENCES = (FORMULA, INS)
# Flags of one command each.
SET = Flag("--set", "a parameter of the specification has this value; one --set for each", "NAME=VALUE", repeated=True)
TO_TLSF = Flag("-o", "the basic form goes to PREFIX.tlsf", "PREFIX")
STIMULUS = Flag("--stimulus", "where the circuit loses: the stimulus goes to FILE", "FILE")
WAVE = Flag("--wave", "where the circuit loses: what it does on the stimulus goes to FILE, as a VCD file", "FILE")
TRACE = Flag(
    "--trace",
    "show the run too: the state, the letter by names, and the sets of each step; "
    "with --tlsf the sentences that are violated",
)
NAMES = Flag("--names", "begin with a line that names the latches, inputs and outputs")
CIRCUIT = Flag("--circuit", "play against any circuit that verify passes, in the place of PREFIX", "FILE")
AIG = Flag("--aig", "the circuit in binary AIGER")
ABC = Flag("--abc", "abc makes the circuit smaller first")
SMALL = Flag("--small", "the circuit is made smaller, as shrink makes it")
AUTO = Flag("--auto", "play without you, holding out long, and print the steps")
REACH = Flag("--reach", "only what so many steps from the start reach (of a circuit: from the outputs back)", "N")
SVA = Flag(
    "--sva", "SystemVerilog, in which each sentence is an assertion, or an assumption, or a comment that says why not"
)
TABLE = Flag(
    "--table",
    "of a circuit, its states and moves in place of a picture: FORM is kiss2, or hoa for an automaton",
    "FORM",
)
DROP = Flag("--drop", "leave out the input of that name, which nothing may read (as the clock that yosys adds)", "NAME")
CHECK = Flag(
    "--check",
    "exit status 3 where the answer is loses, rejected, violated, accepts, rejects, or that the solution is wrong; "
    "of synth 0 for REALIZABLE and 1 for UNREALIZABLE",
)
JOBS = Flag("--jobs", "so many runs at a time", "N")
LOG = Flag(
    "--log", "a line of JSON for each run goes to FILE; a run that FILE has a line of already is not done again", "FILE"
)
JOIN = Flag("--join", "read logs in place of COMMAND and files, and print where they disagree, and what was solved")
SEED = Flag("--seed", "another random game for the same number", "N")
EDGES = Flag("--edges", "so many different edges for each vertex of a random game", "N")
PRIORITIES = Flag("--priorities", "so many priorities in a random game, from 0 on", "N")
# Flags that every command takes.
JSON = Flag("--json", "one line of JSON in place of the answer, with the fields that the manual lists")
TIME = Flag("--time", "end a program, or a solver of --by, that is at work after so many seconds", "SECONDS")
CPU = Flag("--cpu", "the same after so many seconds of processor time, of all programs together", "SECONDS")
MEMORY = Flag("--memory", "so many MiB at most for the program, and for the solver of --by", "MIB")
LIMITS = (TIME, CPU, MEMORY)
QUIET = Flag("--quiet", "explain nothing")
PROGRESS = Flag("--progress", "tell the stages that are begun, and their seconds, also where no terminal is")
KEEP_RETURNS = Flag("--keep-returns", "leave carriage returns where they are")
ZERO_RESETS = Flag("--zero-resets", "unset latches of a circuit (their own literal as reset) begin with 0")
HELP = Flag("--help", "how the command is used")
VERSION = Flag("--version", "which psyn this is")
EVERYWHERE = (KEEP_RETURNS, ZERO_RESETS, JSON, *LIMITS, QUIET, PROGRESS, HELP, VERSION)
SHORT = {"-h": "--help", "-V": "--version"}


@dataclass(frozen=True)
class Command:
    """A command: its name, its description, and what it reads in order (the kind of each file, and a name for each
    other word).

    The flags in `flags` are passed to the program; the flags in `own` are handled by the tool. `behind` maps a flag to
    the kind of one more file that the command reads if the flag is given. `replaced` maps a flag to the kind that the
    first file then has. `instead` maps a flag to optional files that the command then reads in place of all others.
    `apart` maps a flag to flags that can't stand beside it.
    `least` is the number of words that must be given, if the last words may be left out. The function `run` of the
    module `place` runs the command.
    """

    name: str
    says: str
    reads: tuple
    flags: tuple = ()
    own: tuple = ()
    behind: dict = field(default_factory=dict)
    replaced: dict = field(default_factory=dict)
    instead: dict = field(default_factory=dict)
    apart: dict = field(default_factory=dict)
    least: int | None = None
    is_of_the_program: bool = False
    module: str = ""
    # whether its first word is another command, which it runs with all its flags
    runs_another: bool = False
    # whether the program reads its specifications, so that those in TLSF's full form are written out for it
    writes_out: bool = True

    @property
    def place(self):
        return self.module or f"psyntool.commands.{self.name}"

    def run(self, request):
        """Runs the command, and returns the exit status. Its module is imported only now, so that the tool starts
        quickly."""
        return importlib.import_module(self.place).run(request)

    @property
    def all_flags(self):
        return (*self.flags, *self.own)

    def kinds(self, given):
        """What the command reads with the given flags: the kind of each file, and a name for each other word."""
        if has_sentences(given):
            return self.reads[1:]
        other = next((kinds for name, kinds in self.instead.items() if name in given), None)
        first = tuple(kind for name, kind in self.replaced.items() if name in given)
        return other or (
            *first, *self.reads[len(first) :], *(kind for name, kind in self.behind.items() if name in given)
        )

    def recognised(self, given, words):
        """The given flags, and the flag for a first file of another kind if the file is of this kind, or if the command
        line has the sentences of a specification. A command that reads several words, and is given one list, reads
        that."""
        if has_sentences(given):
            return {**given, **dict.fromkeys(self.replaced, True)}
        if not words or set(self.instead) & set(given):
            return given
        if PARTS.name in self.instead and len(words) == 1 < len(self.reads):
            return {**given, PARTS.name: True} if is_of(words[0], Kind.LIST, Kind.SPECIFICATION) else given
        wanted = ((flag, kind) for flag, kind in self.replaced.items() if flag not in given)
        return {**given, **{flag: True for flag, kind in wanted if is_of(words[0], kind)}}

    def wanted(self, given=()):
        """The words of a usage line for what the command reads, with optional words in brackets."""
        words = [kind.word if isinstance(kind, Kind) else kind for kind in self.kinds(given)]
        is_whole = self.least is None or bool(set(self.replaced) & set(given))
        least = (
            0 if set(self.instead) & set(given) and not has_sentences(given) else len(words) if is_whole else self.least
        )
        return [word if place < least else f"[{word}]" for place, word in enumerate(words)]

    @property
    def usage(self):
        optional = [f"[{kind.word}]" for kind in self.behind.values()]
        return " ".join([self.name, *(f"[{flag.shown}]" for flag in self.all_flags), *self.wanted(), *optional])


def is_of(path, *kinds):
    """Whether a file is of one of the kinds, as its beginning shows; where that shows none, whether its name does."""
    found = kind_of_file(path)
    return found in kinds if found else path.endswith(tuple(f".{ending}" for kind in kinds for ending in kind.endings))


def has_sentences(given):
    """Whether the given flags have sentences, and no parts."""
    parts = [word for flag in (ASSUME, GUARANTEE) if flag.name in given for _, word in given[flag.name]]
    return all(map(is_sentence, parts)) and (FORMULA.name in given or bool(parts))


def is_sentence(word, folder=""):
    """Whether a word is a sentence, and not the path of a part in a folder."""
    return bool(re.search(r"[\s()!~&|<>]", word)) and not os.path.exists(os.path.join(folder, word))


def of_the_program(name, says, **more):
    """A command of the program, with the flags and the texts that the program's own table states."""
    usage = USAGES[name]
    flags = tuple(OF_THE_PROGRAM[flag] for flag in usage.flags)
    return Command(
        name, says, usage.texts, flags, behind=usage.added, replaced=usage.replaced, is_of_the_program=True, **more
    )


def flags_told(commands):
    """Each flag as it is written, with its description and the commands that have it. The flags that every command
    takes come last."""
    having = {}
    for command in commands.values():
        for flag in command.all_flags:
            having.setdefault(flag, []).append(command.name)
    told = [(flag.shown, f"of {', '.join(names)}: {flag.says}") for flag, names in having.items()]
    return told + [(flag.shown, flag.says) for flag in EVERYWHERE]


@dataclass
class Request:
    """A parsed command line: the command, the given flags with their values (True for a flag without a value), and the
    other words."""

    command: Command
    given: dict
    words: list
    # all commands, by name
    table: dict
    # the paths of the files that were read
    read: list = field(default_factory=list)

    @property
    def quiet(self):
        return QUIET.name in self.given

    @property
    def keep_returns(self):
        return KEEP_RETURNS.name in self.given

    @property
    def zero_resets(self):
        return ZERO_RESETS.name in self.given

    @property
    def passed(self):
        """Of the flags on the command line, those that the tool hands on to the program. The order of moves of a
        specification stands in its text."""
        left_out = [MOORE.name] if self.has_sentences else []
        return [
            name for name in self.given if name in {flag.name for flag in self.command.flags} and name not in left_out
        ]

    @property
    def has_sentences(self):
        return has_sentences(self.given)

    def has(self, flag):
        return flag.name in self.given

    def value(self, flag):
        return self.given.get(flag.name)

    def refuse_without(self, flag, other):
        """Refuses a flag that is given without the other flag, which it needs."""
        if self.has(flag) and not self.has(other):
            raise Refused(f"{self.command.name} {flag.name} wants {other.shown}")

    def number(self, flag):
        """A flag's value as a number, or None if the flag is not given."""
        said = self.given.get(flag.name)
        if said is not None and not (said.isdecimal() and len(said) < 10):
            raise Refused(f"{flag.shown}: {said!r} is no number")
        return None if said is None else int(said)

    def texts(self):
        """The files that the command reads. For a command that is not one of the program, a file of a wrong kind is
        refused here."""
        from psyntool.files import Reader

        kinds = self.command.kinds(self.given)
        if self.has(SET) and self.command.replaced and (Kind.SPECIFICATION not in kinds or self.has_sentences):
            raise Refused(f"{self.command.name} {SET.name} wants a specification in a file")
        wrong = next((flag for flag in (INS, OUTS, STRICT, MOORE, ASSUME, GUARANTEE) if self.has(flag)), None)
        if wrong and Kind.SPECIFICATION in kinds and not self.has_sentences:
            raise Refused(
                f"{self.command.name} {wrong.name} is for sentences on the command line: "
                "a specification says itself what it means"
            )
        texts = Reader(self).texts(kinds, self.words)
        if self.has_sentences:
            from psyntool import specifying

            texts.insert(0, specifying.of_sentences(self))
        if Kind.STIMULUS in [text.kind for text in texts]:
            from psyntool import letters

            letters.by_digits(texts)
        wrong = wrong_kinds(self.command, texts)
        if wrong and not self.command.is_of_the_program:
            raise Refused(wrong)
        return texts


# Ends what is said of files that are all there, in another order.
IN_ORDER = ", in this order"


def wrong_kinds(command, texts):
    """A message that names the files of another kind than the command expects, or an empty string if there are none."""
    said = ", ".join(
        f"{text.name} is {text.looks_like.with_article}" for text in texts if text.looks_like not in (None, text.kind)
    )
    if not said:
        return ""
    has_list, takes_list = any(text.looks_like is Kind.LIST for text in texts), PARTS in command.own
    hint = (f", or {PARTS.name} before a list" if takes_list else "; `compose` makes an automaton of a list") * has_list
    kinds = [text.kind for text in texts]
    if TLSF.name in command.replaced and any(text.looks_like is Kind.SPECIFICATION for text in texts):
        kinds[0] = Kind.SPECIFICATION
    if len(kinds) > 1 and Counter(kinds) == Counter(text.looks_like for text in texts):
        hint = IN_ORDER
    elif kinds == [Kind.CIRCUIT] and texts[0].looks_like in (Kind.SPECIFICATION, Kind.AUTOMATON):
        hint = "; `synth` makes one"
    return f"{said}; {command.name} wants {' '.join(kind.word for kind in kinds)}{hint}"
