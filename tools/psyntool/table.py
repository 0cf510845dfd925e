"""The commands, in the order of the help, the manual and the completions.

The commands of the program come first, in the order of the program's own table. A command's function `run` is in a file
of the command's name in `commands`, or in `asking` if the command only hands the program's answer on.
"""
from psyntool.command import (
    ABC, AIG, ASSUME, AUTO, AUTOMATON, BY, CERT, CHECK, CIRCUIT, COMPACT, DROP, EDGES, ENV, FORCE, FULL, GUARANTEE,
    JOBS, JOIN, KEEP, LOG, MOORE, NAMES, OF_PARTS, OF_SENTENCES, OUTS, PARTS, PICTURE, PRIORITIES, REACH, SEED, SET,
    SMALL, STIMULUS, STRICT, SVA, TABLE, TLSF, TO_FILE, TO_FILES, TO_FOLDER, TO_TLSF, TRACE, WAVE, Command,
    of_the_program,
)  # fmt: skip
from psyntool.kinds import Kind
from psyntool.usages import USAGES

ASKING = "psyntool.asking"
OF_THE_PROGRAM = (
    of_the_program("closed", "whether the moves keep each player's region", module=ASKING),
    of_the_program("check", "valid, or the first flaw", module=ASKING),
    of_the_program(
        "judge", "the certificate by another solver's solution, or what is wrong with it", own=(PICTURE, CHECK)
    ),
    of_the_program("sim", "what a circuit does, letter by letter", own=(NAMES,)),
    of_the_program(
        "lasso",
        "whether the automaton accepts what the circuit does; with --tlsf whether that satisfies the specification",
        own=(TRACE, CHECK, SET),
    ),
    of_the_program(
        "verify",
        "wins if the automaton accepts all that the circuit does, else a stimulus on which it does not; "
        "with --tlsf by a specification",
        own=(STIMULUS, WAVE, CHECK, SET),
        apart={TLSF.name: (MOORE,)},
    ),
    of_the_program(
        "shrink",
        "a smaller circuit that wins too, as small as the search finds; if the circuit loses, "
        "a stimulus on which it does; with --tlsf by a specification",
        own=(ABC, STIMULUS, WAVE, CHECK, SET),
        apart={TLSF.name: (MOORE,)},
    ),
    of_the_program(
        "agree",
        "agrees if the automaton accepts exactly the words that satisfy the specification, "
        "else a word on which they differ",
        own=(CHECK, SET),
    ),
    of_the_program(
        "translate",
        "an automaton that accepts exactly the words that satisfy the specification",
        own=(SET,),
        module=ASKING,
    ),
    of_the_program("solve", "a certificate of a game", own=(BY, KEEP, PICTURE)),
    of_the_program("game", "the parity game of an automaton", module=ASKING),
    of_the_program("cert", "a certificate of that game", module=ASKING),
    of_the_program(
        "synth",
        "a controller, or an environment that defeats every finite-state one; "
        "with --cert by the certificate of its game; with --tlsf for a specification",
        own=(TO_FILES, AUTOMATON, FORCE, AIG, CHECK, SMALL, BY, KEEP, PICTURE, PARTS, *OF_PARTS, *OF_SENTENCES, SET),
        instead={flag.name: (Kind.LIST,) for flag in (PARTS, *OF_PARTS)},
        apart={TLSF.name: (FULL, CERT, MOORE, COMPACT, BY, KEEP, PICTURE, PARTS, *OF_PARTS), AIG.name: (FULL,)},
    ),
)
OF_THE_TOOL = (
    Command(
        "compose",
        "one automaton of all parts: it accepts a word if some assumption fails on it, or no guarantee does",
        (Kind.LIST,),
        own=(*OF_PARTS, SET),
        least=0,
    ),
    Command(
        "core",
        "if there is no controller: guarantees that conflict; if there is one: the assumptions that it needs; "
        "none can be left out",
        (Kind.LIST,),
        flags=(MOORE, TLSF),
        own=(*OF_PARTS, *OF_SENTENCES, TO_FILE, FORCE, SET),
        replaced={TLSF.name: Kind.SPECIFICATION},
        apart={TLSF.name: (MOORE, *OF_PARTS)},
        least=0,
    ),
    Command(
        "sane",
        "what looks like a mistake in sentences: assumptions that a controller can break, guarantees that contradict "
        "each other or follow from the others, outputs that never change, inputs without effect, names that look like "
        "slips",
        (Kind.SPECIFICATION,),
        flags=(MOORE,),
        own=(*OF_SENTENCES, ASSUME, GUARANTEE, OUTS, STRICT, SET),
    ),
    Command(
        "play",
        "a play against the circuit in files PREFIX..: you type the other player's letters, which go to PREFIX.stim; "
        "by a specification in temporal logic with what each sentence demands",
        ("PREFIX", "SPEC"),
        own=(AUTO, FORCE, SET),
    ),
    Command(
        "page",
        "a page for a browser, on which you play against the circuit in files PREFIX.., "
        "with pictures and what is proved; of one specification or list of parts alone against psyn's answer to it",
        ("PREFIX", "SPEC"),
        flags=(MOORE,),
        own=(PARTS, STRICT, CIRCUIT, SET),
        instead={PARTS.name: (Kind.LIST,), CIRCUIT.name: (Kind.FILE,)},
    ),
    Command(
        "show",
        "a picture, as Graphviz DOT: of a game (with its certificate or solution and its automaton), an automaton, "
        "a specification or a circuit",
        (Kind.FILE, Kind.FILE, Kind.FILE),
        own=(REACH, TABLE, SET),
        least=1,
    ),
    Command(
        "tlsf",
        "a specification in TLSF's full form, with parameters, functions, buses and sentences, "
        "written out in its basic form",
        (Kind.SPECIFICATION,),
        flags=(MOORE,),
        own=(SET, TO_TLSF, FORCE, *OF_SENTENCES, ASSUME, GUARANTEE, OUTS, STRICT),
        writes_out=False,
    ),
    Command("wave", "what sim prints, as a VCD file", (Kind.CIRCUIT, Kind.STIMULUS)),
    Command("convert", "a circuit in the other form of AIGER: `aag` to `aig`, and back", (Kind.CIRCUIT,), own=(DROP,)),
    Command(
        "verilog",
        "a circuit as a module of Verilog, with a comment for each output; if an automaton, "
        "a list of parts or a specification in temporal logic is given, only if the circuit wins",
        (Kind.CIRCUIT, "SPEC"),
        flags=(ENV, MOORE),
        own=(SVA, SET),
        least=1,
    ),
    Command(
        "c",
        "a circuit as functions of C, which allocate nothing, with a comment for each output; if an automaton, "
        "a list of parts or a specification in temporal logic is given, only if the circuit wins",
        (Kind.CIRCUIT, "SPEC"),
        flags=(ENV, MOORE),
        own=(SET,),
        least=1,
    ),
    Command("solution", "a certificate's winners and moves as a solution (`paritysol`)", (Kind.GAME, Kind.CERTIFICATE)),
    Command(
        "each",
        "runs COMMAND on each of several files, of folders and of lists of instances, or on as many at a time as it "
        "reads, and prints the first line of each answer",
        ("COMMAND", "FILE.."),
        own=(JOBS, LOG, JOIN, TO_FOLDER, FORCE),
        runs_another=True,
    ),
    Command(
        "games",
        "a parity game of a family, made by a rule: buchi, clique, jurdzinski, ladder, ladder2, loops, path, "
        "random, ring",
        ("FAMILY", "N"),
        own=(SEED, EDGES, PRIORITIES),
    ),
    Command("help", "what the tool can do, how a command is used, or all of this (`help all`)", ("COMMAND",), least=0),
    Command("version", "which psyn this is", ()),
)
COMMANDS = {row.name: row for row in (*OF_THE_PROGRAM, *OF_THE_TOOL)}
