"""`help`: what the tool can do, on one screen by task; how one command is used; or everything."""
import shutil
import textwrap

from psyntool import console, places
from psyntool.command import OF_SENTENCES, PARTS, TLSF, flags_told
from psyntool.ends import Refused
from psyntool.kinds import Kind
from psyntool.words import nearest

ALL = "all"
# Lines are filled up to the width of the terminal, but to no more columns than this.
MOST_COLUMNS = 120
HEAD = """\
{name} COMMAND [FLAGS] FILE..  (flags stand anywhere; `-` is standard input)
{name} help COMMAND  tells its flags, and {name} help all  everything.
"""
# The tasks, each with lines of commands and what these do.
TASKS = {
    "A specification: sentences in TLSF, with words such as `within 3 grant`": (
        ("synth", "a circuit that satisfies it, or one that defeats each"),
        ("core sane", "which sentences conflict; what looks like a mistake"),
        ("play page", "why it is won or lost, as a play: typed, in a browser"),
        ("tlsf translate compose", "it in TLSF's basic form, as an automaton; parts as one"),
    ),
    "A circuit, in AIGER": (
        ("verify agree", "does it win by the specification? does an automaton?"),
        ("lasso sim wave", "what it does on a stimulus; that as a VCD file"),
        ("shrink convert", "it with fewer gates, in the other form of AIGER"),
        ("verilog c", "it as a module of Verilog, as functions of C"),
    ),
    "An automaton or a parity game": (
        ("game cert", "the automaton's game, and a certificate of it"),
        ("solve check closed", "a game's certificate; is this one right?"),
        ("judge solution games", "another solver's solution; games of a family"),
    ),
    "Any of them": (("show each", "a picture; a command on many files"), ("help version", "this; which psyn this is")),
}
EXAMPLES = """\
Is there a controller for these sentences, in a file or on the command line? For this automaton?
  {name} synth -o arbiter arbiter.tlsf
  {name} synth --formula 'G (r -> F g)' --ins r --outs g
  {name} synth arbiter.hoa > answer
For parts, which are small automata, assumed or guaranteed?
  {name} synth --outs g0 g1 --assume again.hoa --guarantee never.hoa answered.hoa
  {name} synth --parts arbiter.parts
Why is there none? Play against the environment, by names; or see the play that holds out longest:
  {name} core arbiter.tlsf
  {name} play out spec.hoa
  {name} play --auto out spec.hoa
  {name} page arbiter.tlsf > page.html
Does this circuit win? The exit status tells (0, or 3 if it loses):
  {name} verify --check --quiet arbiter.tlsf arbiter.aag
What does it do on these inputs?
  printf '1\\n0\\n1\\n' | {name} sim --names circuit.aag -
A smaller circuit that wins too; as Verilog, with the sentences that mention each output:
  {name} shrink arbiter.tlsf arbiter.aag > small.aag
  {name} verilog small.aag arbiter.tlsf > arbiter.v
A game with its regions in two colours, the winning moves bold, and the automaton's names:
  {name} show game.pg game.cert automaton.hoa | dot -Tsvg > game.svg
Is another solver's solution right? Let it solve the game of an automaton:
  {name} judge --picture lost.dot game.pg game.sol > game.cert
  {name} synth --by 'oink {{game}} {{solution}}' arbiter.hoa
Many files, four at a time, with limits for each run, a log and a folder for the circuits; what came of them:
  {name} each --jobs 4 --time 60 --memory 4000 --log it.log -o circuits synth specs
  {name} each --join it.log
"""
ENDS = """\
The answer of the program is printed unchanged, and its exit status is this tool's: 0 for an answer (10 and 20 for \
REALIZABLE and UNREALIZABLE), 1 for a fault or an answer that could not be written whole, 2 for a refused command line \
or file, 3 with --check for the other verdict, 124 where --time or --cpu, and 125 where --memory ends the run without \
an answer, 130 for Ctrl-C.
What is wrong is explained on standard error: file, line and column, the cause, how to mend it (docs/FAULTS.md). A \
text whose last line is not ended is ended by a newline. Left out are carriage returns at line ends, a byte order \
mark, a line REALIZABLE above a circuit, and an input of it that the automaton does not mention and nothing reads. \
Standard error says so, and places are those of your file. With --quiet it explains nothing.
The program is $PSYN, or {program}.
"""


def columns():
    return max(40, min(shutil.get_terminal_size((MOST_COLUMNS, 24)).columns, MOST_COLUMNS))


def filled(text, indent=0, first=None):
    """A text in lines of the terminal's width; the first line begins with `first`."""
    first = " " * indent if first is None else first
    return textwrap.fill(
        text, columns(), initial_indent=first, subsequent_indent=" " * indent, break_long_words=False,
        break_on_hyphens=False,
    )


def rows(pairs):
    """Lines of two columns, of which the second one is filled."""
    width = 4 + max(len(first) for first, _ in pairs)
    if width > columns() // 2:
        return "\n".join(f"  {first}\n{filled(second, 6)}" if second else f"  {first}" for first, second in pairs)
    return "\n".join(
        filled(second, width, f"  {first:<{width - 2}}").rstrip() or f"  {first}" for first, second in pairs
    )


def tasks():
    """The help page of the whole tool on one screen: the commands by task."""
    width = max(len(words) for those in TASKS.values() for words, _ in those)
    parts = [f"{filled(line)}\n" for line in HEAD.format(name=places.NAME).splitlines()]
    for task, those in TASKS.items():
        parts += [f"{filled(task)}\n", rows([(f"{words:<{width}}", says) for words, says in those]), "\n"]
    return "".join(parts)


def usages(command):
    """How a command is used, one line for each kind of what it reads."""
    flags = " [FLAGS]" if command.all_flags else ""
    lines = [f"{command.name}{flags} {' '.join(command.wanted({name: True}))}" for name in command.replaced]
    optional = [f"[{kind.word}]" for kind in command.behind.values()]
    lines.append(" ".join([f"{command.name}{flags}", *command.wanted(), *optional]))
    lines += [f"{command.name}{flags} {PARTS.name} LIST"] * (PARTS.name in command.instead)
    lines += [f"{command.name} --formula SENTENCE --ins NAME.. --outs NAME.."] * set(OF_SENTENCES).issubset(command.own)
    return lines


def use_of(command):
    """How a command is used, with its flags."""
    flags = [(flag.shown, flag.says) for flag in command.all_flags]
    return "\n".join([*usages(command), filled(f"{command.says}.", 4), *([rows(flags)] if flags else []), ""])


def everything(request):
    """Examples, all commands, all flags, and what is said of answers."""
    examples = EXAMPLES.format(name=places.NAME).splitlines()
    parts = [f"{line if line.startswith(' ') else filled(line)}\n" for line in examples]
    parts.append("\nCommands:\n")
    for command in request.table.values():
        parts += [*(f"  {line}\n" for line in usages(command)), filled(command.says, 6), "\n"]
    parts += ["\nFlags, which stand anywhere (behind `--` no word is one):\n", rows(flags_told(request.table)), "\n\n"]
    parts += [f"{filled(line)}\n" for line in ENDS.format(program=places.PROGRAM).splitlines()]
    return "".join(parts)


def run(request):
    commands = request.table
    if not request.words:
        console.write_text(tasks())
    elif request.words[0] == ALL:
        console.write_text(everything(request))
    elif request.words[0] in commands:
        console.write_text(use_of(commands[request.words[0]]))
    else:
        raise Refused(f"there is no command {request.words[0]}{nearest(request.words[0], commands)}")
    return 0
