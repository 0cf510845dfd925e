"""Makes the page docs/psyn.1 from the table of commands and from docs/FAULTS.md: tools/install --manual >
docs/psyn.1"""
import re

from psyntool import faults, reporting
from psyntool.command import flags_told
from psyntool.runs import logs
from psyntool.table import COMMANDS

ABOUT = """\
psyn makes a sequential circuit for a specification in temporal logic or a deterministic parity automaton: a controller,
or an environment that defeats every finite-state controller. It also makes, solves and checks parity games, runs and
judges circuits, and compares automata with specifications. Every answer of the program is proved right.
PP
`psyn` takes files by their names (`-` is standard input) and explains faults. It runs the program, which takes no
arguments, but reads the command, a newline, and the texts, with a line %% between two of them, from standard input.
"""
FORMATS = {
    "automaton": "Hanoi Omega-Automata format, version v1, with `controllable-AP:`, "
    "which lists the numbers of the controller's propositions. It is deterministic, "
    "and its acceptance is a parity chain: parity min or max, Buchi, co-Buchi, one Rabin or Streett pair.",
    "specification": "TLSF, the form of the synthesis competition. The program reads its basic form: formulas of "
    "linear temporal logic, in sections, over the inputs and outputs that the text declares. `SEMANTICS` and `TARGET` "
    "name the same order of moves. `U`, `R`, `W` beside operators of two operands, and `<->` beside `->` or `<->`, "
    "want parentheses. The tool writes the full form of TLSF 1.1 out in the basic form: PARAMETERS, functions, "
    "enumerations, buses, `&&[i IN {0, 1 .. n - 1}] f`, and words such as `within 3 f`, which docs/INTEROP.md defines.",
    "sentence": "a formula of linear temporal logic as Spot writes it, with the words of specifications too. "
    "`U` binds more than `&`.",
    "part": "an automaton of one rule. Its acceptance is `0 t` or `1 Inf(0)`, and a letter without an edge breaks it. "
    "It need not say who controls its propositions.",
    "list": "the flags of compose but --set, and --moore, in lines. Files are relative to the folder of the list. "
    "`#` begins a comment, which is the sentence of the parts that follow it, up to an empty line.",
    "game": "PGSolver's format: for each vertex its id, priority, owner (0 or 1), successors, optionally a name in "
    "quotes, and a semicolon. Player 0 wins if the greatest priority that occurs infinitely often is even.",
    "certificate": "psyn's own: the lines `psyncert 1` (or 2, compact), `vertices N`, `odd ..`, `even ..`, "
    "and for each vertex its id, winner, move or `-`, and a count for each priority by which the winner would lose.",
    "solution": "PGSolver's: optionally `paritysol N;`, and for each vertex its id, its winner, optionally a move, "
    "and a semicolon.",
    "circuit": "AIGER 1.9 in ASCII (`aag`), without properties; the tool also accepts the binary form (`aig`).",
    "stimulus": "a line for each letter, with a digit 0 or 1 for each input; for lasso, "
    "a line `-` between the stem and the lap.",
}
JSON = """\
With `--json`, a command prints one line of JSON in place of its answer, an object with the following fields. A field
that does not apply is null. `each --json` prints such a line for each run. Explanations still go to standard error.
"""
LOGS = """\
`each --log FILE` appends a line of JSON for each run to FILE, an object with the following fields, null where a field
does not apply. A run that FILE has a line of is not done again. docs/MANY.md has examples.
"""
STATUSES = {
    "0": "an answer",
    "10": "REALIZABLE: there is a controller",
    "20": "UNREALIZABLE: an environment wins",
    "1": "a fault, or an answer that could not be written completely",
    "2": "the command line or a file was refused",
    "3": "with --check, but not of synth: the answer is loses, rejected, violated, accepts or rejects, "
    "or fault 40, 50 or 51 of judge",
    "124": "no answer within the seconds of --time or --cpu",
    "125": "no answer within the memory of --memory: fault 24",
    "130": "ended by Ctrl-C; 143 by TERM and 129 by HUP",
}


def plain(text):
    """Text escaped for troff: code is bold, and a dot or a quote at the beginning of a line is escaped."""
    text = text.replace("\\", "\\e").replace("-", "\\-")
    text = re.sub(r"`([^`]*)`", r"\\fB\1\\fR", text)
    return re.sub(r"(?m)^([.'])", r"\\&\1", text)


def entry(head, body):
    return f".TP\n\\fB{plain(head)}\\fR\n{plain(body)}\n"


def first_sentence(text):
    """The first sentence of a text; a point in code ends none."""
    bare = re.sub(r"`[^`]*`", lambda found: "X" * len(found[0]), text)
    end = re.search(r"\.(?= [A-Z])", bare)
    return text[: end.end()] if end else text


def page():
    parts = ['.TH PSYN 1 "" psyn "User Commands"\n']

    def section(name, *bodies):
        parts.extend([f".SH {name}\n", *bodies])

    section("NAME", "psyn \\- proved synthesis of circuits from temporal logic and parity automata\n")
    section("SYNOPSIS", ".B psyn\n\\fIcommand\\fR [\\fIflags\\fR] \\fIfile\\fR ..\n")
    section("DESCRIPTION", re.sub(r"(?m)^PP$", ".PP", plain(ABOUT)))
    section("COMMANDS", *(entry(it.usage, it.says + ".") for it in COMMANDS.values() if it.is_of_the_program))
    section(
        "COMMANDS OF THE TOOL",
        *(entry(it.usage, it.says + ".") for it in COMMANDS.values() if not it.is_of_the_program),
    )
    section(
        "FLAGS",
        "Flags may stand anywhere; after \\fB\\-\\-\\fR no word is a flag.\n",
        *(entry(name, f"{says}.") for name, says in flags_told(COMMANDS)),
    )
    section("JSON", plain(JSON), *(entry(name, f"{says}.") for name, says in reporting.FIELDS.items()))
    section("LOGS", plain(LOGS), *(entry(name, f"{says}.") for name, says in logs.FIELDS.items()))
    section("FORMATS", *(entry(name, says) for name, says in FORMATS.items()))
    section("EXIT STATUS", *(entry(status, says + ".") for status, says in STATUSES.items()))
    told = [
        (f"{fault.number or ''} {fault.name}".strip(), first_sentence(fault.entries["Cause"]))
        for fault in faults.read_document()
    ]
    section(
        "FAULTS",
        "A fault is one line in place of the answer: fault, a number and a name, and its place. FAULTS.md says more.\n",
        *(entry(*it) for it in told),
    )
    section("ENVIRONMENT", entry("PSYN", "the program, if it is not the one that was installed or built."))
    return "".join(parts)
